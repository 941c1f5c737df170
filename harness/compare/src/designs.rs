//! Designs for the generators, and the lines that set them.

use crate::doubles::{not_finite, of_any_size};
use crate::judge::design::{Lent, CELLS, CONCENTRATIONS, POTENTIALS};
use crate::judge::sequences::STACKS;
use crate::random::Random;
use protocol::{bits, joined};
use std::fmt::Write;

/// What the numbers of a design are like.
#[derive(Debug, Clone, Copy, PartialEq)]
pub enum Sort {
    /// Quarters: sums are exact, and many are equal.
    Dyadic,
    /// Subnormal and hardly larger.
    Tiny,
    /// At the ends of the ranges.
    Huge,
    /// Energies of short duplexes, potentials of nanomolar to micromolar strands.
    Real,
    /// Each number of another sort.
    Mixed,
}

pub const SORTS: [Sort; 5] = [
    Sort::Dyadic,
    Sort::Tiny,
    Sort::Huge,
    Sort::Real,
    Sort::Mixed,
];

/// How large a design is.
pub struct Shape {
    pub positions: usize,
    /// Strand 0 included.
    pub strands: usize,
    /// Glues are below this.
    pub glues: usize,
    /// Cells that are set, the mirrored ones not counted.
    pub cells: usize,
}

impl Shape {
    pub fn small(random: &mut Random) -> Self {
        let glues = random.within(2..=6);
        Shape {
            positions: random.within(0..=4),
            strands: random.within(1..=6),
            glues,
            cells: random.within(0..=2 * glues),
        }
    }

    pub fn middling(random: &mut Random) -> Self {
        let glues = random.within(4..=20);
        Shape {
            positions: random.within(4..=24),
            strands: random.within(2..=16),
            glues,
            cells: random.within(glues..=4 * glues),
        }
    }

    pub fn full(random: &mut Random) -> Self {
        Shape {
            positions: random.pick(&[100, 127, 128, 128]),
            strands: random.pick(&[48, 63, 64, 64]),
            glues: 64,
            cells: random.pick(&[64, 200, 800]),
        }
    }
}

/// RT and the two excess temperatures.
#[derive(Debug, Clone, Copy)]
pub struct Ambient {
    pub rt: f64,
    pub strand_excess: f64,
    pub scaffold_excess: f64,
}

impl Ambient {
    /// One that document 01 admits, whether or not a temperature gives it.
    pub fn any(random: &mut Random) -> Self {
        Ambient {
            rt: random.double(0.125, 8.0),
            strand_excess: random.double(-1024.0, 1024.0),
            scaffold_excess: random.double(-1024.0, 1024.0),
        }
    }
}

/// A design that document 01 admits, at this ambient, all of it open.
pub fn design(random: &mut Random, sort: Sort, shape: &Shape, ambient: Ambient) -> Lent {
    marked(random, sort, shape, ambient, vec![0; shape.positions])
}

/// One with these marks. Potentials that they keep from being read may be no numbers.
pub fn marked(
    random: &mut Random,
    sort: Sort,
    shape: &Shape,
    ambient: Ambient,
    marks: Vec<u8>,
) -> Lent {
    let mut lent = Lent {
        scaffold: (0..shape.positions).map(|_| glue(random, shape)).collect(),
        marks,
        glues: vec![0; 3],
        dg: vec![0.0; CELLS],
        ds: vec![0.0; CELLS],
        rt: ambient.rt,
        strand_excess: ambient.strand_excess,
        scaffold_excess: ambient.scaffold_excess,
        ..Lent::default()
    };
    for _ in 3..3 * shape.strands {
        lent.glues.push(glue(random, shape));
    }
    set_cells(random, sort, shape, &mut lent);
    lent.potentials = vec![0.0; shape.strands];
    for strand in 0..shape.strands {
        let read = lent.is_somewhere_friend(strand);
        lent.potentials[strand] = match read || random.once_in(2) {
            true => potential(random, sort),
            false => random.pick(&not_finite()),
        };
    }
    lent
}

/// Marks of so many positions, one of them blocked at least where there is one: few, half or all.
pub fn blocks(random: &mut Random, positions: usize) -> Vec<u8> {
    let in_eight = random.pick(&[1, 2, 4, 8]);
    let mut marks: Vec<u8> = (0..positions)
        .map(|_| u8::from(random.below(8) < in_eight))
        .collect();
    if positions > 0 {
        marks[random.below(positions)] = 1;
    }
    marks
}

/// Not 0 more often than 0.
fn glue(random: &mut Random, shape: &Shape) -> u8 {
    match random.once_in(8) {
        true => 0,
        false => random.within(1..=shape.glues - 1) as u8,
    }
}

/// Half of the designs have symmetric tables. Row and column 0 may hold a −0.0, which is zero.
fn set_cells(random: &mut Random, sort: Sort, shape: &Shape, lent: &mut Lent) {
    let mirrored = random.once_in(2);
    for _ in 0..shape.cells {
        let row = random.within(1..=shape.glues - 1);
        let column = random.within(1..=shape.glues - 1);
        let (dg, ds) = cell(random, sort);
        (lent.dg[row * 64 + column], lent.ds[row * 64 + column]) = (dg, ds);
        if mirrored {
            (lent.dg[column * 64 + row], lent.ds[column * 64 + row]) = (dg, ds);
        }
    }
    if random.once_in(4) {
        let glue = random.below(shape.glues);
        lent.dg[glue] = -0.0;
        lent.ds[glue * 64] = -0.0;
    }
}

/// dG and dS, either of them zero at times, of either sign.
fn cell(random: &mut Random, sort: Sort) -> (f64, f64) {
    let (mut dg, mut ds) = match sort_of_one(random, sort) {
        Sort::Dyadic => (quarters(random, 16), 0.0),
        Sort::Tiny => (tiny(random), tiny(random)),
        Sort::Huge => (end(random, 1024.0), end(random, 8.0)),
        Sort::Real | Sort::Mixed => duplex(random),
    };
    match random.below(12) {
        0 => dg = 0.0,
        1 => dg = -0.0,
        2 => ds = 0.0,
        3 => ds = -0.0,
        _ => {}
    }
    (dg, ds)
}

fn potential(random: &mut Random, sort: Sort) -> f64 {
    match sort_of_one(random, sort) {
        Sort::Dyadic => quarters(random, 24),
        Sort::Tiny => tiny(random),
        Sort::Huge => end(random, 1024.0),
        Sort::Real => random.double(1e-9, 1e-5).ln(),
        Sort::Mixed => of_any_size(random).clamp(-1024.0, 1024.0),
    }
}

fn sort_of_one(random: &mut Random, sort: Sort) -> Sort {
    match sort {
        Sort::Mixed => random.pick(&SORTS),
        sort => sort,
    }
}

fn quarters(random: &mut Random, most: usize) -> f64 {
    (random.within(0..=2 * most) as f64 - most as f64) / 4.0
}

fn tiny(random: &mut Random) -> f64 {
    let size = f64::from_bits(random.pick(&[1, 2, 3, 5, 7, 1 << 20, 1 << 52, 3 << 52]));
    signed(random, size)
}

fn end(random: &mut Random, end: f64) -> f64 {
    let size = random.pick(&[end, end, end.next_down(), end / 2.0]);
    signed(random, size)
}

fn signed(random: &mut Random, size: f64) -> f64 {
    match random.once_in(2) {
        true => size,
        false => -size,
    }
}

/// A duplex of 4 to 12 bases, initiation included.
fn duplex(random: &mut Random) -> (f64, f64) {
    let (mut dg, mut ds) = (0.0, 0.0);
    for _ in 0..random.within(3..=11) {
        let (_, hundredths, tenths) = random.pick(&STACKS);
        dg += f64::from(hundredths) / 100.0;
        ds += f64::from(tenths) / 10_000.0;
    }
    (dg + 1.96, ds + 0.0057)
}

/// Lines for oracle and port, without the temperature: cells of +0.0 are left out. The amounts are the
/// potentials.
pub fn lines_of_both(lent: &Lent, glues: usize) -> String {
    let mut lines = format!("mode id\nd.new {} {glues}\n", lent.strands());
    for (strand, potential) in lent.potentials.iter().enumerate() {
        let sides = joined(&lent.glues[3 * strand..3 * strand + 3], " ");
        line(
            &mut lines,
            format_args!("d.strand {strand} {sides} {}", bits(*potential)),
        );
    }
    if !lent.scaffold.is_empty() {
        line(
            &mut lines,
            format_args!("d.scaffold {}", joined(&lent.scaffold, " ")),
        );
    }
    for (name, table) in [("dg", &lent.dg), ("ds", &lent.ds)] {
        for (cell, x) in set(table) {
            let (row, column) = (cell / 64, cell % 64);
            line(
                &mut lines,
                format_args!("d.{name} {row} {column} {}", bits(x)),
            );
        }
    }
    lines
}

/// All lines for the port: the Rust knows no marks and no concentrations, and its ambient is made of a
/// temperature.
pub fn lines_of_port(lent: &Lent, glues: usize) -> String {
    let lines = lines_of_both(lent, glues);
    let (marks, amounts) = (marks_line(lent), amounts_line(lent));
    format!("{lines}{marks}{amounts}{}", ambient_line(lent))
}

/// The port's line for concentrations in place of the potentials.
fn amounts_line(lent: &Lent) -> String {
    match lent.given {
        CONCENTRATIONS => {
            let concentrations = lent.concentrations.iter().map(|x| bits(*x));
            format!("d.concentrations {}\n", joined(concentrations, " "))
        }
        _ => String::new(),
    }
}

/// The port's line for the marks, where not all are 0.
fn marks_line(lent: &Lent) -> String {
    match lent.has_blocked() {
        true => format!("d.marks {}\n", joined(&lent.marks, " ")),
        false => String::new(),
    }
}

/// The port's line for the ambient.
fn ambient_line(lent: &Lent) -> String {
    let ambient = [lent.rt, lent.strand_excess, lent.scaffold_excess];
    format!("d.ambient {}\n", joined(ambient.map(bits), " "))
}

/// Lines for the port alone: slices of any length and content.
pub fn raw_lines(lent: &Lent) -> String {
    let strands = lent.strands();
    let mut lines = format!("d.new {strands} 64\n{}", ambient_line(lent));
    if lent.given != POTENTIALS {
        line(&mut lines, format_args!("d.given {}", lent.given));
    }
    if !lent.scaffold.is_empty() {
        line(
            &mut lines,
            format_args!("d.scaffold {}", joined(&lent.scaffold, " ")),
        );
    }
    for (name, length, usual) in [
        ("marks", lent.marks.len(), lent.positions()),
        ("glues", lent.glues.len(), 3 * strands),
        ("dg", lent.dg.len(), CELLS),
        ("ds", lent.ds.len(), CELLS),
    ] {
        if length != usual {
            line(&mut lines, format_args!("raw.len {name} {length}"));
        }
    }
    for (name, bytes) in [("marks", &lent.marks), ("glues", &lent.glues)] {
        for (index, byte) in bytes.iter().enumerate().filter(|(_, byte)| **byte != 0) {
            line(&mut lines, format_args!("raw.set {name} {index} {byte}"));
        }
    }
    for (name, doubles) in [
        ("dg", &lent.dg[..]),
        ("ds", &lent.ds),
        ("amounts", lent.amounts()),
    ] {
        for (index, x) in set(doubles) {
            line(
                &mut lines,
                format_args!("raw.set {name} {index} {}", bits(x)),
            );
        }
    }
    lines
}

/// The entries whose bits are not 0.
fn set(doubles: &[f64]) -> impl Iterator<Item = (usize, f64)> + '_ {
    let all = doubles.iter().copied().enumerate();
    all.filter(|(_, x)| x.to_bits() != 0)
}

fn line(lines: &mut String, text: std::fmt::Arguments) {
    writeln!(lines, "{text}").expect("a String takes any text");
}

#[cfg(test)]
mod tests {
    use super::*;
    use crate::judge::Verdict;

    #[test]
    fn designs_are_admitted_and_most_have_friends() {
        let mut random = Random::new(7);
        let ambient = Ambient {
            rt: 8.0,
            strand_excess: 1024.0,
            scaffold_excess: -1024.0,
        };
        let (mut many, mut unread) = (0, 0);
        for round in 0..400 {
            let shape = match round % 20 {
                0 => Shape::full(&mut random),
                1 => Shape::middling(&mut random),
                _ => Shape::small(&mut random),
            };
            let sort = SORTS[round % 5];
            let lent = design(&mut random, sort, &shape, ambient);
            let empty = vec![0; lent.positions()];
            assert_eq!(lent.energy_verdict(&empty), Verdict::Admitted);
            many += usize::from(lent.count() > 3);
            unread += usize::from(lent.potentials[1..].iter().any(|x| !x.is_finite()));
        }
        assert!(many > 100 && unread > 50, "{many} {unread}");
    }
}
