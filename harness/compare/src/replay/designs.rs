//! Designs of the list: the lines that set one, and the questions about it. Figures are the oracle's;
//! the judge has the refusals, counts beyond what the Rust can list, and the product of a chain's sum
//! with RT.

use super::Answered;
use crate::ambients::{self, Ambients, ROUND_RTS};
use crate::designs::{design, lines_of_both, Shape, Sort, SORTS};
use crate::judge::design::{Lent, FRIENDS_LENT};
use crate::judge::Verdict;
use crate::program::Program;
use crate::random::Random;
use protocol::{bits, double, joined, Reply};

const SEED: u64 = 128;

/// Designs of each size.
const SMALL: usize = 160;
const MIDDLING: usize = 8;
const FULL: usize = 2;

/// The Rust lists all states for each question about states, so it is asked only up to here.
const LISTED_BY_THE_RUST: u128 = 4096;

pub fn designs(oracle: &mut Program) -> Result<Vec<Answered>, String> {
    let ambients = ambients::ask(&mut |lines| oracle.ask(lines))?;
    let random = &mut Random::new(SEED);
    let mut answered = vec![];
    for number in 0..SMALL + MIDDLING + FULL {
        let shape = match number {
            ..SMALL => Shape::small(random),
            number if number < SMALL + MIDDLING => Shape::middling(random),
            _ => Shape {
                cells: 120,
                ..Shape::full(random)
            },
        };
        let sort = SORTS[number % SORTS.len()];
        let (kelvin, lent) = drawn(random, &ambients, sort, &shape);
        let mut about = About {
            oracle: &mut *oracle,
            lent: &lent,
            lines: vec![],
        };
        about.settle(kelvin, shape.glues)?;
        about.bonds(random)?;
        about.states(random)?;
        about.energies(random)?;
        about.search()?;
        answered.append(&mut about.lines);
        if number % 8 == 0 {
            answered.append(&mut refused(random, &lent));
        }
    }
    Ok(answered)
}

fn drawn(random: &mut Random, ambients: &Ambients, sort: Sort, shape: &Shape) -> (f64, Lent) {
    let mut ambients = ambients.clone();
    if sort == Sort::Dyadic {
        ambients.retain(|(_, ambient)| ROUND_RTS.contains(&ambient.rt));
    }
    let (kelvin, ambient) = random.pick(&ambients);
    (kelvin, design(random, sort, shape, ambient))
}

/// The lines that set a design. What is 0 is left out.
pub fn setting(lent: &Lent) -> Vec<Answered> {
    let ambient = [lent.rt, lent.strand_excess, lent.scaffold_excess].map(bits);
    let (positions, strands) = (lent.positions(), lent.strands());
    let begun = format!("design {positions} {strands} {}", ambient.join(" "));
    let mut lines = vec![Answered::setter(begun)];
    for (name, bytes) in [("scaffold", &lent.scaffold), ("glue", &lent.glues)] {
        let set = bytes.iter().enumerate().filter(|(_, byte)| **byte != 0);
        lines.extend(set.map(|(index, byte)| Answered::setter(format!("{name} {index} {byte}"))));
    }
    for (name, doubles) in [
        ("potential", &lent.potentials),
        ("dg", &lent.dg),
        ("ds", &lent.ds),
    ] {
        let set = doubles.iter().enumerate().filter(|(_, x)| x.to_bits() != 0);
        lines
            .extend(set.map(|(index, x)| Answered::setter(format!("{name} {index} {}", bits(*x)))));
    }
    lines
}

/// A byte for each place: 48 and the number of its strand.
pub fn places(configuration: &[u8]) -> String {
    match configuration {
        [] => "-".to_string(),
        strands => strands.iter().map(|strand| (48 + strand) as char).collect(),
    }
}

/// The places of a list as the oracle writes it.
fn read_places(list: &str) -> Result<String, String> {
    if list == "-" {
        return Ok("-".to_string());
    }
    let strands: Result<Vec<u8>, _> = list.split(',').map(str::parse).collect();
    strands
        .map(|strands| places(&strands))
        .map_err(|_| format!("no configuration: {list}"))
}

/// A design that the oracle holds, and what was asked of it.
struct About<'a> {
    oracle: &'a mut Program,
    lent: &'a Lent,
    lines: Vec<Answered>,
}

impl About<'_> {
    fn ask(&mut self, line: &str) -> Result<String, String> {
        match Reply::parse(&self.oracle.ask(line)?) {
            Some(Reply::Ok(figures)) => Ok(figures),
            other => Err(format!("{line}: the oracle says {other:?}")),
        }
    }

    fn answered(&mut self, question: String, figures: String) {
        let answer = format!("ok {figures}");
        self.lines.push(Answered { question, answer });
    }

    fn settle(&mut self, kelvin: f64, glues: usize) -> Result<(), String> {
        let lines = lines_of_both(self.lent, glues);
        self.ask(&format!("{lines}d.temp K {}\nd.build", bits(kelvin)))?;
        self.lines.append(&mut setting(self.lent));
        Ok(())
    }

    fn bonds(&mut self, random: &mut Random) -> Result<(), String> {
        let (positions, strands) = (self.lent.positions(), self.lent.strands());
        for _ in 0..4 {
            let (x, y) = (random.below(strands), random.below(strands));
            let line = format!("sbond {x} {y}");
            let figure = self.ask(&line)?;
            self.answered(line, figure);
            if positions > 0 {
                let line = format!("cbond {} {x}", random.below(positions));
                let figure = self.ask(&line)?;
                self.answered(line, figure);
            }
        }
        let friends = self.ask("friends")?;
        for (position, friends) in friends.split(';').enumerate().take(positions) {
            if positions <= 8 || random.once_in(16) {
                self.answered(format!("friends {position}"), read_places(friends)?);
            }
        }
        Ok(())
    }

    fn states(&mut self, random: &mut Random) -> Result<(), String> {
        let count = self.lent.count();
        if self.lent.count_verdict() != Verdict::Admitted {
            return Ok(());
        }
        if count <= LISTED_BY_THE_RUST && self.ask("nstates")? != count.to_string() {
            return Err("the judge counts other states".to_string());
        }
        self.answered("nstates".to_string(), format!("{count:016x}"));
        for rank in [random.below(count as usize) as u64, count as u64 - 1] {
            let line = format!("state {rank}");
            let state = match count <= LISTED_BY_THE_RUST {
                true => read_places(&self.ask(&line)?)?,
                false => places(&self.lent.state(rank)),
            };
            self.answered(line, state);
        }
        Ok(())
    }

    fn energies(&mut self, random: &mut Random) -> Result<(), String> {
        for _ in 0..2 {
            let option = |position| {
                let mut options = self.lent.friends(position);
                options.push(0);
                random.pick(&options)
            };
            let state: Vec<u8> = (0..self.lent.positions()).map(option).collect();
            let (list, word) = (joined(&state, ","), places(&state));
            let energy = self.ask(&format!("gsys {list}"))?;
            self.answered(format!("gsys {word}"), energy);
            let sum = self.ask(&format!("chain {list}"))?;
            let product = bits(double(&sum)? * self.lent.rt);
            self.answered(format!("chain {word}"), format!("{sum} {product}"));
        }
        Ok(())
    }

    fn search(&mut self) -> Result<(), String> {
        let settled = self.ask("mfe")?;
        let (energy, list) = settled.split_once(' ').ok_or("no configuration")?;
        self.answered("mfe".to_string(), energy.to_string());
        self.answered("settled".to_string(), read_places(list)?);
        Ok(())
    }
}

/// Questions that are refused: of the design as it is, which the lines before have set, and of one
/// with a fault.
fn refused(random: &mut Random, lent: &Lent) -> Vec<Answered> {
    let (positions, strands) = (lent.positions(), lent.strands());
    let stranger = vec![63; positions];
    let mut lines = vec![];
    let mut put = |question: String, verdict: Verdict| {
        if let Some(answer) = super::refused(verdict) {
            lines.push(Answered { question, answer });
        }
    };
    put(
        format!("sbond {strands} 0"),
        lent.strand_bond_verdict(strands, 0),
    );
    put(
        format!("cbond {positions} 0"),
        lent.scaffold_bond_verdict(positions, 0),
    );
    put(
        format!("friends {positions}"),
        lent.friends_verdict(positions, FRIENDS_LENT),
    );
    put("nstates".to_string(), lent.count_verdict());
    put(
        format!("state {}", u64::MAX),
        lent.state_verdict(u64::MAX, positions),
    );
    for word in ["gsys", "chain"] {
        let question = format!("{word} {}", places(&stranger));
        put(question, lent.energy_verdict(&stranger));
    }
    let mut faulty = lent.clone();
    match random.below(3) {
        0 => faulty.dg[random.below(4096)] = 1025.0,
        1 => faulty.ds[random.below(64)] = 1.0,
        _ => faulty.rt = f64::NAN,
    }
    lines.append(&mut setting(&faulty));
    let search = faulty.search_verdict(positions);
    for (question, verdict) in [
        ("mfe", search),
        ("settled", search),
        ("nstates", faulty.count_verdict()),
    ] {
        let answer = super::refused(verdict).expect("faulty");
        let question = question.to_string();
        lines.push(Answered { question, answer });
    }
    lines
}

#[cfg(test)]
mod tests {
    use super::*;

    #[test]
    fn places_are_bytes_from_48() {
        assert_eq!(places(&[]), "-");
        assert_eq!(places(&[0, 1, 10, 63]), "01:o");
        assert_eq!(read_places("1,0,63").as_deref(), Ok("10o"));
        assert_eq!(read_places("-").as_deref(), Ok("-"));
        assert!(read_places("1,x").is_err());
    }
}
