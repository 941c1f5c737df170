//! Sums over the states of a design, over the exponentials of its own energies, and probabilities:
//! `energy.sum`, `energy.lists` and `energy.part`, and `energy.occupants`. The Rust takes its exponentials from astro_float and is
//! not held against them; the judge has sums over exponentials of its own.

use super::sums::{lists, lists_line};
use super::{Ask, Kind};
use crate::designs::{blocks, lines_of_port, marked, raw_lines, Ambient, Shape, SORTS};
use crate::judge::design::Lent;
use crate::judge::energies::{self, Energies as Weights};
use crate::judge::exact::Exact;
use crate::judge::sums::{sum, Lists};
use crate::judge::Verdict;
use crate::question::{Expected, Question};
use crate::random::Random;
use crate::sums::{Asked, Occupants, Seen};
use std::cell::Cell;
use std::rc::Rc;

/// Designs of each size in one round.
const SMALL: usize = 990;
const MIDDLING: usize = 10;

/// The occupants of a design are asked for up to so many positions, and of every so many.
const SHORT: usize = 24;
const EVERY: usize = 40;

pub struct Energies {
    designs: Cell<u64>,
    sums: Rc<Seen>,
    probabilities: Rc<Seen>,
    occupants: Rc<Seen>,
}

impl Default for Energies {
    fn default() -> Self {
        Energies {
            designs: Cell::default(),
            sums: Seen::of("sums of energies", 14),
            probabilities: Seen::of("probabilities", 12),
            occupants: Seen::of("probabilities of occupants", 12),
        }
    }
}

/// Lists that leave every place free.
fn free(positions: usize) -> Lists {
    Lists {
        numbers: vec![],
        starts: vec![0; positions],
        lengths: vec![0; positions],
    }
}

/// The exact sums over all states and over those that meet the lists; zero for what is refused.
fn exact_sums(lent: &Lent, lists: &Lists, of_all: Verdict, of_some: Verdict) -> (Exact, Exact) {
    if of_all != Verdict::Admitted {
        return Default::default();
    }
    let weights = Weights::of(lent);
    let some = match of_some {
        Verdict::Admitted => sum(lent, &weights, Some(lists)),
        _ => Exact::default(),
    };
    (sum(lent, &weights, None), some)
}

/// A line for the port, with what is expected where it is admitted.
fn of_energies(setters: &str, line: String, verdict: Verdict, answered: Expected) -> Question {
    Question {
        port: format!("{setters}{line}"),
        oracle: None,
        expected: match verdict {
            Verdict::Admitted => answered,
            refused => Expected::Judged(refused),
        },
        about: None,
    }
}

impl Energies {
    /// The free sum, the constrained one and the probability; and the probability of all states, which is 1.
    fn about(&self, setters: &str, lent: &Lent, lists: &Lists, ask: &mut Ask) {
        self.designs.set(self.designs.get() + 1);
        let (of_all, of_some) = (
            energies::verdict(lent, None),
            energies::verdict(lent, Some(lists)),
        );
        let (all, some) = exact_sums(lent, lists, of_all, of_some);
        let sum = |exact: &Exact| Expected::Sum(Rc::new(Asked::sum(exact.clone(), &self.sums)));
        let part = Expected::Sum(Rc::new(Asked {
            exact: some.clone(),
            by: all.clone(),
            seen: self.probabilities.clone(),
        }));
        let whole = Expected::Figures("1073741824 -30".to_string());
        let free = free(lent.positions());
        let asked = [
            ("energy.sum".to_string(), of_all, sum(&all)),
            (lists_line("energy.lists", lists), of_some, sum(&some)),
            (lists_line("energy.part", lists), of_some, part),
            (lists_line("energy.part", &free), of_all, whole),
        ];
        for (line, verdict, answered) in asked {
            ask(of_energies(setters, line, verdict, answered));
        }
        if lent.positions() <= SHORT || lent.positions() % EVERY == 0 {
            self.about_occupants(setters, lent, &all, ask);
        }
    }

    /// The probability of each occupant at each position; now and then into too few cells.
    fn about_occupants(&self, setters: &str, lent: &Lent, all: &Exact, ask: &mut Ask) {
        let fit = lent.positions() * lent.strands();
        let (digits, powers) = match self.designs.get() % 16 {
            0 => (fit + 1, fit),
            1 => (fit, fit.saturating_sub(1)),
            _ => (fit, fit),
        };
        let verdict = energies::occupants_verdict(lent, digits, powers);
        let exact = match verdict {
            Verdict::Admitted => energies::occupants(lent, &Weights::of(lent)),
            _ => vec![],
        };
        let cell = |exact: Exact| Asked {
            exact,
            by: all.clone(),
            seen: self.occupants.clone(),
        };
        let table = Occupants {
            cells: exact.into_iter().map(cell).collect(),
            width: lent.strands(),
        };
        let line = format!("energy.occupants {digits} {powers}");
        let answered = Expected::Occupants(Rc::new(table));
        ask(of_energies(setters, line, verdict, answered));
    }

    fn drawn(&self, random: &mut Random, shape: &Shape, ask: &mut Ask) {
        let ambient = Ambient::any(random);
        let sort = random.pick(&SORTS);
        let marks = match random.once_in(4) {
            true => blocks(random, shape.positions),
            false => vec![0; shape.positions],
        };
        let lent = marked(random, sort, shape, ambient, marks);
        let setters = lines_of_port(&lent, shape.glues);
        let lists = lists(random, &lent);
        self.about(&setters, &lent, &lists, ask);
    }

    /// Of a design whose sizes are in order.
    pub(super) fn of_one(&self, random: &mut Random, lent: &Lent, ask: &mut Ask) {
        let lists = lists(random, lent);
        self.about(&raw_lines(lent), lent, &lists, ask);
    }

    /// A small design with every fault by itself, and each two of them.
    fn faults(&self, ask: &mut Ask) {
        type Change = fn(&mut Lent, &mut Lists);
        let changes: [Change; 14] = [
            |_, _| {},
            |lent, _| lent.dg[65] = f64::NAN,
            |lent, _| lent.ds[4095] = 9.0,
            |lent, _| lent.glues[1] = 1,
            |lent, _| lent.rt = 9.0,
            |lent, _| lent.strand_excess = f64::NAN,
            |lent, _| lent.potentials[1] = f64::INFINITY,
            // A strand that is nowhere a friend.
            |lent, _| lent.potentials[3] = f64::NAN,
            |_, lists| lists.starts.push(0),
            |_, lists| lists.lengths.push(0),
            |_, lists| lists.starts.truncate(1),
            |_, lists| lists.starts[0] = 4,
            |_, lists| lists.lengths[0] = usize::MAX,
            |lent, lists| {
                lent.open(vec![]);
                (lists.starts, lists.lengths) = (vec![], vec![]);
            },
        ];
        for first in 0..changes.len() {
            for second in first..changes.len() {
                let mut lent = two_friends();
                let mut lists = Lists {
                    numbers: vec![1, 0, 2],
                    starts: vec![0, 1],
                    lengths: vec![1, 2],
                };
                changes[first](&mut lent, &mut lists);
                changes[second](&mut lent, &mut lists);
                self.about(&raw_lines(&lent), &lent, &lists, ask);
            }
        }
    }

    /// Bonds and potentials at the ends of their ranges: exponents that no double has.
    fn ends(&self, ask: &mut Ask) {
        for sign in [1.0, -1.0] {
            for excess in [1024.0, -1024.0] {
                let mut lent = two_friends();
                (lent.dg[65], lent.dg[130]) = (1024.0 * sign, -1024.0 * sign);
                (lent.ds[65], lent.ds[130]) = (8.0, -8.0);
                (lent.potentials[1], lent.potentials[2]) = (1024.0, -1024.0);
                (lent.rt, lent.scaffold_excess) = (0.125, excess);
                for lists in [&[1u8, 2][..], &[0, 2], &[1, 0], &[0, 0], &[9, 9]] {
                    let lists = Lists {
                        numbers: lists.to_vec(),
                        starts: vec![0, 1],
                        lengths: vec![1, 1],
                    };
                    self.about(&raw_lines(&lent), &lent, &lists, ask);
                }
            }
        }
    }
}

/// Two positions with a friend each, and a strand that is none.
fn two_friends() -> Lent {
    let mut lent = Lent {
        scaffold: vec![1, 2],
        marks: vec![0; 2],
        glues: vec![0, 0, 0, 3, 1, 4, 4, 2, 3, 0, 5, 0],
        dg: vec![0.0; 4096],
        ds: vec![0.0; 4096],
        potentials: vec![0.0, -1.0, -1.0, 0.0],
        rt: 0.5,
        strand_excess: 0.0,
        scaffold_excess: 0.0,
        ..Lent::default()
    };
    (lent.dg[65], lent.dg[130]) = (-0.5, -2.0);
    (lent.dg[4 * 65], lent.dg[3 * 64 + 4]) = (-1.25, 3.0);
    lent
}

impl Kind for Energies {
    fn name(&self) -> &'static str {
        "energy"
    }

    fn replies(&self) -> &'static [u32] {
        &[0, 1, 9, 10, 16, 17, 18]
    }

    fn fixed(&self, ask: &mut Ask) {
        self.faults(ask);
        self.ends(ask);
        let random = &mut Random::new(29);
        for positions in 1..=128 {
            let shape = Shape {
                positions,
                strands: 4,
                glues: 4,
                cells: 3,
            };
            self.drawn(random, &shape, ask);
        }
    }

    fn random(&self, random: &mut Random, ask: &mut Ask) {
        for number in 0..SMALL + MIDDLING {
            let mut shape = match number {
                ..SMALL => Shape::small(random),
                _ => Shape::middling(random),
            };
            if !random.once_in(100) {
                shape.positions = shape.positions.max(1);
            }
            self.drawn(random, &shape, ask);
        }
    }

    fn made(&self) -> Vec<(&'static str, u64)> {
        vec![
            ("designs", self.designs.get()),
            ("probabilities of no state", self.probabilities.zeros()),
            ("occupants of no state", self.occupants.zeros()),
        ]
    }

    fn watched(&self) -> Option<Result<String, String>> {
        let said = [
            self.sums.said(),
            self.probabilities.said(),
            self.occupants.said(),
        ];
        let lines = |said: [Result<String, String>; 3]| {
            said.map(|line| line.unwrap_or_else(|line| line)).join("\n")
        };
        match said.iter().all(Result::is_ok) {
            true => Some(Ok(lines(said))),
            false => Some(Err(lines(said))),
        }
    }
}
