//! Designs with blocked positions, asked as designs are. Where a position is blocked the Rust is asked
//! for the same design without a glue there, and for the scaffold bonds of the real glue.

use super::design::ask_about;
use super::{Ask, AskOracle, Kind};
use crate::ambients::{self, Ambients, ROUND_RTS};
use crate::designs::{blocks, marked, Ambient, Shape, Sort, SORTS};
use crate::judge::design::{Lent, CELLS};
use crate::judge::search::Reading;
use crate::random::Random;
use std::cell::{Cell, RefCell};

#[derive(Default)]
pub struct Blocked {
    ambients: RefCell<Ambients>,
    designs: Cell<u64>,
    /// Those that settle otherwise than they would with all positions open.
    moved: Cell<u64>,
}

/// Designs of each size in one round.
const SMALL: usize = 2570;
const MIDDLING: usize = 40;
const FULL: usize = 5;

impl Kind for Blocked {
    fn name(&self) -> &'static str {
        "blocked"
    }

    fn replies(&self) -> &'static [u32] {
        &[0, 12]
    }

    fn prepare(&self, oracle: &mut AskOracle) -> Result<(), String> {
        *self.ambients.borrow_mut() = ambients::ask(oracle)?;
        Ok(())
    }

    /// The bench table's two positions, with each choice of marks.
    fn fixed(&self, ask: &mut Ask) {
        let random = &mut Random::new(7);
        let at_a_half = |(_, ambient): &(f64, Ambient)| ambient.rt == 0.5;
        let (kelvin, ambient) = {
            let ambients = self.ambients.borrow();
            *ambients
                .iter()
                .find(|one| at_a_half(one))
                .expect("prepared")
        };
        for marks in [[0, 0], [1, 0], [0, 1], [1, 1]] {
            let mut lent = Lent {
                scaffold: vec![1, 2],
                marks: marks.to_vec(),
                glues: vec![0, 0, 0, 0, 1, 0, 0, 2, 0],
                dg: vec![0.0; CELLS],
                ds: vec![0.0; CELLS],
                potentials: vec![0.0, -1.0, -1.0],
                rt: ambient.rt,
                strand_excess: ambient.strand_excess,
                scaffold_excess: ambient.scaffold_excess,
                ..Lent::default()
            };
            (lent.dg[65], lent.dg[130]) = (-0.5, -2.0);
            ask_about(random, kelvin, lent, 4, ask);
        }
    }

    fn random(&self, random: &mut Random, ask: &mut Ask) {
        for number in 0..SMALL + MIDDLING + FULL {
            let mut shape = match number {
                ..SMALL => Shape::small(random),
                number if number < SMALL + MIDDLING => Shape::middling(random),
                _ => Shape::full(random),
            };
            shape.positions = shape.positions.max(1);
            let sort = random.pick(&SORTS);
            let (kelvin, ambient) = self.ambient(random, sort);
            let marks = blocks(random, shape.positions);
            let lent = marked(random, sort, &shape, ambient, marks);
            self.count(&lent);
            ask_about(random, kelvin, lent, shape.glues, ask);
        }
    }

    fn made(&self) -> Vec<(&'static str, u64)> {
        vec![
            ("designs with blocked positions", self.designs.get()),
            ("that settle otherwise than open ones", self.moved.get()),
        ]
    }
}

impl Blocked {
    /// Dyadic designs tie at round RTs alone.
    fn ambient(&self, random: &mut Random, sort: Sort) -> (f64, Ambient) {
        let mut ambients = self.ambients.borrow().clone();
        if sort == Sort::Dyadic {
            ambients.retain(|(_, ambient)| ROUND_RTS.contains(&ambient.rt));
        }
        random.pick(&ambients)
    }

    fn count(&self, lent: &Lent) {
        let add = |count: &Cell<u64>, one: bool| count.set(count.get() + u64::from(one));
        let mut open = lent.clone();
        open.marks.fill(0);
        let moved = open.search(Reading::Document).1 != lent.search(Reading::Document).1;
        add(&self.designs, lent.has_blocked());
        add(&self.moved, moved);
    }
}
