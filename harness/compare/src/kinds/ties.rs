//! Designs whose search meets equals on purpose, of each of three sorts. A design is asked only if a
//! reading of document 01 that is wrong about just that sort ends with another answer, so that the
//! rule matters; how many were made of each is counted, and none of a sort is a fault of the run.

use super::design::ask_about;
use super::{Ask, AskOracle, Kind};
use crate::ambients::{self, Ambients, ROUND_RTS};
use crate::designs::Ambient;
use crate::judge::design::{Lent, CELLS};
use crate::judge::search::Reading;
use crate::random::Random;
use std::cell::{Cell, RefCell};

#[derive(Default)]
pub struct Ties {
    ambients: RefCell<Ambients>,
    made: [Cell<u64>; 3],
}

/// Each sort with the reading that is wrong about it.
const SORTS: [(&str, Reading); 3] = [
    ("equal sums on the way", Reading::FirstOfEquals),
    ("sums of one product", Reading::SumsAtTheEnd),
    ("zeros of two signs", Reading::SignsAtTheEnd),
];

/// Draws for each sort in one round; those that do not tie are dropped.
const DRAWN: usize = 400;

/// A tiny energy times an RT up to this can round to a zero.
const MOST_RT_FOR_ZEROS: f64 = 0.5;

const GLUES: usize = 4;

impl Kind for Ties {
    fn name(&self) -> &'static str {
        "tie"
    }

    fn replies(&self) -> &'static [u32] {
        &[0]
    }

    fn prepare(&self, oracle: &mut AskOracle) -> Result<(), String> {
        *self.ambients.borrow_mut() = ambients::ask(oracle)?;
        Ok(())
    }

    fn fixed(&self, _ask: &mut Ask) {}

    fn random(&self, random: &mut Random, ask: &mut Ask) {
        for (sort, (_, wrong)) in SORTS.into_iter().enumerate() {
            for _ in 0..DRAWN {
                let (kelvin, lent) = self.drawn(random, sort);
                if ties(&lent, wrong) {
                    self.made[sort].set(self.made[sort].get() + 1);
                    ask_about(random, kelvin, lent, GLUES, ask);
                }
            }
        }
    }

    fn made(&self) -> Vec<(&'static str, u64)> {
        let names = SORTS.iter().map(|(name, _)| *name);
        names.zip(self.made.iter().map(Cell::get)).collect()
    }
}

impl Ties {
    fn drawn(&self, random: &mut Random, sort: usize) -> (f64, Lent) {
        let fits = |rt: f64| match sort {
            0 => ROUND_RTS.contains(&rt),
            1 => !ROUND_RTS.contains(&rt),
            _ => rt <= MOST_RT_FOR_ZEROS,
        };
        let mut ambients = self.ambients.borrow().clone();
        ambients.retain(|(_, ambient)| fits(ambient.rt));
        let (kelvin, ambient) = random.pick(&ambients);
        let lent = match sort {
            0 => equal_sums(random, ambient),
            1 => equal_products(random, ambient),
            _ => two_zeros(random, ambient),
        };
        (kelvin, lent)
    }
}

/// Whether the wrong reading shows: in the configuration, or in the energy's bits.
fn ties(lent: &Lent, wrong: Reading) -> bool {
    let seen = |reading| {
        let (energy, configuration) = lent.search(reading);
        (energy.to_bits(), configuration)
    };
    seen(Reading::Document) != seen(wrong)
}

/// Some positions of one glue, and strands that are friends there; nothing binds sideways.
fn blank(random: &mut Random, ambient: Ambient, positions: usize) -> Lent {
    let users = random.within(1..=4);
    let mut lent = Lent {
        scaffold: vec![1; positions],
        marks: vec![0; positions],
        glues: vec![0; 3],
        dg: vec![0.0; CELLS],
        ds: vec![0.0; CELLS],
        potentials: vec![0.0; users + 1],
        rt: ambient.rt,
        strand_excess: ambient.strand_excess,
        scaffold_excess: ambient.scaffold_excess,
        ..Lent::default()
    };
    for _ in 0..users {
        lent.glues.extend([0, 1, 0]);
    }
    lent
}

/// Few different energies, all of them halves, at an RT that keeps sums exact.
fn equal_sums(random: &mut Random, ambient: Ambient) -> Lent {
    let positions = random.within(2..=6);
    let mut lent = blank(random, ambient, positions);
    for glue in [1, 2, 3] {
        lent.dg[65 * glue] = random.pick(&[-1.0, -0.5, 0.5, 1.0]) * lent.rt;
    }
    for side in 3..lent.glues.len() {
        lent.glues[side] = match side % 3 {
            1 => random.within(1..=2) as u8,
            _ => random.pick(&[0, 3]),
        };
    }
    for position in 0..positions {
        lent.scaffold[position] = random.within(1..=2) as u8;
    }
    for strand in 1..lent.strands() {
        lent.potentials[strand] = random.pick(&[-0.5, 0.0, 0.5]);
    }
    lent
}

/// Potentials that rise from double to next double, with hardly any bond beside them: the least sum
/// comes last, and its product is often that of one before it.
fn equal_products(random: &mut Random, ambient: Ambient) -> Lent {
    let positions = random.within(1..=3);
    let mut lent = blank(random, ambient, positions);
    lent.dg[65] = random.pick(&[5e-324, -5e-324, 1e-3, -0.25]);
    let mut potential = random.double(0.5, 30.0);
    for strand in 1..lent.strands() {
        lent.potentials[strand] = potential;
        potential = potential.next_up();
    }
    lent
}

/// Each strand adds so few units of the smallest subnormal that RT rounds them to a zero.
fn two_zeros(random: &mut Random, ambient: Ambient) -> Lent {
    let positions = random.within(1..=3);
    let mut lent = blank(random, ambient, positions);
    lent.dg[65] = random.pick(&[5e-324, -5e-324]);
    let units = random.within(1..=(0.5 / ambient.rt) as usize) as u64;
    for strand in 1..lent.strands() {
        let added = random.pick(&[0.0, 1.0, -1.0]) * f64::from_bits(units);
        lent.potentials[strand] = lent.scaffold_bond(0, strand) - added;
    }
    lent
}

#[cfg(test)]
mod tests {
    use super::*;
    use crate::judge::Verdict;

    /// Of each sort some are made, and all of them are admitted.
    #[test]
    fn each_sort_is_made() {
        let ties_kind = Ties::default();
        for rt in [0.125, 0.25, 0.3, 0.6163, 0.7] {
            let ambient = Ambient {
                rt,
                strand_excess: 3.5,
                scaffold_excess: -2.25,
            };
            ties_kind.ambients.borrow_mut().push((1.0, ambient));
        }
        let random = &mut Random::new(12);
        for (sort, (name, wrong)) in SORTS.into_iter().enumerate() {
            let mut made = 0;
            for _ in 0..DRAWN {
                let (_, lent) = ties_kind.drawn(random, sort);
                let positions = lent.positions();
                assert_eq!(lent.search_verdict(positions), Verdict::Admitted, "{name}");
                made += usize::from(ties(&lent, wrong));
            }
            assert!(made > DRAWN / 20, "{name}: {made}");
        }
    }
}
