//! Concentrations that are just in or just out, how amounts are given, and two faults at once.

use super::Concentrations;
use crate::doubles::around;
use crate::judge::design::{Lent, CONCENTRATIONS, POTENTIALS};
use crate::judge::logarithm::{is_dilute, LEAST, MOST};
use crate::kinds::raw::{self, ask_every_call, Arguments};
use crate::kinds::Ask;
use crate::logarithms::out_of_range;
use crate::random::Random;

pub(super) fn all(kind: &Concentrations, ask: &mut Ask) {
    ends(kind, ask);
    amounts(kind, ask);
    sizes(kind, ask);
    two_at_once(kind, ask);
}

impl Concentrations {
    /// Of a strand, with the port's logarithm where there is one.
    fn set(&self, lent: &mut Lent, strand: usize, concentration: f64) {
        lent.concentrations[strand] = concentration;
        lent.potentials[strand] = match is_dilute(concentration) {
            true => f64::NAN,
            false => self.pool.borrow().logarithm(concentration),
        };
    }

    /// Three positions and four strands: 1 and 2 are friends, 3 is nowhere one.
    fn base(&self) -> Lent {
        let mut lent = raw::base();
        lent.concentrations = vec![0.0; 4];
        lent.given = CONCENTRATIONS;
        for (strand, concentration) in [0.0, 2.0f64.powi(-24), 2.0f64.powi(-23), -1.0]
            .into_iter()
            .enumerate()
        {
            self.set(&mut lent, strand, concentration);
        }
        lent
    }

    /// Every call, as usual.
    fn every_call(&self, lent: &Lent, ask: &mut Ask) {
        let usual = Arguments::usual(lent);
        ask_every_call(lent, &usual, ask);
        self.ask_further(&mut Random::new(15), lent, usual.configuration, ask);
    }
}

/// Both ends and their neighbours, 1, and all that is out, of each strand.
fn ends(kind: &Concentrations, ask: &mut Ask) {
    let values = [around(LEAST), around(MOST), around(1.0), out_of_range()].concat();
    for concentration in values {
        for strand in 0..4 {
            let mut lent = kind.base();
            kind.set(&mut lent, strand, concentration);
            kind.every_call(&lent, ask);
        }
    }
}

/// Numbers that name a kind of amounts and numbers that name none; and concentrations that are given as
/// potentials.
fn amounts(kind: &Concentrations, ask: &mut Ask) {
    for given in [0, 1, 2, 3, 255, 256, 257, 1 << 16, 1 << 31, u32::MAX] {
        let mut lent = kind.base();
        lent.given = given;
        kind.every_call(&lent, ask);
        lent.scaffold.push(64);
        kind.every_call(&lent, ask);
    }
    let mut lent = kind.base();
    lent.potentials = lent.concentrations.clone();
    lent.given = POTENTIALS;
    kind.every_call(&lent, ask);
}

fn sizes(kind: &Concentrations, ask: &mut Ask) {
    for strands in [0, 1, 2, 3, 5, 63, 64, 65, 66, 128, 256] {
        let mut lent = kind.base();
        lent.concentrations.resize(strands, 1.0);
        lent.potentials
            .resize(strands, kind.pool.borrow().logarithm(1.0));
        kind.every_call(&lent, ask);
        lent.glues.resize(3 * strands, 0);
        kind.every_call(&lent, ask);
    }
}

/// One change of the base.
type Fault = fn(&mut Lent);

/// Each number of a design that a call may refuse; strands 0 and 3 are nowhere friends, a strand whose
/// places are blocked is none, and more than 1,048,576 states, fewer than three positions or none are
/// refused by some calls alone.
const FAULTS: [Fault; 22] = [
    |lent| lent.scaffold[1] = 64,
    |lent| lent.marks[2] = 2,
    |lent| lent.given = 2,
    |lent| lent.dg[65] = f64::INFINITY,
    |lent| lent.ds[4095] = -9.0,
    |lent| lent.glues[1] = 1,
    |lent| lent.ds[64] = 1.0,
    |lent| lent.rt = 0.0,
    |lent| lent.strand_excess = 2000.0,
    |lent| lent.scaffold_excess = f64::NAN,
    |lent| lent.concentrations[0] = f64::INFINITY,
    |lent| lent.concentrations[1] = f64::NAN,
    |lent| lent.concentrations[2] = LEAST.next_down(),
    |lent| lent.concentrations[2] = MOST.next_up(),
    |lent| lent.concentrations[3] = f64::NEG_INFINITY,
    |lent| lent.marks[1] = 1,
    |lent| (lent.marks[0], lent.marks[2]) = (1, 1),
    |lent| {
        lent.scaffold.resize(24, 1);
        lent.marks.resize(24, 0);
    },
    |lent| lent.open(vec![1, 2]),
    |lent| lent.open(vec![2, 2, 2]),
    |lent| lent.open(vec![]),
    |_| {},
];

/// Each design is asked as usual, with a rank that is too high, and with a strand that is nowhere a
/// friend on the last place.
fn two_at_once(kind: &Concentrations, ask: &mut Ask) {
    for (index, second) in FAULTS.iter().enumerate() {
        for first in &FAULTS[..=index] {
            let mut lent = kind.base();
            first(&mut lent);
            if lent.positions() > 2 {
                second(&mut lent);
            }
            kind.every_call(&lent, ask);
            let mut odd = Arguments::usual(&lent);
            odd.state.0 = u64::MAX;
            if let Some(last) = odd.configuration.last_mut() {
                *last = 3;
            }
            ask_every_call(&lent, &odd, ask);
            let random = &mut Random::new(51);
            kind.ask_further(random, &lent, odd.configuration, ask);
        }
    }
}
