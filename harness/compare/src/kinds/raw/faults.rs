//! Two faults at once, each with each: which of them is told, and where.

use super::fixed::base;
use super::{ask_every_call, Arguments};
use crate::judge::design::Lent;
use crate::kinds::Ask;

/// One change of the base.
type Fault = fn(&mut Lent);

/// Each number of a design that a call may refuse, at each of its places; strands 0 and 3 are nowhere
/// friends, a strand whose places are blocked is none, and more than 1,048,576 states or no position are refused by some calls alone.
const FAULTS: [Fault; 22] = [
    |lent| lent.scaffold[1] = 64,
    |lent| lent.marks[2] = 2,
    |lent| lent.marks[1] = 1,
    |lent| (lent.marks[0], lent.marks[2]) = (1, 1),
    |lent| lent.dg[0] = f64::NAN,
    |lent| lent.dg[65] = f64::INFINITY,
    |lent| lent.ds[0] = 9.0,
    |lent| lent.ds[4095] = -9.0,
    |lent| lent.glues[1] = 1,
    |lent| lent.glues[2] = 63,
    |lent| lent.dg[7] = 1.0,
    |lent| lent.ds[64] = 1.0,
    |lent| lent.rt = 0.0,
    |lent| lent.strand_excess = 2000.0,
    |lent| lent.scaffold_excess = f64::NAN,
    |lent| lent.potentials[0] = f64::INFINITY,
    |lent| lent.potentials[1] = f64::NAN,
    |lent| lent.potentials[2] = -1025.0,
    |lent| lent.potentials[3] = 0.0,
    |lent| {
        lent.scaffold.resize(24, 1);
        lent.marks.resize(24, 0);
    },
    |lent| lent.open(vec![]),
    |_| {},
];

/// Each design is asked as usual, with a rank that is too high, and with a strand that is nowhere a
/// friend on the last place.
pub fn two_at_once(ask: &mut Ask) {
    for (index, second) in FAULTS.iter().enumerate() {
        for first in &FAULTS[..=index] {
            let mut lent = base();
            first(&mut lent);
            if lent.scaffold.len() > 1 {
                second(&mut lent);
            }
            let usual = Arguments::usual(&lent);
            ask_every_call(&lent, &usual, ask);
            let mut high = usual.clone();
            high.state.0 = u64::MAX;
            ask_every_call(&lent, &high, ask);
            let mut stranger = usual;
            if let Some(last) = stranger.configuration.last_mut() {
                *last = 3;
            }
            ask_every_call(&lent, &stranger, ask);
        }
    }
}
