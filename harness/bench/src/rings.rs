//! The search for rings, which the Rust lacks, beside the chain's of the same design: how many times as
//! long it takes, as calls, and with what both do alike taken off: the checks and the options, as the
//! count of states does them.

use crate::both::Both;
use crate::measure::{measure, Row, Times};
use crate::searches::settling;
use mujplesten as mj;
use std::hint::black_box;
use std::rc::Rc;

/// Positions, user strands, and friends of each position. A ring is one pass for each option of
/// position 0.
const DESIGNS: [(usize, usize, usize); 3] = [(128, 61, 61), (20, 60, 3), (20, 3, 3)];

type Search = fn(mj::Design, &mut [u8], &mut u64, &mut f64) -> u32;

pub fn remarks() -> Vec<String> {
    let mut remarks =
        vec!["port, ring search over chain search, as calls and after the checks:".to_string()];
    for (positions, strands, friends) in DESIGNS {
        let both = Rc::new(settling(positions, strands, friends));
        let Times {
            rust: chain,
            port: ring,
        } = beside(found_by(&both, mj::search), &both);
        let Times { rust: count, .. } = beside(counted(&both), &both);
        let label = format!("{positions} x {friends} friends of {strands} strands");
        let (calls, after) = (ring / chain, (ring - count) / (chain - count));
        remarks.push(format!("{label:44} {calls:9.1} {after:9.1}"));
    }
    remarks
}

/// Another call on the left, the ring's on the right.
fn beside(other: Box<dyn FnMut()>, both: &Rc<Both>) -> Times {
    let mut row = Row {
        label: String::new(),
        cleared: "",
        inputs: 1,
        rust: other,
        port: found_by(both, mj::ring_search),
    };
    measure(&mut row).least
}

fn found_by(both: &Rc<Both>, search: Search) -> Box<dyn FnMut()> {
    let both = both.clone();
    let mut configuration = vec![0; both.lent.positions()];
    Box::new(move || {
        let (mut place, mut energy) = (0, 0.0);
        let design = black_box(both.port());
        let number = search(design, &mut configuration, &mut place, &mut energy);
        black_box((number, energy));
    })
}

fn counted(both: &Rc<Both>) -> Box<dyn FnMut()> {
    let both = both.clone();
    Box::new(move || {
        let (mut place, mut count) = (0, 0);
        let design = black_box(both.port());
        black_box((mj::states(design, &mut place, &mut count), count));
    })
}
