//! Designs and arguments that are just in or just out, one change at a time.

use super::{ask_every_call, Arguments};
use crate::doubles::{around, not_finite};
use crate::judge::design::{Lent, CELLS};
use crate::kinds::Ask;

/// Three positions and four strands: 1 and 2 are friends, 3 is nowhere one and has no potential.
pub fn base() -> Lent {
    let mut lent = Lent {
        scaffold: vec![1, 2, 1],
        marks: vec![0; 3],
        glues: vec![0, 0, 0, 3, 1, 4, 4, 2, 3, 0, 5, 0],
        dg: vec![0.0; CELLS],
        ds: vec![0.0; CELLS],
        potentials: vec![f64::NAN, -16.0, -15.5, f64::NAN],
        rt: 8.0,
        strand_excess: -1024.0,
        scaffold_excess: 1024.0,
        ..Lent::default()
    };
    for (row, column, dg, ds) in [(1, 1, -7.25, -0.0), (2, 2, -0.0, 8.0), (4, 4, 1024.0, -8.0)] {
        (lent.dg[row * 64 + column], lent.ds[row * 64 + column]) = (dg, ds);
    }
    lent
}

/// The base after a change, asked as usual.
fn changed(ask: &mut Ask, change: impl FnOnce(&mut Lent)) {
    let mut lent = base();
    change(&mut lent);
    ask_every_call(&lent, &Arguments::usual(&lent), ask);
}

pub fn every_size(ask: &mut Ask) {
    for length in [0, 1, 2, 4, 127, 128, 129, 200, 256, 1000] {
        changed(ask, |lent| {
            lent.scaffold.resize(length, 0);
            lent.marks.resize(length, 0);
        });
        changed(ask, |lent| lent.scaffold.resize(length, 0));
        changed(ask, |lent| lent.marks.resize(length, 0));
    }
    for mark in [1, 2, 3, 128, 255] {
        for index in 0..3 {
            changed(ask, |lent| lent.marks[index] = mark);
        }
    }
    for length in [0, 1, 3, 9, 10, 11, 13, 14, 15, 24] {
        changed(ask, |lent| lent.glues.resize(length, 0));
    }
    for length in [0, 1, 64, 4095, 4097, 8192] {
        changed(ask, |lent| lent.dg.resize(length, 0.0));
        changed(ask, |lent| lent.ds.resize(length, 0.0));
    }
    for strands in [0, 1, 2, 3, 5, 63, 64, 65, 66, 128, 256] {
        changed(ask, |lent| lent.potentials.resize(strands, 0.0));
        changed(ask, |lent| {
            lent.potentials.resize(strands, 0.0);
            lent.glues.resize(3 * strands, 0);
        });
    }
    for glue in [63, 64, 65, 128, 255] {
        for index in 0..3 {
            changed(ask, |lent| lent.scaffold[index] = glue);
        }
        for index in 0..12 {
            changed(ask, |lent| lent.glues[index] = glue);
        }
    }
}

pub fn every_number(ask: &mut Ask) {
    let odd = |end: f64| [around(end), around(-end), not_finite()].concat();
    for x in odd(1024.0) {
        for cell in [65, 66, 2080, CELLS - 1] {
            changed(ask, |lent| lent.dg[cell] = x);
        }
        changed(ask, |lent| lent.strand_excess = x);
        changed(ask, |lent| lent.scaffold_excess = x);
        for strand in 0..4 {
            changed(ask, |lent| lent.potentials[strand] = x);
        }
    }
    for x in odd(8.0) {
        for cell in [65, 66, 2080, CELLS - 1] {
            changed(ask, |lent| lent.ds[cell] = x);
        }
        changed(ask, |lent| lent.rt = x);
    }
    for x in odd(0.125).into_iter().chain([0.0, -0.0, 5e-324, 1.0]) {
        changed(ask, |lent| lent.rt = x);
    }
}

/// The place of a cell that is out: each alone, and of two the lower.
pub fn every_cell(ask: &mut Ask) {
    for cell in 0..CELLS {
        changed(ask, |lent| lent.dg[cell] = f64::NAN);
        changed(ask, |lent| lent.ds[cell] = 8.0f64.next_up());
    }
    let chosen = [0, 1, 63, 64, 65, 2080, 4032, CELLS - 1];
    for (index, high) in chosen.into_iter().enumerate() {
        for low in chosen[..index].iter().copied() {
            changed(ask, |lent| {
                (lent.dg[low], lent.dg[high]) = (1025.0, f64::NAN)
            });
            changed(ask, |lent| (lent.ds[low], lent.ds[high]) = (f64::NAN, -9.0));
            changed(ask, |lent| (lent.ds[low], lent.dg[high]) = (9.0, -1025.0));
        }
    }
}

/// Strand 0's glues, row 0 and column 0; with a potential of strand 0 that is fit, and one that
/// is not, since a cell of column 0 can make it a friend.
pub fn every_null(ask: &mut Ask) {
    for potential in [0.0, f64::NAN] {
        for side in 0..3 {
            for glue in [1, 5, 63] {
                changed(ask, |lent| {
                    lent.potentials[0] = potential;
                    lent.glues[side] = glue;
                });
            }
        }
        for glue in 0..64 {
            for cell in [glue, 64 * glue] {
                for x in [5e-324, -0.0, 8.0] {
                    changed(ask, |lent| {
                        lent.potentials[0] = potential;
                        lent.dg[cell] = x;
                    });
                    changed(ask, |lent| {
                        lent.potentials[0] = potential;
                        lent.ds[cell] = x;
                    });
                }
            }
        }
    }
}

/// With each choice of blocked positions.
pub fn every_argument(ask: &mut Ask) {
    for marks in 0..8u8 {
        let mut lent = base();
        lent.marks = (0..3).map(|position| (marks >> position) & 1).collect();
        arguments_of(&lent, ask);
    }
}

fn arguments_of(lent: &Lent, ask: &mut Ask) {
    let usual = Arguments::usual(lent);
    let mut put = |change: &dyn Fn(&mut Arguments)| {
        let mut arguments = usual.clone();
        change(&mut arguments);
        ask_every_call(lent, &arguments, ask);
    };
    for strand in (0..6).chain([63, 64, 255]) {
        put(&|it| it.pair.0 = strand);
        put(&|it| it.pair.1 = strand);
        put(&|it| it.site.1 = strand);
    }
    let far = [63, 64, 255, 256, 1 << 32, usize::MAX];
    for position in (0..6).chain(far) {
        put(&|it| it.site.0 = position);
        put(&|it| it.friends.0 = position);
    }
    for lent in [0, 1, 2, 4, 63, 65, 128] {
        put(&|it| it.friends.1 = lent);
        put(&|it| it.state.1 = lent);
        put(&|it| it.configuration.resize(lent, 0));
    }
    for rank in (0..12).chain([1 << 20, 1 << 32, u64::MAX]) {
        put(&|it| it.state.0 = rank);
    }
    for position in 0..3 {
        for occupant in 0..=255 {
            put(&|it| it.configuration[position] = occupant);
            put(&|it| {
                it.configuration = vec![0; 3];
                it.configuration[position] = occupant;
            });
        }
    }
}

/// The bench table's 20 and 21 positions of one friend, and other counts about the limit.
pub fn counts(ask: &mut Ask) {
    let mut put = |positions: usize, friends: usize| {
        let mut lent = base();
        lent.open(vec![1; positions]);
        lent.glues = vec![0; 3];
        lent.potentials = vec![0.0; friends + 1];
        for _ in 0..friends {
            lent.glues.extend([0, 1, 0]);
        }
        let usual = Arguments::usual(&lent);
        let count = lent.count().min(1 << 40) as u64;
        for rank in [0, count / 3, count - 1, count, u64::MAX] {
            let mut arguments = usual.clone();
            arguments.state.0 = rank;
            arguments.configuration = vec![friends as u8; positions];
            ask_every_call(&lent, &arguments, ask);
        }
    };
    for (positions, friends) in [(0, 0), (0, 1), (19, 1), (20, 1), (21, 1), (64, 1), (128, 1)] {
        put(positions, friends);
    }
    for (positions, friends) in [
        (10, 3),
        (11, 3),
        (5, 15),
        (12, 2),
        (13, 2),
        (3, 63),
        (4, 63),
    ] {
        put(positions, friends);
    }
    for (positions, friends) in [(16, 15), (32, 3), (64, 2), (128, 63), (128, 0)] {
        put(positions, friends);
    }
}
