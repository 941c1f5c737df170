//! Random faults, several at once.

use super::Arguments;
use crate::doubles::{not_finite, of_any_size};
use crate::judge::design::{Lent, CELLS};
use crate::random::Random;

/// One change of a design, most of them a fault.
pub fn of_a_design(random: &mut Random, lent: &mut Lent) {
    let odd = match random.below(3) {
        0 => random.pick(&not_finite()),
        1 => of_any_size(random),
        _ => random.pick(&[8.0, 1024.0, 0.125].map(f64::next_up)),
    };
    let cell = match random.below(3) {
        0 => random.below(64),
        1 => 64 * random.below(64),
        _ => random.below(CELLS),
    };
    let put = |doubles: &mut Vec<f64>, index: usize| {
        if let Some(x) = doubles.get_mut(index) {
            *x = odd;
        }
    };
    match random.below(13) {
        0 => {
            lent.scaffold.push(random.below(256) as u8);
            if !random.once_in(4) {
                lent.marks.push(0);
            }
        }
        12 => {
            let mark = random.pick(&[1, 1, 2, 255]);
            match lent.marks.last_mut() {
                Some(last) if !random.once_in(4) => *last = mark,
                _ => lent.marks.push(mark),
            }
        }
        1 => lent.glues.truncate(lent.glues.len().saturating_sub(1)),
        2 => lent.glues.push(0),
        3 => lent.dg.truncate(random.below(CELLS)),
        4 => lent.ds.push(odd),
        5 => put(&mut lent.dg, cell),
        6 => put(&mut lent.ds, cell),
        7 => lent.rt = odd,
        8 => lent.strand_excess = odd,
        9 => lent.scaffold_excess = odd,
        10 => put(&mut lent.potentials, random.below(8)),
        _ => {
            let glue = random.pick(&[1, 2, 3, 63, 64]);
            if let Some(side) = lent.glues.get_mut(random.below(3)) {
                *side = glue;
            }
        }
    }
}

pub(super) fn of_arguments(random: &mut Random, lent: &Lent, arguments: &mut Arguments) {
    let number = random.below(8);
    match random.below(6) {
        0 => arguments.pair = (number, random.below(8)),
        1 => arguments.site = (number, random.below(8)),
        2 => arguments.friends = (number, random.within(63..=65)),
        3 => arguments.state.0 = random.below(100) as u64,
        4 => arguments.state.1 = lent.positions() + 1,
        _ => {
            let length = arguments.configuration.len() + usize::from(random.once_in(8));
            let strands = lent.strands() + 1;
            arguments.configuration = (0..length).map(|_| random.below(strands) as u8).collect();
        }
    }
}
