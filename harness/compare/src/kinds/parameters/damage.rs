//! Slices as no well-formed set has them: lengths, marks, forms and parts of the text.

use crate::judge::parameters::Lent;
use crate::random::Random;

/// How many slices of rows of whole numbers a set has.
pub const NUMBERS: usize = 3;

pub fn numbers(lent: &mut Lent, which: usize) -> &mut Vec<usize> {
    match which {
        0 => &mut lent.strands,
        1 => &mut lent.scaffold,
        _ => &mut lent.entries,
    }
}

/// How many numbers a row has.
pub fn width(which: usize) -> usize {
    [3, 3, 8][which]
}

/// Where a row has a start, which its length follows.
pub fn starts(which: usize) -> &'static [usize] {
    match which {
        0 | 1 => &[1],
        _ => &[0, 3, 6],
    }
}

/// A length that differs by so many.
pub fn resized<T: Clone>(slice: &mut Vec<T>, longer: bool, by: usize, filling: T) {
    let length = match longer {
        true => slice.len() + by,
        false => slice.len().saturating_sub(by),
    };
    slice.resize(length, filling);
}

/// One change, most of them a fault.
pub fn of_slices(random: &mut Random, lent: &mut Lent) {
    let longer = random.once_in(2);
    let far = lent.text.len();
    match random.below(8) {
        0 => resized(numbers(lent, random.below(NUMBERS)), longer, 1, 0),
        1 => {
            let which = random.below(NUMBERS);
            resized(numbers(lent, which), longer, width(which), 0);
        }
        2 => resized(&mut lent.energies, longer, random.within(1..=2), 0.0),
        3 => {
            let written = &mut lent.written[random.below(4)];
            *written = random.pick(&[*written + 1, written.saturating_sub(1), 0, *written]);
        }
        4..=6 => {
            let few = [0, 1, 1, 2, 255];
            let far = [0, 1, 2, 64, 65, 256, 257, far, far + 1, usize::MAX];
            let odd = match random.once_in(3) {
                true => random.pick(&few),
                false => random.pick(&far),
            };
            let which = random.below(NUMBERS);
            put(random, numbers(lent, which), odd);
        }
        _ => {
            let odd = random.pick(&[0, 1, lent.users, lent.users + 1, 62, 64, usize::MAX]);
            match random.below(3) {
                0 => lent.quencher = odd,
                1 => lent.reporter = odd,
                _ => lent.users = odd,
            }
        }
    }
}

fn put<T>(random: &mut Random, slice: &mut [T], odd: T) {
    if !slice.is_empty() {
        slice[random.below(slice.len())] = odd;
    }
}
