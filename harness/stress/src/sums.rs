//! Sums over the states of a design: weights in and out of their form, lists in and out of the numbers.

use crate::designs::Asked;
use crate::guarded::{Figure, Guarded};
use crate::{near, Tally};
use compare::random::Random;
use mujplesten as mj;

/// Of designs of up to so many positions times strands all occupants are asked for.
const MOST_CELLS: usize = 200;

fn digits(random: &mut Random, wild: bool) -> u32 {
    let any = random.bits() as u32;
    match wild {
        true => random.pick(&[0, (1 << 30) - 1, 1 << 31, u32::MAX, any]),
        false => (1 << 30) | (any >> 2),
    }
}

fn power(random: &mut Random, wild: bool) -> i32 {
    let any = random.bits() as i32;
    match wild {
        true => random.pick(&[-400_001, 400_001, i32::MIN, i32::MAX, any]),
        false => random.pick(&[-400_000, 400_000, -30, any % 400_000]),
    }
}

/// Of about so many cells, one in a thousand of them out of its form where some are.
fn cells(random: &mut Random, wanted: usize, some_out: bool) -> (Vec<u32>, Vec<i32>) {
    let (many, powers) = match random.once_in(16) {
        true => (near(random, wanted), near(random, wanted)),
        false => (wanted, wanted),
    };
    let mut drawn_digits = Vec::with_capacity(many);
    for _ in 0..many {
        let wild = some_out && random.once_in(1000);
        drawn_digits.push(digits(random, wild));
    }
    let mut drawn_powers = Vec::with_capacity(powers);
    for _ in 0..powers {
        let wild = some_out && random.once_in(1000);
        drawn_powers.push(power(random, wild));
    }
    (drawn_digits, drawn_powers)
}

/// Either sum.
pub fn call(asked: &Asked, random: &mut Random, tally: &mut Tally) {
    let some_out = random.once_in(4);
    let places = asked.positions * asked.strands;
    let (place_digits, place_powers) = cells(random, places, some_out);
    let (pair_digits, pair_powers) = cells(random, asked.strands * asked.strands, some_out);
    let weights = mj::Weights {
        place_digits: &place_digits,
        place_powers: &place_powers,
        pair_digits: &pair_digits,
        pair_powers: &pair_powers,
    };
    let (design, mut told) = (asked.design, Told::new());
    let (place, digits, power) = told.lent();
    let free = random.once_in(2);
    let (function, number) = match free {
        true => (
            "free_sum",
            mj::free_sum(design, weights, place, digits, power),
        ),
        false => {
            let drawn = Drawn::new(random, asked.positions);
            let number = mj::constrained_sum(design, weights, drawn.lent(), place, digits, power);
            ("constrained_sum", number)
        }
    };
    told.call(asked, function, number, !free, tally);
}

/// The sums over the exponentials of the design's own energies, and the probability.
pub fn call_of_energies(asked: &Asked, random: &mut Random, tally: &mut Tally) {
    let (design, mut told) = (asked.design, Told::new());
    let drawn = Drawn::new(random, asked.positions);
    let lists = drawn.lent();
    let which = random.below(3);
    let (place, digits, power) = told.lent();
    let (function, number) = match which {
        0 => (
            "free_sum_of_energies",
            mj::free_sum_of_energies(design, place, digits, power),
        ),
        1 => (
            "constrained_sum_of_energies",
            mj::constrained_sum_of_energies(design, lists, place, digits, power),
        ),
        _ => (
            "probability",
            mj::probability(design, lists, place, digits, power),
        ),
    };
    told.call(asked, function, number, which != 0, tally);
}

/// What a call that answers a weight writes.
struct Told {
    place: Figure<u64>,
    digits: Figure<u32>,
    power: Figure<i32>,
}

impl Told {
    fn new() -> Self {
        Told {
            place: Figure::whole(),
            digits: Figure::digits(),
            power: Figure::power(),
        }
    }

    fn lent(&mut self) -> (&mut u64, &mut u32, &mut i32) {
        (self.place.lent(), self.digits.lent(), self.power.lent())
    }

    /// An answer is in its form, or 0 where a constraint may allow no state.
    fn call(
        &self,
        asked: &Asked,
        function: &'static str,
        number: u32,
        constrained: bool,
        tally: &mut Tally,
    ) {
        let (digits, power) = (self.digits.told(), self.power.told());
        let in_form = number != 0 || (1 << 30..1 << 31).contains(&digits);
        let zero = constrained && digits == 0 && power == 0;
        let figures = self.digits.is_fit(number) && self.power.is_fit(number);
        let fit = asked.is_placed(&self.place, number) && figures && (in_form || zero);
        tally.call(function, number, fit);
    }
}

/// Lists of a constraint.
struct Drawn {
    numbers: Vec<u8>,
    starts: Vec<usize>,
    lengths: Vec<usize>,
}

impl Drawn {
    fn new(random: &mut Random, positions: usize) -> Self {
        let lent = random.below(300);
        let numbers = (0..lent).map(|_| random.bits() as u8 & 63).collect();
        let (starts, lengths) = spans(random, positions, lent);
        Drawn {
            numbers,
            starts,
            lengths,
        }
    }

    fn lent(&self) -> mj::Lists<'_> {
        mj::Lists {
            numbers: &self.numbers,
            starts: &self.starts,
            lengths: &self.lengths,
        }
    }
}

/// The probability of each occupant at each position. Of a long scaffold the tables are of other lengths:
/// all occupants of 128 positions of 63 friends take as long as hundreds of other calls.
pub fn call_of_occupants(asked: &Asked, random: &mut Random, tally: &mut Tally) {
    let cells = asked.positions * asked.strands;
    let lent = |random: &mut Random| match cells > MOST_CELLS {
        true => cells + 1 + random.below(2),
        false => near(random, cells),
    };
    let mut digits = Guarded::new(lent(random), 0xa5a5_a5a5);
    let mut powers = Guarded::new(lent(random), i32::MIN);
    let mut place = Figure::whole();
    let number = mj::occupants(asked.design, digits.lent(), powers.lent(), place.lent());
    let kept = digits.is_fit(number) && powers.is_fit(number);
    let fit = |(digits, power): (&u32, &i32)| match digits {
        0 => *power == 0,
        _ => (1 << 30..1 << 31).contains(digits) && *power < 0,
    };
    let written = number != 0 || digits.lent().iter().zip(powers.lent().iter()).all(fit);
    let fit = asked.is_placed(&place, number) && kept && written;
    tally.call("occupants", number, fit);
}

/// The exponential of a double.
pub fn call_of_one(x: f64, tally: &mut Tally) {
    let (mut digits, mut power) = (Figure::digits(), Figure::power());
    let number = mj::exp(x, digits.lent(), power.lent());
    let in_form = number != 0 || (1 << 30..1 << 31).contains(&digits.told());
    let fit = digits.is_fit(number) && power.is_fit(number) && in_form;
    tally.call("exp", number, fit);
}

/// A weight of any digits and power.
pub fn call_of_weight(random: &mut Random, tally: &mut Tally) {
    let (digits, power) = (digits(random, true), power(random, true));
    let told = f64::from_bits(mj::weight(digits, power));
    let fit = (digits == 0) == (told == 0.0) && told >= 0.0;
    tally.call("weight", 0, fit);
}

/// Where each list starts and how long it is, among so many numbers; now and then one past them.
fn spans(random: &mut Random, positions: usize, lent: usize) -> (Vec<usize>, Vec<usize>) {
    let positions = match random.once_in(16) {
        true => near(random, positions),
        false => positions,
    };
    let (mut starts, mut lengths) = (vec![], vec![]);
    for _ in 0..positions {
        let start = random.within(0..=lent);
        starts.push(start);
        lengths.push(random.within(0..=(lent - start).min(8)));
    }
    if !starts.is_empty() && random.once_in(8) {
        let which = random.below(starts.len());
        match random.once_in(2) {
            true => starts[which] = random.pick(&[lent, lent + 1, usize::MAX]),
            false => lengths[which] = random.pick(&[lent - starts[which] + 1, usize::MAX]),
        }
    }
    (starts, lengths)
}
