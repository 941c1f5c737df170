//! Sequences, those by rank, loops, strengths, logarithms, temperatures and decks.

use crate::guarded::{Figure, Guarded};
use crate::sums::{call_of_one, call_of_weight};
use crate::{near, Tally};
use compare::bases::{spoil, strand};
use compare::decks::{self, any_configuration};
use compare::doubles::{not_finite, of_any_size};
use compare::judge::logarithm::is_dilute;
use compare::logarithms::{in_range, out_of_range};
use compare::random::Random;
use mujplesten as mj;

fn any_double(random: &mut Random) -> f64 {
    match random.below(4) {
        0 => random.pick(&not_finite()),
        1 => of_any_size(random),
        _ => random.double(150.0, 550.0),
    }
}

fn any_sequence(random: &mut Random) -> Vec<u8> {
    let length = match random.below(6) {
        0 => random.within(255..=258),
        1 => random.below(3),
        _ => random.below(40),
    };
    let mut sequence = strand(random, length);
    if random.once_in(6) {
        spoil(random, &mut sequence);
    }
    sequence
}

pub fn call(random: &mut Random, tally: &mut Tally) {
    let (a, b) = (any_sequence(random), any_sequence(random));
    let excess = any_double(random);
    let [mut x, mut y, mut z] = [Figure::double(), Figure::double(), Figure::double()];
    match random.below(11) {
        0 => {
            let number = mj::sequence(&a, x.lent(), y.lent());
            let one_by_one = (
                mj::sequence_reply(&a),
                mj::sequence_dg(&a),
                mj::sequence_ds(&a),
            );
            let alike = one_by_one == (number, x.told().to_bits(), y.told().to_bits());
            tally.call(
                "sequence",
                number,
                x.is_fit(number) && y.is_fit(number) && alike,
            );
        }
        1 => {
            let b = if random.once_in(2) { &a } else { &b };
            let number = mj::pair(&a, b, x.lent(), y.lent());
            let one_by_one = (
                mj::pair_reply(&a, b),
                mj::pair_dg(&a, b),
                mj::pair_ds(&a, b),
            );
            let alike = one_by_one == (number, x.told().to_bits(), y.told().to_bits());
            tally.call(
                "pair",
                number,
                x.is_fit(number) && y.is_fit(number) && alike,
            );
        }
        2 => {
            let any = random.below(40);
            let length = random.pick(&[0, 3, 11, 30, 31, any, usize::MAX]);
            let kind = random.pick(&[0, 1, 2, 3, u32::MAX]);
            let number = mj::loop_penalty(length, kind, x.lent());
            tally.call("loop_penalty", number, x.is_fit(number));
        }
        3 => {
            let number = mj::sequence_strength(&a, excess, x.lent());
            tally.call("sequence_strength", number, x.is_fit(number));
        }
        4 => {
            let number = mj::pair_strength(&a, &b, excess, x.lent());
            tally.call("pair_strength", number, x.is_fit(number));
        }
        5 => {
            let number = mj::ambient(excess, x.lent(), y.lent(), z.lent());
            let fit = x.is_fit(number) && y.is_fit(number) && z.is_fit(number);
            tally.call("ambient", number, fit);
        }
        6 => {
            let number = mj::published_reply(&a);
            let figures = [mj::published_dg(&a), mj::published_ds(&a)];
            let none = figures.iter().all(|figure| *figure == 0);
            tally.call("published", number, number == 0 || none);
        }
        7 => short(random, tally),
        8 => {
            let (inside, outside) = (in_range(random), random.pick(&out_of_range()));
            let argument = random.pick(&[inside, excess, outside]);
            let number = mj::ln(argument, x.lent());
            let fit = x.is_fit(number) && (number == 15) == is_dilute(argument);
            tally.call("ln", number, fit);
        }
        9 if random.once_in(2) => call_of_weight(random, tally),
        9 => call_of_one(random.pick(&[excess, 400.0 * excess]), tally),
        _ => deck(random, tally),
    }
}

fn short(random: &mut Random, tally: &mut Tally) {
    let rank = match random.below(3) {
        0 => random.pick(&[0, 15, 16, 87_375, 87_376, u64::MAX]),
        1 => random.below(90_000) as u64,
        _ => random.bits(),
    };
    let mut bytes = Guarded::new(near(random, 8), 0xa5);
    let mut bases = Figure::whole();
    let number = mj::short_sequence(rank, bytes.lent(), bases.lent());
    let fit = bytes.is_fit(number) && bases.is_fit(number);
    tally.call("short_sequence", number, fit);
}

fn deck(random: &mut Random, tally: &mut Tally) {
    let form = random.below(5) as u32 / 2;
    let deck = match form {
        0 => decks::deck(random),
        _ => decks::deck_with_runs(random),
    };
    let words = match random.below(4) {
        0 => decks::damaged(&deck, random),
        1 => decks::long(random),
        _ => deck,
    };
    let mut moved = Guarded::new(near(random, 129), 0xa5a5_a5a5);
    let [mut place, mut count] = [Figure::whole(), Figure::whole()];
    let number = mj::deck_move(form, &words, moved.lent(), place.lent(), count.lent());
    let placed = place.is_place(number) && (number == 14) == (place.told() != mj::NOWHERE);
    let fit = moved.is_fit(number) && placed && count.is_fit(number);
    tally.call("deck_move", number, fit);
    let mut entries = Guarded::new(near(random, 128), 0xa5);
    let [mut place, mut count] = [Figure::whole(), Figure::whole()];
    let number = mj::deck_read(form, &words, entries.lent(), place.lent(), count.lent());
    let placed = place.is_place(number) && (number == 14) == (place.told() != mj::NOWHERE);
    let fit = entries.is_fit(number) && placed && count.is_fit(number);
    tally.call("deck_read", number, fit);
    let configuration = any_configuration(random);
    let mut words = Guarded::new(near(random, 129), 0xa5a5_a5a5);
    let mut count = Figure::whole();
    let number = mj::deck_write(form, &configuration, words.lent(), count.lent());
    tally.call(
        "deck_write",
        number,
        words.is_fit(number) && count.is_fit(number),
    );
}
