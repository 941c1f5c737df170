//! Decks and configurations: valid, damaged, and around every limit.

use crate::random::Random;

/// The most words of a question.
pub const MOST_WORDS: usize = 200;

/// Words at and around every limit: each kind, and kinds that are none.
pub const INTERESTING: [u32; 25] = [
    0x0000_0000,
    0x1000_0000,
    0x1000_0001,
    0x1000_0002,
    0x1000_0003,
    0x1000_0004,
    0x1000_0080,
    0x1000_0081,
    0x1fff_ffff,
    0x2000_0000,
    0x2000_0001,
    0x2000_0002,
    0x2000_003f,
    0x2000_0040,
    0x2fff_ffff,
    0x3000_0000,
    0x3000_0001,
    0x3000_0002,
    0x3000_0003,
    0x3000_0004,
    0x3000_0080,
    0x3fff_ffff,
    0x4000_0001,
    0xf000_0001,
    0xffff_ffff,
];

/// The same for a deck with runs, fewer of the kinds that the forms share.
pub const INTERESTING_RUNS: [u32; 18] = [
    0x1000_0000,
    0x1000_0002,
    0x1000_0003,
    0x1000_0080,
    0x2000_0001,
    0x3000_0000,
    0x3000_0001,
    0x3000_0002,
    0x4000_0000,
    0x4000_0001,
    0x4000_0002,
    0x4000_003f,
    0x4000_0040,
    0x4000_0041,
    0x4000_1fff,
    0x4000_2001,
    0x4fff_ffff,
    0x5000_0001,
];

/// Entries at and around the limit of strand numbers.
pub const ENTRIES: [u8; 6] = [0, 1, 2, 63, 64, 255];

fn any_interesting(random: &mut Random) -> u32 {
    let place = random.below(INTERESTING.len() + INTERESTING_RUNS.len());
    match place.checked_sub(INTERESTING.len()) {
        None => INTERESTING[place],
        Some(place) => INTERESTING_RUNS[place],
    }
}

/// Every sequence of up to `most` elements, the shortest first.
fn each_sequence<T: Copy>(elements: &[T], most: usize, mut ask: impl FnMut(&[T])) {
    for length in 0..=most {
        let mut digits = vec![0; length];
        loop {
            let sequence: Vec<T> = digits.iter().map(|digit| elements[*digit]).collect();
            ask(&sequence);
            let Some(last) = digits.iter().rposition(|digit| *digit + 1 < elements.len()) else {
                break;
            };
            digits[last] += 1;
            digits[last + 1..].fill(0);
        }
    }
}

/// Every sequence of up to `most` interesting words; up to 4 they are 406,901.
pub fn each_short_deck(most: usize, ask: impl FnMut(&[u32])) {
    each_sequence(&INTERESTING, most, ask);
}

/// Every sequence of up to `most` interesting words of a deck with runs; up to 4 they are 111,151.
pub fn each_short_deck_with_runs(most: usize, ask: impl FnMut(&[u32])) {
    each_sequence(&INTERESTING_RUNS, most, ask);
}

/// Every configuration of up to `most` of `ENTRIES`, some of them not admitted.
pub fn each_short_configuration(most: usize, ask: impl FnMut(&[u8])) {
    each_sequence(&ENTRIES, most, ask);
}

/// A configuration that can be written: 0 to 128 entries of 0 to 63, empties often in runs and
/// strands sometimes.
pub fn configuration(random: &mut Random) -> Vec<u8> {
    let length = match random.below(8) {
        0 => random.below(3),
        1 => 126 + random.below(3),
        _ => random.below(129),
    };
    let empties = random.below(5);
    let mut config = Vec::new();
    while config.len() < length {
        if random.below(4) < empties {
            let run = 1 + random.below(9);
            config.resize((config.len() + run).min(length), 0);
        } else {
            let run = 1 + random.below(9) * (random.below(3) / 2);
            let strand = 1 + random.below(63) as u8;
            config.resize((config.len() + run).min(length), strand);
        }
    }
    config
}

/// A configuration to be written that may be too long or hold numbers above 63.
pub fn any_configuration(random: &mut Random) -> Vec<u8> {
    let mut config = configuration(random);
    if random.below(3) == 0 {
        config.resize(124 + random.below(12), 5);
    }
    for _ in 0..random.below(3) {
        if !config.is_empty() {
            let place = random.below(config.len());
            config[place] = random.below(256) as u8;
        }
    }
    config
}

/// A valid deck.
pub fn deck(random: &mut Random) -> Vec<u32> {
    let positions = match random.below(8) {
        0 => random.below(4),
        1 => 128,
        _ => random.below(129),
    };
    let mut words = vec![0x1000_0000 | positions as u32];
    let mut left = positions;
    let mut after_empties = false;
    while left > 0 {
        let run = 1 + random.below(left.min(12));
        after_empties = !after_empties && random.below(2) == 0;
        words.push(match after_empties {
            true => 0x3000_0000 | run as u32,
            false => 0x2000_0001 + random.below(63) as u32,
        });
        left -= if after_empties { run } else { 1 };
    }
    words
}

/// A valid deck with runs.
pub fn deck_with_runs(random: &mut Random) -> Vec<u32> {
    let positions = match random.below(8) {
        0 => random.below(4),
        1 => 128,
        _ => random.below(129),
    };
    let mut words = vec![0x1000_0000 | positions as u32];
    let longest = [1, 3, 12, 128][random.below(4)];
    let mut left = positions;
    let mut last = 64;
    while left > 0 {
        let run = 1 + random.below(left.min(longest));
        let occupant = match random.below(3) {
            0 => 0,
            1 => 1 + random.below(3),
            _ => 1 + random.below(63),
        };
        if occupant == last {
            continue;
        }
        words.push(match occupant {
            0 => 0x3000_0000 | run as u32,
            strand => 0x4000_0000 | (strand + 64 * (run - 1)) as u32,
        });
        last = occupant;
        left -= run;
    }
    words
}

/// The words with one to three damages: a bit turned, a word replaced, lost, doubled or moved, words
/// added at the end.
pub fn damaged(words: &[u32], random: &mut Random) -> Vec<u32> {
    let mut damaged = words.to_vec();
    for _ in 0..1 + random.below(3) {
        if damaged.is_empty() {
            return damaged;
        }
        let place = random.below(damaged.len());
        match random.below(7) {
            0 => damaged[place] ^= 1 << random.below(32),
            1 => damaged[place] = any_interesting(random),
            2 => drop(damaged.remove(place)),
            3 => damaged.insert(place, damaged[place]),
            4 => damaged.swap(0, place),
            5 => damaged.truncate(place),
            _ => damaged.extend_from_within(place..),
        }
    }
    damaged.truncate(MOST_WORDS);
    damaged
}

/// Up to 200 words that mostly go together: more than a deck can have, too many positions, or kinds
/// at random.
pub fn long(random: &mut Random) -> Vec<u32> {
    let mut words = vec![0x1000_0080 - random.below(3) as u32];
    let length = random.below(MOST_WORDS + 1);
    let kind = [0x2000_0000, 0x4000_0000][random.below(2)];
    while words.len() < length {
        words.push(match random.below(40) {
            0 => any_interesting(random),
            1 => 0x3000_0001,
            2 => (random.below(1 << 16) as u32) << 16 | random.below(1 << 16) as u32,
            _ => kind + 1 + random.below(63) as u32,
        });
    }
    words
}
