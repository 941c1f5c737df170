//! `pair A B`: dG and dS of two sequences, mismatches and loops.

use super::loops::NEAR;
use super::{Ask, Kind};
use crate::bases::{all_sequences, beside, length, spoil, strand};
use crate::judge::sequences::{self, LENGTHS};
use crate::question::Question;
use crate::random::Random;
use protocol::sequence_word;

pub struct Pairs;

/// The longest run of mismatches that is tried at every place with every other.
const LONGEST_RUN: usize = 40;

/// Random pairs of each sort in one round, besides the runs.
const IN_A_ROUND: usize = 60_000;

impl Kind for Pairs {
    fn name(&self) -> &'static str {
        "pair"
    }

    fn replies(&self) -> &'static [u32] {
        &[0, 1, 2, 4, 5]
    }

    /// Each of the 781 sequences of up to 4 letters beside each: 609,961 pairs.
    fn fixed(&self, ask: &mut Ask) {
        let short = all_sequences(b"acgtn", 4);
        for a in &short {
            for b in &short {
                ask(question(a, b));
            }
        }
        let lengths = [0, 1, 2, 255, 256, 257, 258, 512, 65_536, 65_792];
        for m in lengths {
            for n in lengths {
                for (x, y) in [(b'a', b't'), (b'a', b'a'), (b'n', b't'), (b'c', b'n')] {
                    ask(question(&vec![x; m], &vec![y; n]));
                }
            }
        }
    }

    fn random(&self, random: &mut Random, ask: &mut Ask) {
        for start in 0..=LONGEST_RUN {
            for middle in 0..=LONGEST_RUN {
                for end in 0..=LONGEST_RUN {
                    let pairs = three_runs(random, start, middle, end);
                    ask(pair_of(random, &pairs));
                }
            }
        }
        for _ in 0..IN_A_ROUND {
            let pairs = long_runs(random);
            ask(pair_of(random, &pairs));
            let pairs = admitted_runs(random);
            ask(damaged_pair(random, &pairs));
            let pairs = scattered(random);
            ask(damaged_pair(random, &pairs));
        }
    }
}

fn question(a: &[u8], b: &[u8]) -> Question {
    let line = format!("pair {} {}", sequence_word(a), sequence_word(b));
    let question = Question::of_sequences(line, &[a, b], sequences::pair(a, b));
    between(question, a, b)
}

/// Where loops between the entries are summed, the sum lies near the Rust's: each loop by 2⁻³⁰, and
/// the roundings of up to 255 windows less than that.
pub fn between(question: Question, a: &[u8], b: &[u8]) -> Question {
    match sequences::loops_between(a, b) {
        0 => question,
        loops => question.near(None, (loops + 1) as f64 * NEAR),
    }
}

fn pair_of(random: &mut Random, pairs: &[bool]) -> Question {
    let a = strand(random, pairs.len());
    let b = beside(random, &a, pairs);
    question(&a, &b)
}

/// A long run of mismatches between partners, of up to 254 places, and a shorter one beside it where
/// there is room.
fn long_runs(random: &mut Random) -> Vec<bool> {
    let run = random.within(2..=252);
    let mut pairs = vec![true; 2];
    pairs.resize(2 + run, false);
    pairs.resize(4 + run, true);
    if pairs.len() < 240 {
        pairs.resize(pairs.len() + random.within(1..=12), false);
        pairs.resize(pairs.len() + 2, true);
    }
    pairs
}

/// Runs of mismatches at the start, in the middle and at the end, with stretches of partners
/// between them. A stretch of one place has no good window: the two runs count as one.
fn three_runs(random: &mut Random, start: usize, middle: usize, end: usize) -> Vec<bool> {
    let mut pairs = vec![false; start];
    for run in [middle, end] {
        let stretch = random.within(1..=6);
        pairs.resize(pairs.len() + stretch, true);
        pairs.resize(pairs.len() + run, false);
    }
    pairs
}

/// Which places pair, up to 257 of them, with runs of mismatches whose loops are mostly in
/// LENGTHS, so that most are answered and sums are long.
pub fn admitted_runs(random: &mut Random) -> Vec<bool> {
    let wanted = length(random);
    let mut pairs = Vec::with_capacity(wanted + 64);
    while pairs.len() < wanted {
        let stretch = random.pick(&[1, 2, 2, 3, 5, 8, 20, 60]);
        pairs.resize(pairs.len() + stretch, true);
        let run = match random.below(16) {
            0 => random.within(0..=60),
            1..=6 => random.pick(&LENGTHS),
            _ => 1,
        };
        pairs.resize(pairs.len() + run, false);
    }
    if random.once_in(2) {
        pairs.reverse();
    }
    pairs.truncate(wanted);
    pairs
}

/// Which places pair, with mismatches strewn over them: none, few, many or all.
fn scattered(random: &mut Random) -> Vec<bool> {
    let one_in = random.pick(&[1, 2, 4, 16, 64, 1_000_000]);
    let length = length(random);
    (0..length).map(|_| !random.once_in(one_in)).collect()
}

/// One pair in four with wrong bytes, with one strand longer, or both.
fn damaged_pair(random: &mut Random, pairs: &[bool]) -> Question {
    let mut a = strand(random, pairs.len());
    let mut b = beside(random, &a, pairs);
    let damage = random.below(12);
    if damage == 0 || damage == 1 {
        let longer = if random.once_in(2) { &mut a } else { &mut b };
        let more = random.pick(&[1, 1, 2, 16, 256]);
        let tail = strand(random, more);
        longer.extend(tail);
    }
    if damage == 1 || damage == 2 {
        let spoiled = if random.once_in(2) { &mut a } else { &mut b };
        spoil(random, spoiled);
    }
    question(&a, &b)
}

#[cfg(test)]
mod tests {
    use super::*;

    #[test]
    fn runs_stand_where_they_are_asked_for() {
        let mut random = Random::new(6);
        for _ in 0..100 {
            let pairs = three_runs(&mut random, 3, 0, 2);
            assert!(pairs.starts_with(&[false, false, false, true]));
            assert!(pairs.ends_with(&[true, false, false]));
            assert_eq!(pairs.iter().filter(|pairs| !**pairs).count(), 5);
        }
    }

    #[test]
    fn most_pairs_with_admitted_runs_are_admitted() {
        let mut random = Random::new(7);
        let mut admitted = 0;
        for _ in 0..1000 {
            let pairs = admitted_runs(&mut random);
            assert!(pairs.len() <= 257);
            if pair_of(&mut random, &pairs).expected_number() == 0 {
                admitted += 1;
            }
        }
        assert!(admitted > 400, "{admitted} of 1000");
    }
}
