//! `published S`: dG and dS of one sequence in the published mode, which the Rust lacks.

use super::{Ask, Kind};
use crate::bases::{all_sequences, length, spoil, strand};
use crate::judge::{sequences, short};
use crate::question::Question;
use crate::random::Random;
use protocol::sequence_word;

pub struct Published;

/// Random sequences in one round; one in four is its own reverse complement, or nearly.
const IN_A_ROUND: usize = 60_000;

impl Kind for Published {
    fn name(&self) -> &'static str {
        "published"
    }

    fn replies(&self) -> &'static [u32] {
        &[0, 1, 2, 3]
    }

    fn fixed(&self, ask: &mut Ask) {
        for s in all_sequences(b"acgtn", 6) {
            ask(question(&s));
            ask(question(&s.to_ascii_uppercase()));
        }
        for s in short::all() {
            ask(question(&s));
        }
        for first in 0..=255 {
            ask(question(&[first]));
            for second in 0..=255 {
                ask(question(&[first, second]));
            }
        }
        for half in all_sequences(b"acgt", 6) {
            ask(question(&symmetric(&half)));
        }
        for length in 255..=258 {
            ask(question(&vec![b'a'; length]));
            ask(question(&vec![b'n'; length]));
        }
    }

    fn random(&self, random: &mut Random, ask: &mut Ask) {
        for _ in 0..IN_A_ROUND {
            let length = length(random);
            let mut s = strand(random, length);
            if random.once_in(4) {
                s = symmetric(&s[..length.min(128)]);
                if random.once_in(2) && !s.is_empty() {
                    let place = random.below(s.len());
                    s[place] = random.pick(b"acgtACGT");
                }
            }
            if random.once_in(8) {
                spoil(random, &mut s);
            }
            ask(question(&s));
        }
    }
}

/// A half followed by its reverse complement, in the other case.
fn symmetric(half: &[u8]) -> Vec<u8> {
    let other = |letter: &u8| match letter.to_ascii_lowercase() {
        b'a' => b'T',
        b't' => b'A',
        b'c' => b'G',
        b'g' => b'C',
        byte => byte,
    };
    half.iter()
        .copied()
        .chain(half.iter().rev().map(other))
        .collect()
}

fn question(s: &[u8]) -> Question {
    Question::of_port(
        format!("published {}", sequence_word(s)),
        sequences::sequence(s),
        || {
            let (dg, ds) = sequences::published(s);
            format!("{:016x} {:016x}", dg.to_bits(), ds.to_bits())
        },
    )
}
