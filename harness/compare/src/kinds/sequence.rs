//! `seq S`: dG and dS of one sequence.

use super::{Ask, Kind};
use crate::bases::{all_sequences, length, spoil, strand};
use crate::judge::{sequences, short};
use crate::question::Question;
use crate::random::Random;
use protocol::sequence_word;

pub struct Sequences;

/// Random sequences in one round.
const IN_A_ROUND: usize = 120_000;

impl Kind for Sequences {
    fn name(&self) -> &'static str {
        "seq"
    }

    fn replies(&self) -> &'static [u32] {
        &[0, 1, 2, 3]
    }

    fn fixed(&self, ask: &mut Ask) {
        for s in all_sequences(b"acgtn", 6) {
            ask(question(&s));
        }
        for s in short::all() {
            ask(question(&s));
        }
        for first in 0..=255 {
            ask(question(&[first]));
            for second in 0..=255 {
                ask(question(&[first, second]));
            }
        }
        for place in 0..4 {
            for byte in 0..=255 {
                let mut s = *b"gatc";
                s[place] = byte;
                ask(question(&s));
            }
        }
        // Far beyond the limit, among them lengths that fit again when cut to 8 or 16 bits.
        for length in (257..=300).chain([512, 514, 65_536, 65_538, 65_792, 100_000]) {
            ask(question(&vec![b'a'; length]));
            ask(question(&vec![b'n'; length]));
        }
    }

    fn random(&self, random: &mut Random, ask: &mut Ask) {
        for _ in 0..IN_A_ROUND {
            let length = length(random);
            let mut s = strand(random, length);
            if random.once_in(8) {
                spoil(random, &mut s);
            }
            ask(question(&s));
        }
    }
}

fn question(s: &[u8]) -> Question {
    let line = format!("seq {}", sequence_word(s));
    Question::of_sequences(line, &[s], sequences::sequence(s))
}
