//! `loop N K`: the free energy of a loop of length N and kind K.

use super::{Ask, Kind};
use crate::judge::sequences::{self, LENGTHS};
use crate::question::Question;
use crate::random::Random;

pub struct Loops;

const IN_A_ROUND: usize = 2_000;

impl Kind for Loops {
    fn name(&self) -> &'static str {
        "loop"
    }

    fn replies(&self) -> &'static [u32] {
        &[0, 5]
    }

    fn fixed(&self, ask: &mut Ask) {
        for length in 0..=300 {
            for kind in 0..=3 {
                ask(question(length, kind));
            }
        }
        // Around the powers of two, and entries of the table that come back when a length is cut
        // to 8, 16, 32 or 63 bits.
        for power in [8, 15, 16, 31, 32, 53, 62, 63] {
            for length in LENGTHS.map(|entry| (1u64 << power) + entry as u64) {
                ask(question(length, 0));
            }
            for distance in 0..=2 {
                ask(question((1 << power) - distance, 1));
                ask(question((1 << power) + distance, 2));
            }
        }
        for distance in 0..=32 {
            for kind in 0..=3 {
                ask(question(u64::MAX - distance, kind));
            }
        }
        // Kinds that come back when cut to 8 or 16 bits, or read as signed.
        for kind in (4..=20).chain([255, 256, 257, 258, 65_536, 65_538, 1 << 31, u32::MAX]) {
            for length in LENGTHS {
                ask(question(length as u64, kind));
            }
        }
    }

    fn random(&self, random: &mut Random, ask: &mut Ask) {
        for _ in 0..IN_A_ROUND {
            let length = random.bits() >> random.below(64);
            let kind = (random.bits() >> 32) as u32 >> random.below(32);
            ask(question(length, kind));
            ask(question(length, kind % 3));
        }
    }
}

fn question(length: u64, kind: u32) -> Question {
    let line = format!("loop {length} {kind}");
    let verdict = sequences::loop_penalty(length, kind);
    let between = verdict.number() == 0 && !LENGTHS.contains(&(length as usize));
    let question = Question::of_both(line, verdict);
    if between {
        return question.near(Some(sequences::loop_energy(length as usize, kind)), NEAR);
    }
    question
}

/// Document 02: "within 2 to the −30 kcal/mol of the exact value".
pub const NEAR: f64 = 1.0 / (1u64 << 30) as f64;
