//! `strengthx E A [B]`: the strength of one sequence or of two at an excess temperature.

use super::pair::{admitted_runs, between};
use super::{Ask, Kind};
use crate::bases::{beside, length, spoil, strand};
use crate::doubles::{around, extreme, not_finite, of_any_size};
use crate::judge::sequences;
use crate::question::Question;
use crate::random::Random;
use protocol::{bits, sequence_word};

pub struct Strengths;

/// Random strengths of one sequence in one round, and as many of two.
const IN_A_ROUND: usize = 20_000;

/// 37 °C, which an excess is counted from.
const T37C: f64 = 310.15;

impl Kind for Strengths {
    fn name(&self) -> &'static str {
        "strength"
    }

    fn replies(&self) -> &'static [u32] {
        &[0, 1, 2, 3, 4, 5, 9]
    }

    /// Every odd excess with a sequence and a pair of each reply: 9 is looked at last.
    fn fixed(&self, ask: &mut Ask) {
        let long = "g".repeat(257);
        let ones = ["gattaca", "AC", "", "a", "nac", long.as_str()];
        let twos = [
            ("gattaca", "ctaatgt"),
            ("AAAAAA", "TAAATT"),
            ("", ""),
            ("a", "c"),
            ("an", "ct"),
            ("acg", "tg"),
            ("AAAAA", "TAATT"),
            (long.as_str(), "n"),
        ];
        for excess in odd_excesses() {
            for s in ones {
                ask(of_one(excess, s.as_bytes()));
            }
            for (a, b) in twos {
                ask(of_two(excess, a.as_bytes(), b.as_bytes()));
            }
        }
    }

    fn random(&self, random: &mut Random, ask: &mut Ask) {
        for _ in 0..IN_A_ROUND {
            let excess = excess(random);
            let length = length(random);
            let mut s = strand(random, length);
            if random.once_in(32) {
                spoil(random, &mut s);
            }
            ask(of_one(excess, &s));

            let pairs = admitted_runs(random);
            let a = strand(random, pairs.len());
            let mut b = beside(random, &a, &pairs);
            if random.once_in(32) {
                b.push(b'a');
            }
            ask(of_two(excess, &a, &b));
        }
    }

    /// The oracle adds a word: whether Rust text was run.
    fn agree(&self, oracle: &str, port: &str) -> bool {
        oracle.split(' ').next() == Some(port)
    }

    fn note(&self, oracle: &str) -> Option<&'static str> {
        if oracle.ends_with(" rust") {
            Some("by Rust text")
        } else {
            Some("by the expression typed again")
        }
    }
}

fn of_one(excess: f64, s: &[u8]) -> Question {
    let line = format!("strengthx {} {}", bits(excess), sequence_word(s));
    Question::of_sequences(line, &[s], sequences::sequence_strength(s, excess))
}

fn of_two(excess: f64, a: &[u8], b: &[u8]) -> Question {
    let words = [bits(excess), sequence_word(a), sequence_word(b)];
    let line = format!("strengthx {}", words.join(" "));
    let verdict = sequences::pair_strength(a, b, excess);
    between(Question::of_sequences(line, &[a, b], verdict), a, b)
}

pub fn odd_excesses() -> Vec<f64> {
    let mut odd = [around(1024.0), around(-1024.0), not_finite(), extreme()].concat();
    odd.extend([-310.15, 37.0, 0.1, -1023.5, 2048.0, -2048.0]);
    odd
}

/// Half of them are what the Rust gets from some temperature, so that its own text is run.
fn excess(random: &mut Random) -> f64 {
    match random.below(16) {
        0..=7 => random.double(-713.85, 1334.15) - T37C,
        8..=11 => random.double(-1024.0, 1024.0),
        12..=13 => of_any_size(random),
        14 => random.double(-1026.0, 1026.0),
        _ => random.pick(&odd_excesses()),
    }
}
