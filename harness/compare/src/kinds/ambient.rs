//! `ambient K T`: T, RT under a bond, rtval, strand excess, scaffold excess.

use super::{Ask, Kind};
use crate::doubles::{around, extreme, not_finite, of_any_size};
use crate::judge::temperature;
use crate::question::Question;
use crate::random::Random;
use protocol::{bits, double};

pub struct Ambients;

const IN_A_ROUND: usize = 20_000;

/// From here up the Rust's strand excess is the helper's; below, ((T − 310.15) − 273.15) + 273.15
/// rounds away from T − 310.15 for about half of all T.
pub const WHOLE_FROM: f64 = 256.0;

const SCAFFOLD_EXCESS: usize = 4;
const STRAND_EXCESS: usize = 3;

impl Kind for Ambients {
    fn name(&self) -> &'static str {
        "ambient"
    }

    fn replies(&self) -> &'static [u32] {
        &[0, 9]
    }

    fn fixed(&self, ask: &mut Ask) {
        for kelvin in [
            0.0, 200.0, 256.0, 273.15, 310.15, 400.0, 500.0, 512.0, 1000.0,
        ] {
            for near in around(kelvin) {
                ask(question(near));
                ask(question(-near));
            }
        }
        for kelvin in [not_finite(), extreme()].concat() {
            ask(question(kelvin));
        }
        for hundredth in 19_900..=50_100 {
            ask(question(f64::from(hundredth) / 100.0));
        }
    }

    fn random(&self, random: &mut Random, ask: &mut Ask) {
        for _ in 0..IN_A_ROUND {
            let kelvin = match random.below(8) {
                0..=3 => random.double(200.0, 500.0),
                4..=5 => random.double(199.0, 257.0),
                6 => random.double(499.0, 501.0),
                _ => of_any_size(random),
            };
            ask(question(kelvin));
        }
    }

    /// Whole from 256 K up. Below, the strand excess is held against document 01 instead, which
    /// gives both excesses by one formula: it has to be the scaffold excess.
    fn agree(&self, oracle: &str, port: &str) -> bool {
        let mut expected: Vec<&str> = oracle.split(' ').collect();
        if expected.len() <= SCAFFOLD_EXCESS {
            return false;
        }
        let whole = double(expected[0]).is_ok_and(|kelvin| kelvin >= WHOLE_FROM);
        if !whole {
            expected[STRAND_EXCESS] = expected[SCAFFOLD_EXCESS];
        }
        expected.join(" ") == port
    }

    fn note(&self, oracle: &str) -> Option<&'static str> {
        let figures: Vec<&str> = oracle.split(' ').collect();
        if figures.get(STRAND_EXCESS) == figures.get(SCAFFOLD_EXCESS) {
            Some("whole")
        } else {
            Some("but for the Rust's strand excess")
        }
    }
}

fn question(kelvin: f64) -> Question {
    let line = format!("ambient K {}", bits(kelvin));
    Question::of_both(line, temperature::ambient(kelvin))
}

#[cfg(test)]
mod tests {
    use super::*;

    #[test]
    fn the_strand_excess_is_the_rusts_from_256_kelvin_up() {
        let line = |kelvin: f64, strand: &str| format!("{} 1 1 {strand} 7", bits(kelvin));
        let agree =
            |kelvin, oracle, port| Ambients.agree(&line(kelvin, oracle), &line(kelvin, port));
        assert!(agree(256.0, "7", "7"));
        assert!(!agree(256.0, "6", "7"));
        assert!(!agree(256.0, "7", "6"));
        assert!(agree(255.5, "6", "7"));
        assert!(!agree(255.5, "6", "6"));
        assert!(!Ambients.agree("7", "7"));
    }
}
