//! `ln X`: the natural logarithm, held against the judge's.

use super::{Ask, Kind};
use crate::doubles::{around, extreme, not_finite, of_any_size};
use crate::judge::logarithm::{self, Logarithm, LEAST, MOST};
use crate::judge::Verdict;
use crate::logarithms::{in_range, Asked, Seen};
use crate::question::{Expected, Question};
use crate::random::Random;
use protocol::bits;
use std::rc::Rc;

#[derive(Default)]
pub struct Logarithms {
    seen: Rc<Seen>,
}

const IN_A_ROUND: usize = 60_000;

/// Doubles on either side of 1 that are asked one by one.
const BESIDE_ONE: u64 = 2_000;

impl Kind for Logarithms {
    fn name(&self) -> &'static str {
        "ln"
    }

    fn replies(&self) -> &'static [u32] {
        &[0, 15]
    }

    /// Both ends and each power of two, with the doubles next to them; 1 from both sides; each 64th
    /// from 1 to 2, where a table may step; what is no number, no size or negative.
    fn fixed(&self, ask: &mut Ask) {
        let mut put = |x: f64| ask(self.question(x));
        for end in [LEAST, MOST, -LEAST, -MOST] {
            around(end).into_iter().for_each(&mut put);
        }
        for power in -1074..=1023 {
            around(f64::from(power).exp2())
                .into_iter()
                .for_each(&mut put);
        }
        let one = 1.0f64.to_bits();
        for beside in one - BESIDE_ONE..=one + BESIDE_ONE {
            put(f64::from_bits(beside));
        }
        for power in 1..=60 {
            let part = (-f64::from(power)).exp2();
            [1.0 - part, 1.0 + part].into_iter().for_each(&mut put);
        }
        for step in 64..=128u8 {
            for power in [-60, -30, -1, 0, 9] {
                let at = f64::from(step) / 64.0 * f64::from(power).exp2();
                around(at).into_iter().for_each(&mut put);
            }
        }
        not_finite().into_iter().chain(extreme()).for_each(&mut put);
    }

    /// Of the range, near 1 in every size, and of any size and sign.
    fn random(&self, random: &mut Random, ask: &mut Ask) {
        for number in 0..IN_A_ROUND {
            let x = match number % 16 {
                0 => of_any_size(random),
                1 => f64::from_bits(random.bits()),
                2 | 3 => {
                    let part = random.double(0.5, 1.0) * (-(random.below(53) as f64)).exp2();
                    random.pick(&[1.0 - part / 2.0, 1.0 + part])
                }
                _ => in_range(random),
            };
            ask(self.question(x));
        }
    }

    fn watched(&self) -> Option<Result<String, String>> {
        Some(self.seen.said())
    }
}

impl Logarithms {
    fn question(&self, x: f64) -> Question {
        let expected = match logarithm::verdict(x) {
            Verdict::Admitted => Expected::Logarithm(Rc::new(Asked {
                exact: Logarithm::of(x),
                seen: self.seen.clone(),
            })),
            refused => Expected::Judged(refused),
        };
        Question {
            port: format!("ln {}", bits(x)),
            oracle: None,
            expected,
            about: None,
        }
    }
}
