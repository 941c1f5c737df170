//! `exp X`: the exponential of a double, which the Rust takes from astro_float and is not held against.
//! The judge has it by whole numbers. `weight DIGITS POWER`: a weight as a double.

use super::{Ask, Kind};
use crate::judge::energies::{exponential, exponential_verdict, weight_double};
use crate::judge::Verdict;
use crate::question::{Expected, Question};
use crate::random::Random;
use crate::sums::{Asked, Seen};
use std::rc::Rc;

const IN_A_ROUND: usize = 50_000;

pub struct Exponentials {
    seen: Rc<Seen>,
}

impl Default for Exponentials {
    fn default() -> Self {
        Exponentials {
            seen: Seen::of("exponentials", 24),
        }
    }
}

impl Exponentials {
    fn question(&self, x: f64) -> Question {
        let expected = match exponential_verdict(x) {
            Verdict::Admitted if x == 0.0 => Expected::Figures("1073741824 -30".to_string()),
            Verdict::Admitted => {
                let exact = exponential(x).exact();
                Expected::Sum(Rc::new(Asked::sum(exact, &self.seen)))
            }
            refused => Expected::Judged(refused),
        };
        Question {
            port: format!("exp {:016x}", x.to_bits()),
            oracle: None,
            expected,
            about: None,
        }
    }

    /// A weight as a double, bit for bit.
    fn weight(&self, digits: u32, power: i32) -> Question {
        let figure = weight_double(digits, power).to_bits();
        let port = format!("weight {digits} {power}");
        Question::of_port(port, Verdict::Admitted, || format!("{figure:016x}"))
    }

    /// A double with its neighbours, of both signs.
    fn around(&self, x: f64, ask: &mut Ask) {
        for bits in x.to_bits().saturating_sub(2)..=x.to_bits() + 2 {
            ask(self.question(f64::from_bits(bits)));
            ask(self.question(-f64::from_bits(bits)));
        }
    }
}

impl Kind for Exponentials {
    fn name(&self) -> &'static str {
        "exp"
    }

    fn replies(&self) -> &'static [u32] {
        &[0, 9]
    }

    fn fixed(&self, ask: &mut Ask) {
        for power in -1074..=1023 {
            self.around(2f64.powi(power), ask);
        }
        // Near multiples of ln 2, where digits are all ones or all zeros.
        for multiple in (0..=2_000).chain((2_000..=116_000).step_by(97)) {
            self.around(f64::from(multiple) * std::f64::consts::LN_2, ask);
        }
        for x in [
            0.0,
            80_000.0,
            79_999.5,
            80_000.5,
            1e300,
            f64::INFINITY,
            f64::NAN,
        ] {
            self.around(x, ask);
        }
        for quarter in 0..=2_000 {
            self.around(f64::from(quarter) / 4.0, ask);
        }
        let powers = (-1_160..=-1_020).chain(990..=1_030);
        for power in powers.chain([-400_000, 0, 400_000, i32::MIN, i32::MAX]) {
            let whole = 1 << 30;
            for digits in [0, 1, 3, whole, whole + 1, 2 * whole - 1, u32::MAX] {
                ask(self.weight(digits, power));
            }
        }
    }

    fn random(&self, random: &mut Random, ask: &mut Ask) {
        for _ in 0..IN_A_ROUND {
            let part = random.bits() as f64 / 2f64.powi(64);
            let most = random.pick(&[80_000.0, 80_000.0, 1_000.0, 10.0, 1.0, 1e-6, 81_000.0]);
            let x = match random.once_in(50) {
                true => f64::from_bits(random.bits()),
                false => (part - 0.5) * 2.0 * most,
            };
            ask(self.question(x));
            let digits = (random.bits() >> random.within(32..=63)) as u32;
            let power = random.below(2_400) as i32 - 1_200;
            ask(self.weight(digits, power));
        }
    }

    fn watched(&self) -> Option<Result<String, String>> {
        Some(self.seen.said())
    }
}
