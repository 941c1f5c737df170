//! Logarithms that are asked for, held against the judge's, and how far they were apart at most; and
//! concentrations with the port's logarithms of them, which designs are made of.

use crate::doubles::{around, not_finite};
use crate::judge::logarithm::{Logarithm, LEAST, MOST};
use crate::kinds::AskPort;
use crate::random::Random;
use protocol::{bits, Reply};
use std::cell::Cell;
use std::rc::Rc;

/// "Its result lies within 2 to the −40 of the exact logarithm."
const NEAR: u32 = 40;

/// The logarithms of a run.
#[derive(Debug, Default)]
pub struct Seen {
    logarithms: Cell<u64>,
    apart: Cell<f64>,
}

/// A logarithm that is expected.
#[derive(Debug)]
pub struct Asked {
    pub exact: Logarithm,
    pub seen: Rc<Seen>,
}

impl Asked {
    /// Why the port's figure is not the logarithm, or None.
    pub fn difference(&self, figures: &str) -> Option<&'static str> {
        let Some(given) = read(figures) else {
            return Some("no double");
        };
        let seen = &self.seen;
        seen.logarithms.set(seen.logarithms.get() + 1);
        seen.apart
            .set(seen.apart.get().max(self.exact.parting(given)));
        let within = self.exact.is_within(NEAR, given);
        (!within).then_some("not within 2^-40")
    }
}

fn read(figures: &str) -> Option<f64> {
    let figure = u64::from_str_radix(figures, 16).map(f64::from_bits);
    figure.ok().filter(|figure| figure.is_finite())
}

impl Seen {
    /// The largest error, which is to be at most 2^-40.
    pub fn said(&self) -> Result<String, String> {
        let (logarithms, apart) = (self.logarithms.get(), self.apart.get());
        let most = (-f64::from(NEAR)).exp2();
        let said = format!(
            "{logarithms} logarithms at most {apart:e} of the exact ones apart; 2^-40 is {most:e}"
        );
        match logarithms > 0 && apart <= most {
            true => Ok(said),
            false => Err(said),
        }
    }
}

/// Concentrations in range, each with the port's logarithm of it.
#[derive(Debug, Clone, Default)]
pub struct Pool(Vec<(f64, f64)>);

/// Of each sort so many.
const MOLAR: usize = 2_000;
const OF_ANY_SIZE: usize = 1_000;

impl Pool {
    /// Asks the port for all of them, and holds each against the judge.
    pub fn ask(port: &mut AskPort, seen: &Rc<Seen>) -> Result<Self, String> {
        let mut pairs = vec![];
        for concentration in chosen() {
            let line = format!("ln {}", bits(concentration));
            let answer = port(&line)?;
            let asked = Asked {
                exact: Logarithm::of(concentration),
                seen: seen.clone(),
            };
            match Reply::parse(&answer) {
                Some(Reply::Ok(figures)) if asked.difference(&figures).is_none() => {
                    let logarithm = read(&figures).expect("it is near one");
                    pairs.push((concentration, logarithm));
                }
                _ => return Err(format!("{line}: {answer}")),
            }
        }
        Ok(Pool(pairs))
    }

    pub fn pick(&self, random: &mut Random) -> (f64, f64) {
        random.pick(&self.0)
    }

    /// Of so few that sums are often equal.
    pub fn of_few(&self, random: &mut Random) -> (f64, f64) {
        let concentration = random.pick(&[0.5, 1.0, 1.0, 2.0]);
        (concentration, self.logarithm(concentration))
    }

    /// The port's logarithm of one that was asked for.
    pub fn logarithm(&self, concentration: f64) -> f64 {
        let is_it = |pair: &&(f64, f64)| pair.0 == concentration;
        self.0.iter().find(is_it).expect("it was asked for").1
    }
}

/// Both ends and the doubles next to them, powers of two, the neighbours of 1, those of nanomolar to
/// micromolar strands, and some of any size.
fn chosen() -> Vec<f64> {
    let random = &mut Random::new(3);
    let mut chosen = [around(LEAST), around(1.0), around(MOST)].concat();
    chosen.extend((-60..=10).map(|power| f64::from(power).exp2()));
    chosen.extend((0..MOLAR).map(|_| random.double(1e-9, 1e-5)));
    chosen.extend((0..OF_ANY_SIZE).map(|_| in_range(random)));
    chosen.retain(|x| (LEAST..=MOST).contains(x));
    chosen
}

/// Each power of two as likely as the next.
pub fn in_range(random: &mut Random) -> f64 {
    let power = random.within(0..=69) as i32 - 60;
    (1.0 + random.double(0.0, 1.0)) * f64::from(power).exp2()
}

/// Neither concentrations nor arguments of the logarithm.
pub fn out_of_range() -> Vec<f64> {
    let mut out = vec![
        0.0,
        -0.0,
        5e-324,
        LEAST.next_down(),
        MOST.next_up(),
        f64::MAX,
    ];
    out.extend([-5e-324, -LEAST, -1.0, -MOST]);
    out.extend(not_finite());
    out
}

#[cfg(test)]
mod tests {
    use super::*;
    use crate::judge::logarithm::is_dilute;

    #[test]
    fn a_logarithm_is_told_from_its_neighbours() {
        let asked = Asked {
            exact: Logarithm::of(2.0),
            seen: Rc::default(),
        };
        assert!(asked.seen.said().is_err());
        let ln_2 = std::f64::consts::LN_2;
        assert_eq!(asked.difference(&bits(ln_2)), None);
        let said = asked.seen.said().unwrap();
        assert!(said.starts_with("1 logarithms at most "), "{said}");
        assert!(asked.difference("ln").is_some());
        assert!(asked.difference(&bits(f64::NAN)).is_some());
        assert!(asked.difference(&bits(1.0)).is_some());
        assert!(asked.difference(&bits(ln_2 + 1e-12)).is_some());
        assert!(asked.seen.said().is_err());
    }

    #[test]
    fn concentrations_that_are_chosen_are_in_range() {
        let chosen = chosen();
        assert!(chosen.len() > MOLAR + OF_ANY_SIZE);
        assert!(!chosen.iter().any(|x| is_dilute(*x)));
        assert!(out_of_range().iter().all(|x| is_dilute(*x)));
        let random = &mut Random::new(1);
        assert!((0..20_000).all(|_| !is_dilute(in_range(random))));
        for end in [LEAST, MOST, 1.0] {
            assert!(chosen.contains(&end));
        }
    }
}
