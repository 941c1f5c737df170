//! The judge: which number document 01 refuses a call with, or none.
//!
//! Written from document 01 and docs/DECISIONS.md alone, never from the port or from rgrow: where
//! port and judge agree, two readings of the document agree. Of decks, names, parameters and designs
//! it has the answers too, for what the Rust lacks or cannot be asked.

pub mod ceiling;
pub mod deck;
pub mod design;
pub mod energies;
pub mod exact;
pub mod logarithm;
pub mod parameters;
pub mod ring;
pub mod search;
pub mod sequences;
pub mod sheet;
pub mod short;
pub mod sums;
pub mod tables;
pub mod temperature;

use protocol::Reply;

#[derive(Debug, Clone, Copy, PartialEq, Eq)]
pub enum Verdict {
    Admitted,
    /// Refused with this number; 9, 14, 16 and 17 may also give a place.
    Refused {
        number: u32,
        place: Option<u64>,
    },
}

/// Whether the condition of a number holds, and where.
#[derive(Debug, Clone, Copy, PartialEq, Eq)]
pub enum Holds {
    No,
    Yes,
    At(u64),
}

impl From<bool> for Holds {
    fn from(holds: bool) -> Self {
        match holds {
            true => Holds::Yes,
            false => Holds::No,
        }
    }
}

impl Holds {
    /// At the first of these places that is at fault.
    pub fn first(mut faults: impl Iterator<Item = bool>) -> Self {
        match faults.position(|fault| fault) {
            Some(place) => Holds::At(place as u64),
            None => Holds::No,
        }
    }

    fn refusal(self, number: u32) -> Option<Verdict> {
        let place = match self {
            Holds::No => return None,
            Holds::Yes => None,
            Holds::At(place) => Some(place),
        };
        Some(Verdict::Refused { number, place })
    }
}

impl Verdict {
    /// "If several apply, the lowest is given", and a number whose condition does not hold never.
    pub fn lowest<H: Copy + Into<Holds>>(conditions: &[(u32, H)]) -> Self {
        let refusals = conditions
            .iter()
            .filter_map(|(number, holds)| (*holds).into().refusal(*number));
        refusals
            .min_by_key(|refusal| refusal.number())
            .unwrap_or(Verdict::Admitted)
    }

    /// 0 if admitted.
    pub fn number(self) -> u32 {
        match self {
            Verdict::Admitted => 0,
            Verdict::Refused { number, .. } => number,
        }
    }

    /// The refusal as the port has to write it.
    pub fn refusal(self) -> Option<Reply> {
        match self {
            Verdict::Admitted => None,
            Verdict::Refused { number, place } => Some(Reply::Refused { number, place }),
        }
    }
}

impl std::fmt::Display for Verdict {
    fn fmt(&self, out: &mut std::fmt::Formatter<'_>) -> std::fmt::Result {
        match self.refusal() {
            None => write!(out, "admitted"),
            Some(refusal) => refusal.fmt(out),
        }
    }
}

/// "A number not finite or outside its range", ends included.
fn out_of_range(x: f64, low: f64, high: f64) -> bool {
    !x.is_finite() || x < low || x > high
}

#[cfg(test)]
mod tests {
    use super::*;

    #[test]
    fn the_lowest_condition_that_holds_gives_the_number() {
        assert_eq!(Verdict::lowest::<bool>(&[]), Verdict::Admitted);
        assert_eq!(Verdict::lowest(&[(1, false), (9, false)]).number(), 0);
        let number = |conditions: &[(u32, bool)]| Verdict::lowest(conditions).number();
        assert_eq!(number(&[(1, false), (2, true), (9, true)]), 2);
        assert_eq!(number(&[(9, true), (4, true), (2, false)]), 4);
    }

    #[test]
    fn the_place_is_that_of_the_number_given() {
        let at_3 = Holds::first([false, false, false, true, true].into_iter());
        assert_eq!(at_3, Holds::At(3));
        assert_eq!(Holds::first([false].into_iter()), Holds::No);
        let refused = |number, place| Verdict::Refused { number, place };
        let lowest = |conditions: &[(u32, Holds)]| Verdict::lowest(conditions);
        assert_eq!(lowest(&[(9, at_3), (10, Holds::Yes)]), refused(9, Some(3)));
        assert_eq!(lowest(&[(16, at_3), (10, Holds::Yes)]), refused(10, None));
        assert_eq!(lowest(&[(9, Holds::No), (17, at_3)]), refused(17, Some(3)));
    }
}
