//! Sums and quotients of sums that are asked for, held against exact ones, and how far they were apart at most.

use crate::judge::exact::Exact;
use std::cell::Cell;
use std::rc::Rc;

/// The sums, or other figures, of a run.
#[derive(Debug)]
pub struct Seen {
    /// What they are.
    what: &'static str,
    /// "Within one part in 2 to the" so much.
    parts: u32,
    sums: Cell<u64>,
    zeros: Cell<u64>,
    apart: Cell<f64>,
}

/// A sum that is expected, or a quotient of two.
#[derive(Debug)]
pub struct Asked {
    pub exact: Exact,
    /// What it is divided by: 1 of a sum.
    pub by: Exact,
    pub seen: Rc<Seen>,
}

/// The probabilities of all occupants, row first: a row for each position, so many cells wide.
#[derive(Debug)]
pub struct Occupants {
    pub cells: Vec<Asked>,
    pub width: usize,
}

fn one_more(count: &Cell<u64>) {
    count.set(count.get() + 1);
}

impl Asked {
    pub fn sum(exact: Exact, seen: &Rc<Seen>) -> Self {
        Asked {
            exact,
            by: Exact::one(),
            seen: seen.clone(),
        }
    }

    /// Why the port's digits and power are not the sum, or None.
    pub fn difference(&self, figures: &str) -> Option<&'static str> {
        let (digits, power) = figures.split_once(' ').unwrap_or((figures, ""));
        let (Ok(digits), Ok(power)) = (digits.parse::<u32>(), power.parse::<i32>()) else {
            return Some("no digits and power");
        };
        one_more(&self.seen.sums);
        if self.exact.is_zero() {
            one_more(&self.seen.zeros);
            let is_zero = digits == 0 && power == 0;
            return (!is_zero).then_some("not zero where no state is left");
        }
        if !(1 << 30..1 << 31).contains(&digits) {
            return Some("not in form");
        }
        let given = self.by.times(digits, i64::from(power));
        let apart = self.exact.parting(&given);
        self.seen.apart.set(self.seen.apart.get().max(apart));
        let within = self.exact.is_within(self.seen.parts, &given);
        (!within).then_some("not near enough to the exact one")
    }
}

impl Occupants {
    /// Why the port's lists of digits and of powers are not these, or None. A row adds up to 1 within
    /// 2^-11.
    pub fn difference(&self, figures: &str) -> Option<&'static str> {
        let (digits, powers) = figures.split_once(' ').unwrap_or((figures, ""));
        let digits: Vec<&str> = digits.split(',').collect();
        let powers: Vec<&str> = powers.split(',').collect();
        if digits.len() != self.cells.len() || powers.len() != self.cells.len() {
            return Some("not a cell for each occupant");
        }
        let told = digits.iter().zip(&powers);
        let mut differences = self
            .cells
            .iter()
            .zip(told.clone())
            .filter_map(|(cell, (digits, power))| cell.difference(&format!("{digits} {power}")));
        if let Some(difference) = differences.next() {
            return Some(difference);
        }
        let told: Vec<Exact> = told
            .map(|(digits, power)| {
                let (digits, power) = (digits.parse().ok(), power.parse::<i32>().ok());
                Exact::one().times(digits.unwrap_or(0), i64::from(power.unwrap_or(0)))
            })
            .collect();
        let is_whole = |row: &[Exact]| {
            let sum = row.iter().fold(Exact::default(), |sum, x| sum.plus(x));
            Exact::one().is_within(11, &sum)
        };
        let whole = told.chunks(self.width).all(is_whole);
        (!whole).then_some("a row of occupants does not add up to 1")
    }
}

impl Seen {
    pub fn of(what: &'static str, parts: u32) -> Rc<Self> {
        Rc::new(Seen {
            what,
            parts,
            sums: Cell::default(),
            zeros: Cell::default(),
            apart: Cell::default(),
        })
    }

    pub fn zeros(&self) -> u64 {
        self.zeros.get()
    }

    /// The largest error, which has to be below what is promised.
    pub fn said(&self) -> Result<String, String> {
        let (sums, apart, parts) = (self.sums.get(), self.apart.get(), self.parts);
        let (what, most) = (self.what, (-f64::from(parts)).exp2());
        let said = format!(
            "{sums} {what} at most {apart:e} of the exact ones apart; 2^-{parts} is {most:e}"
        );
        match sums > 0 && apart < most {
            true => Ok(said),
            false => Err(said),
        }
    }
}

#[cfg(test)]
mod tests {
    use super::*;

    #[test]
    fn a_sum_is_told_from_its_neighbours() {
        let asked = |exact: Exact| Asked::sum(exact, &Seen::of("sums", 15));
        let three = asked(Exact::one().times(3, 0));
        assert_eq!(three.difference("1610612736 -29"), None);
        assert_eq!(three.difference("1610612735 -29"), None);
        assert!(three.difference("1610612736 -28").is_some());
        assert!(three.difference("3221225472 -30").is_some());
        assert!(three.difference("1610563582 -29").is_some());
        assert!(three.difference("0 0").is_some());
        assert!(three.difference("1610612736").is_some());
        assert!(three.seen.said().is_err());
        let none = asked(Exact::default());
        assert_eq!(none.difference("0 0"), None);
        assert!(none.difference("1073741824 -400000").is_some());
        assert_eq!((none.seen.zeros(), none.seen.said().is_ok()), (2, true));
    }

    #[test]
    fn a_quotient_is_told_from_its_neighbours() {
        let third = Asked {
            exact: Exact::one().times(1, 500_000),
            by: Exact::one().times(3, 500_000),
            seen: Seen::of("quotients", 12),
        };
        assert_eq!(third.difference("1431655765 -32"), None);
        assert!(third.difference("1431655765 -31").is_some());
        assert!(third.difference("1073741824 -30").is_some());
    }

    #[test]
    fn a_row_of_occupants_adds_up() {
        let seen = Seen::of("occupants", 12);
        let half = || Asked {
            exact: Exact::one(),
            by: Exact::one().times(2, 0),
            seen: seen.clone(),
        };
        let table = Occupants {
            cells: vec![half(), half(), Asked::sum(Exact::default(), &seen)],
            width: 3,
        };
        assert_eq!(table.difference("1073741824,1073741824,0 -31,-31,0"), None);
        assert!(table.difference("1073741824,1073741824 -31,-31").is_some());
        let whole = table.difference("1073741824,1073741824,0 -31,-30,0");
        assert!(whole.is_some());
        let stranger = table.difference("1073741824,1073741824,1073741824 -31,-31,-99");
        assert!(stranger.is_some());
        let open = Occupants {
            cells: vec![half(), Asked::sum(Exact::default(), &seen)],
            width: 2,
        };
        assert!(open.difference("1073741824,0 -31,0").is_some());
    }
}
