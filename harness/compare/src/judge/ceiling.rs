//! Document 02's first state under a ceiling, by going through the states in the listing's order.

use super::design::{Lent, MOST_STATES};
use super::Verdict;

impl Lent {
    /// "9 without a place for a ceiling that is not finite where every cell is in range", "12 as for a
    /// count", "23 where no state has an energy at or under the ceiling".
    pub fn ceiling_verdict(&self, ceiling: f64, lent: usize) -> Verdict {
        self.verdict(lent != self.positions(), || {
            let many = self.count() > MOST_STATES;
            let none = !many && self.first_under(ceiling).is_none();
            vec![(9, !ceiling.is_finite()), (12, many), (23, none)]
        })
    }

    /// "The first state, in listing order, whose state energy is at most a ceiling."
    pub fn first_under(&self, ceiling: f64) -> Option<Vec<u8>> {
        let states = (0..self.count() as u64).map(|rank| self.state(rank));
        states
            .into_iter()
            .find(|state| self.state_energy(state) <= ceiling)
    }
}

#[cfg(test)]
mod tests {
    use crate::judge::design::tests::bench;

    #[test]
    fn the_worked_ceilings_hold() {
        let two = bench(&[1, 2], &[-0.5, -2.0]);
        let first = |ceiling: f64| two.first_under(ceiling);
        assert_eq!(first(-1.5), Some(vec![1, 2]));
        assert_eq!(first(-1.6), None);
        assert_eq!(first(0.0), Some(vec![1, 2]));
        assert_eq!(first(-0.0), Some(vec![1, 2]));
        assert_eq!(two.ceiling_verdict(-1.6, 2).number(), 23);
        assert_eq!(two.ceiling_verdict(f64::INFINITY, 2).number(), 9);
        assert_eq!(two.ceiling_verdict(-1.5, 3).number(), 1);
        let empty = bench(&[], &[-2.0]);
        assert_eq!(empty.first_under(0.0), Some(vec![]));
        assert_eq!(empty.ceiling_verdict(-1.0, 0).number(), 23);
        let many = bench(&[1; 21], &[-2.0]);
        assert_eq!(many.ceiling_verdict(-1e300, 21).number(), 12);
    }
}
