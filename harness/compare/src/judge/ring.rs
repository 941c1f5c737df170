//! Document 02's ring scaffolds: the energy of a state whose last place neighbours its first, and the
//! search for the lowest.

use super::design::Lent;
use super::search::{traced, Reading};
use super::Verdict;

/// "Fewer than 3 positions."
const LEAST_POSITIONS: usize = 3;

/// Ways to read the paragraph that are wrong, each about one of its rules.
#[derive(Debug, Clone, Copy, PartialEq, Eq)]
pub enum RingReading {
    Document,
    /// The empty place is tried first at position 0.
    EmptyFirst,
    /// The closing bond is left out of the comparison, and added to what is found.
    ClosedAfterwards,
    /// Ring sums are compared before they are multiplied by RT.
    SumsCompared,
}

impl Lent {
    fn is_no_ring(&self) -> bool {
        self.positions() < LEAST_POSITIONS
    }

    pub fn ring_energy_verdict(&self, configuration: &[u8]) -> Verdict {
        self.verdict(configuration.len() != self.positions(), || {
            vec![
                (11, self.has_stranger(configuration)),
                (20, self.is_no_ring()),
            ]
        })
    }

    /// Never 12.
    pub fn ring_search_verdict(&self, lent: usize) -> Verdict {
        self.verdict(lent != self.positions(), || vec![(20, self.is_no_ring())])
    }

    /// "If first and last places are both occupied, the strand bond from last to first, added once at
    /// the end."
    fn closed(&self, first: usize, last: usize, sum: f64) -> f64 {
        match first != 0 && last != 0 {
            true => sum + self.strand_bond(last, first),
            false => sum,
        }
    }

    /// "The chain energy plus [the closing bond], then times RT."
    pub fn ring_energy(&self, configuration: &[u8]) -> f64 {
        let end = |place: Option<&u8>| place.map_or(0, |strand| usize::from(*strand));
        let (first, last) = (end(configuration.first()), end(configuration.last()));
        self.closed(first, last, self.chain_energy(configuration)) * self.rt
    }

    /// The least of all states.
    pub fn ring_walk(&self) -> f64 {
        self.least(|state| self.ring_energy(state))
    }

    /// "Tries each occupant of position 0 in friend order, empty last, and keeps the first smallest."
    pub fn ring_search(&self, reading: RingReading) -> (f64, Vec<u8>) {
        let mut firsts = self.options(0);
        if reading == RingReading::EmptyFirst {
            firsts.rotate_right(1);
        }
        let mut kept: Option<(f64, f64, Vec<u8>)> = None;
        for first in firsts {
            let (sum, configuration) = self.from_first(first, reading);
            let energy = self.ring_energy(&configuration);
            let is_less = |least: &(f64, f64, Vec<u8>)| match reading {
                RingReading::SumsCompared => sum < least.0,
                _ => energy < least.1,
            };
            if kept.as_ref().is_none_or(is_less) {
                kept = Some((sum, energy, configuration));
            }
        }
        let (_, energy, configuration) = kept.expect("0 is an option");
        (energy, configuration)
    }

    /// "For one first occupant the chain's tie rules hold": the first smallest product at the last
    /// position, the closing bond in it. The ring sum, and the state.
    fn from_first(&self, first: u8, reading: RingReading) -> (f64, Vec<u8>) {
        let rows = self.rows(self, Some(first), Reading::Document);
        let last = rows.last().expect("three positions");
        let sum = |place: usize| {
            let (occupant, energy) = (last[place].occupant, last[place].energy);
            self.closed(usize::from(first), occupant, energy)
        };
        let compared = |place: usize| match reading {
            RingReading::ClosedAfterwards => last[place].energy * self.rt,
            RingReading::SumsCompared => sum(place),
            _ => sum(place) * self.rt,
        };
        let mut place = 0;
        for next in 1..last.len() {
            if compared(next) < compared(place) {
                place = next;
            }
        }
        (sum(place), traced(&rows, place))
    }
}

#[cfg(test)]
mod tests {
    use super::*;
    use crate::judge::design::CELLS;

    /// Three positions of glues 1, 2, 3 with these dGs for strand 1, whose bottom glue is 4; its west
    /// and east are glue 5, for which `pair` stands; RT 0.5.
    fn ring(potential: f64, dg: [f64; 3], pair: f64) -> Lent {
        let mut lent = Lent {
            scaffold: vec![1, 2, 3],
            marks: vec![0; 3],
            glues: vec![0, 0, 0, 5, 4, 5],
            dg: vec![0.0; CELLS],
            ds: vec![0.0; CELLS],
            potentials: vec![f64::NAN, potential],
            rt: 0.5,
            ..Lent::default()
        };
        for (position, energy) in dg.into_iter().enumerate() {
            lent.dg[64 * (position + 1) + 4] = energy;
        }
        lent.dg[64 * 5 + 5] = pair;
        lent
    }

    fn found(lent: &Lent, reading: RingReading) -> (f64, Vec<u8>) {
        assert_eq!(lent.ring_search_verdict(3), Verdict::Admitted);
        let found = lent.ring_search(reading);
        assert_eq!(lent.ring_energy(&found.1), found.0);
        found
    }

    #[test]
    fn the_first_smallest_occupant_of_position_0_is_kept() {
        let lent = ring(-1.0, [-0.5, -1.0, -0.5], 0.0);
        assert_eq!(found(&lent, RingReading::Document), (-0.5, vec![1, 1, 1]));
        assert_eq!(lent.search(Reading::Document), (-0.5, vec![0, 1, 1]));
        let wrong = found(&lent, RingReading::EmptyFirst);
        assert_eq!(wrong, (-0.5, vec![0, 1, 1]));
    }

    #[test]
    fn the_closing_bond_decides() {
        let lent = ring(0.0, [0.25, -0.25, -0.5], -0.25);
        assert_eq!(found(&lent, RingReading::Document), (-1.25, vec![1, 1, 1]));
        assert_eq!(lent.search(Reading::Document).1, [0, 1, 1]);
        assert_eq!(lent.ring_energy(&[0, 1, 1]), -1.0);
        let lent = ring(-1.0, [-1.0, -0.75, -0.5], 0.5);
        assert_eq!(found(&lent, RingReading::Document), (-0.5, vec![1, 0, 0]));
        let wrong = lent.from_first(1, RingReading::ClosedAfterwards);
        assert_eq!(wrong.1, [1, 0, 1]);
        assert_eq!(lent.ring_energy(&[1, 0, 1]), 0.0);
    }

    #[test]
    fn the_chains_rules_hold_behind_a_first_occupant() {
        let lent = ring(-1.0, [-0.75, -0.5, -1.0], 0.0);
        assert_eq!(found(&lent, RingReading::Document), (-0.75, vec![1, 0, 1]));
        let lent = ring(0.0, [-0.25, 0.5, -0.25], 0.5);
        assert_eq!(found(&lent, RingReading::Document), (-0.25, vec![1, 0, 0]));
    }

    #[test]
    fn products_are_compared() {
        let mut lent = ring(0.0, [0.0; 3], 0.0);
        lent.rt = 0.7;
        lent.glues = vec![0, 0, 0, 0, 6, 0, 0, 6, 0];
        lent.potentials = vec![0.0, -1.0, -0.9999999999999998];
        lent.dg[64 + 6] = -2.0;
        assert_eq!(found(&lent, RingReading::Document), (-1.3, vec![1, 0, 0]));
        let wrong = found(&lent, RingReading::SumsCompared);
        assert_eq!(wrong, (-1.3, vec![2, 0, 0]));
    }

    /// Three strands, each on its own place, with bonds of 0.1 to the east and 0.3 from last to first.
    #[test]
    fn the_closing_bond_is_added_at_the_end() {
        let mut lent = ring(0.0, [0.0; 3], 0.0);
        lent.rt = 1.0;
        lent.glues = vec![0, 0, 0, 13, 4, 10, 11, 5, 12, 14, 6, 15];
        lent.potentials = vec![0.0; 4];
        for (row, column, energy) in [
            (1, 4, 0.1),
            (2, 5, 0.1),
            (3, 6, 0.1),
            (10, 11, 0.1),
            (12, 14, 0.1),
            (15, 13, 0.3),
        ] {
            lent.dg[64 * row + column] = energy;
        }
        lent.dg[64 * 5 + 5] = 0.0;
        assert_eq!(lent.ring_energy(&[1, 2, 3]), 0.8);
        let closed_first = [0.1; 5].iter().fold(0.3, |sum, term| sum + term);
        assert_eq!(closed_first, 0.7999999999999999);
        assert_eq!(lent.ring_energy(&[1, 2, 0]), lent.chain_energy(&[1, 2, 0]));
        assert_eq!(lent.ring_energy(&[0, 2, 3]), lent.chain_energy(&[0, 2, 3]));
    }

    #[test]
    fn fewer_than_three_positions_are_no_ring() {
        let refused = |number, place| Verdict::Refused { number, place };
        let mut lent = ring(0.0, [-1.0; 3], 0.0);
        lent.open(vec![1, 2]);
        assert_eq!(lent.ring_search_verdict(2), refused(20, None));
        assert_eq!(lent.ring_energy_verdict(&[1, 1]), refused(20, None));
        assert_eq!(lent.ring_energy_verdict(&[1, 2]), refused(11, None));
        assert_eq!(lent.ring_energy_verdict(&[1]), refused(1, None));
        lent.potentials[1] = f64::NAN;
        assert_eq!(lent.ring_search_verdict(2), refused(17, Some(1)));
        lent.open(vec![]);
        lent.rt = 0.0;
        assert_eq!(lent.ring_search_verdict(0), refused(16, Some(0)));
    }
}
