//! Document 01's paragraph on `mfe_configuration`, read once more; and beside it three readings that
//! are wrong, each in how it tells equals apart. Where a wrong reading ends elsewhere, a design ties
//! so that the rule matters.

use super::design::{Bonds, Lent};

#[derive(Debug, Clone, Copy, PartialEq, Eq)]
pub enum Reading {
    Document,
    /// Of equal left entries the first is taken.
    FirstOfEquals,
    /// At the end sums are compared, and the least is multiplied by RT.
    SumsAtTheEnd,
    /// At the end −0.0 counts as smaller than 0.0.
    SignsAtTheEnd,
}

/// "Each position keeps one entry per friend, then one for empty."
pub(super) struct Entry {
    pub(super) occupant: usize,
    pub(super) energy: f64,
    /// The place of its left choice in the row before; at position 0 there is none.
    left: usize,
}

impl Lent {
    /// Energy and configuration of a design that is not refused.
    pub fn search(&self, reading: Reading) -> (f64, Vec<u8>) {
        self.search_over(self, reading)
    }

    pub fn search_over(&self, bonds: &dyn Bonds, reading: Reading) -> (f64, Vec<u8>) {
        let rows = self.rows(bonds, None, reading);
        let Some(last) = rows.last() else {
            return (0.0, vec![]);
        };
        let mut place = 0;
        for next in 1..last.len() {
            if self.is_less(last[next].energy, last[place].energy, reading) {
                place = next;
            }
        }
        (last[place].energy * self.rt, traced(&rows, place))
    }

    /// The entries of all positions; at the first there may be one occupant alone.
    pub(super) fn rows(
        &self,
        bonds: &dyn Bonds,
        first: Option<u8>,
        reading: Reading,
    ) -> Vec<Vec<Entry>> {
        let mut rows: Vec<Vec<Entry>> = vec![];
        for position in 0..self.positions() {
            let options = match first {
                Some(occupant) if position == 0 => vec![occupant],
                _ => self.options(position),
            };
            let entry = |strand: u8| {
                let occupant = usize::from(strand);
                let (left, energy) = match rows.last() {
                    None => (0, 0.0),
                    Some(before) => left_choice(bonds, before, occupant, reading),
                };
                let energy = match occupant {
                    0 => energy,
                    _ => energy + bonds.site(position, occupant) - self.potentials[occupant],
                };
                Entry {
                    occupant,
                    energy,
                    left,
                }
            };
            rows.push(options.into_iter().map(entry).collect());
        }
        rows
    }

    /// Friends in order, then 0.
    pub(super) fn options(&self, position: usize) -> Vec<u8> {
        let mut options = self.friends(position);
        options.push(0);
        options
    }

    /// "The energies are multiplied by RT and the first smallest product wins."
    fn is_less(&self, next: f64, least: f64, reading: Reading) -> bool {
        let products = (next * self.rt, least * self.rt);
        match reading {
            Reading::SumsAtTheEnd => next < least,
            Reading::SignsAtTheEnd => products.0.total_cmp(&products.1).is_lt(),
            Reading::Document | Reading::FirstOfEquals => products.0 < products.1,
        }
    }
}

/// "A friend compares left energies plus the strand bond, empty compares the left energies alone;
/// among equals the later entry is taken in both."
fn left_choice(
    bonds: &dyn Bonds,
    before: &[Entry],
    occupant: usize,
    reading: Reading,
) -> (usize, f64) {
    let energy = |left: &Entry| match occupant {
        0 => left.energy,
        _ => left.energy + bonds.pair(left.occupant, occupant),
    };
    let mut least = (0, energy(&before[0]));
    for (place, left) in before.iter().enumerate().skip(1) {
        let next = energy(left);
        let equal_is_taken = reading != Reading::FirstOfEquals;
        if next < least.1 || (equal_is_taken && next == least.1) {
            least = (place, next);
        }
    }
    least
}

pub(super) fn traced(rows: &[Vec<Entry>], last: usize) -> Vec<u8> {
    let mut configuration = vec![0; rows.len()];
    let mut place = last;
    for (position, row) in rows.iter().enumerate().rev() {
        configuration[position] = row[place].occupant as u8;
        place = row[place].left;
    }
    configuration
}

#[cfg(test)]
mod tests {
    use super::*;
    use crate::judge::design::tests::bench;

    #[test]
    fn the_bench_lines_hold() {
        let found = |scaffold: &[u8], dg: &[f64]| bench(scaffold, dg).search(Reading::Document);
        assert_eq!(found(&[], &[]), (0.0, vec![]));
        assert_eq!(found(&[1], &[-2.0]), (-1.5, vec![1]));
        assert_eq!(found(&[1], &[-0.5]), (0.0, vec![1]));
        assert_eq!(found(&[1, 2], &[-0.5, -2.0]), (-1.5, vec![0, 2]));
        let first = bench(&[1, 2], &[-0.5, -2.0]).search(Reading::FirstOfEquals);
        assert_eq!(first, (-1.5, vec![1, 2]));
    }

    #[test]
    fn sums_that_round_to_one_product_are_equal() {
        let mut lent = bench(&[1], &[5e-324, 0.0]);
        lent.glues[7] = 1;
        lent.rt = 0.7;
        let tied = |x: f64| x * 0.7 == x.next_up() * 0.7;
        let less = (0..64)
            .map(|step| 1.5 + f64::from(step) / 64.0)
            .find(|x| tied(*x));
        let less = less.expect("half of all doubles do");
        lent.potentials = vec![0.0, less, less.next_up()];
        assert_eq!(lent.search(Reading::Document).1, [1]);
        assert_eq!(lent.search(Reading::SumsAtTheEnd).1, [2]);
    }

    #[test]
    fn zeros_of_two_signs_are_equal() {
        let mut lent = bench(&[1], &[5e-324]);
        lent.rt = 0.125;
        lent.potentials = vec![0.0, 4.5e-323];
        let (energy, configuration) = lent.search(Reading::Document);
        assert_eq!(
            (energy.to_bits(), configuration),
            ((-0.0f64).to_bits(), vec![1])
        );
        lent.open(vec![1, 1]);
        assert_eq!(lent.search(Reading::Document).0, 0.0);
    }
}
