//! Document 02's bond tables beside a design: what fills them, and the calls over tables that are lent.

use super::design::{Bonds, Lent, MOST_STATES};
use super::search::Reading;
use super::{out_of_range, Holds, Verdict};

/// "Above 80,000 in size."
const MOST_BOND: f64 = 80_000.0;

/// Lent cells, row first, as many in a row as there are strands: strands by strands, positions by
/// strands.
#[derive(Debug, Clone, Default, PartialEq)]
pub struct Tables {
    pub strands: Vec<f64>,
    pub scaffold: Vec<f64>,
}

/// A design and tables beside it, whose cells are the bonds.
#[derive(Debug, Clone, Copy)]
pub struct Tabled<'a> {
    pub lent: &'a Lent,
    pub tables: &'a Tables,
}

impl Bonds for Tabled<'_> {
    fn pair(&self, x: usize, y: usize) -> f64 {
        self.tables.strands[x * self.lent.strands() + y]
    }

    fn site(&self, position: usize, strand: usize) -> f64 {
        self.tables.scaffold[position * self.lent.strands() + strand]
    }
}

impl Lent {
    fn unfit_tables(&self, strands: usize, scaffold: usize) -> bool {
        let width = self.strands();
        strands != width * width || scaffold != self.positions() * width
    }

    /// Of the call that fills tables with so many cells.
    pub fn fill_verdict(&self, strands: usize, scaffold: usize) -> Verdict {
        self.verdict(self.unfit_tables(strands, scaffold), Vec::new)
    }

    /// "They hold document 01's bonds."
    pub fn filled(&self) -> Tables {
        let width = self.strands();
        let pairs = (0..width).flat_map(|x| (0..width).map(move |y| self.strand_bond(x, y)));
        let sites = (0..self.positions())
            .flat_map(|position| (0..width).map(move |x| self.scaffold_bond(position, x)));
        Tables {
            strands: pairs.collect(),
            scaffold: sites.collect(),
        }
    }
}

impl Tabled<'_> {
    /// "9 also for a lent bond cell", of every cell, "without a place where every glue cell is in
    /// range": of two that are both 9 the first in the list is given, which is the design's.
    fn verdict(&self, own_size: bool, own: impl FnOnce() -> Vec<(u32, bool)>) -> Verdict {
        let (lent, tables) = (self.lent, self.tables);
        let (strands, scaffold) = (tables.strands.len(), tables.scaffold.len());
        let wrong_size = own_size || lent.unfit_tables(strands, scaffold);
        let design = lent.verdict(wrong_size, own);
        let cells = tables.strands.iter().chain(&tables.scaffold);
        let out = cells
            .copied()
            .any(|cell| out_of_range(cell, -MOST_BOND, MOST_BOND));
        match (design.number(), out) {
            (1 | 9, _) | (_, false) => design,
            (_, true) => Verdict::lowest(&[(9, Holds::Yes)]),
        }
    }

    pub fn state_energy_verdict(&self, configuration: &[u8]) -> Verdict {
        let wrong = configuration.len() != self.lent.positions();
        self.verdict(wrong, || vec![(11, self.lent.has_stranger(configuration))])
    }

    pub fn search_verdict(&self, entries: usize) -> Verdict {
        self.verdict(entries != self.lent.positions(), Vec::new)
    }

    pub fn count_verdict(&self) -> Verdict {
        self.verdict(false, || vec![(12, self.lent.count() > MOST_STATES)])
    }

    pub fn state_verdict(&self, rank: u64, entries: usize) -> Verdict {
        self.verdict(entries != self.lent.positions(), || {
            let count = self.lent.count();
            vec![(12, count > MOST_STATES), (13, u128::from(rank) >= count)]
        })
    }

    pub fn state_energy(&self, configuration: &[u8]) -> f64 {
        self.lent.state_energy_over(self, configuration)
    }

    pub fn search(&self) -> (f64, Vec<u8>) {
        self.lent.search_over(self, Reading::Document)
    }

    pub fn walk(&self) -> f64 {
        self.lent.walk_over(self)
    }
}

#[cfg(test)]
mod tests {
    use super::*;
    use crate::judge::design::tests::bench;

    fn refused(number: u32, place: Option<u64>) -> Verdict {
        Verdict::Refused { number, place }
    }

    #[test]
    fn filled_tables_answer_as_the_design() {
        let mut lent = bench(&[1, 2, 1], &[-0.5, -2.0]);
        (lent.glues[5], lent.glues[6]) = (9, 9);
        lent.dg[64 * 9 + 9] = -1.25;
        let tables = lent.filled();
        assert_eq!(lent.fill_verdict(9, 9), Verdict::Admitted);
        assert_eq!(lent.fill_verdict(9, 8), refused(1, None));
        assert_eq!(tables.strands[3 + 2], -2.5);
        assert_eq!(tables.scaffold[3 + 2], -4.0);
        let over = Tabled {
            lent: &lent,
            tables: &tables,
        };
        assert_eq!(over.search(), lent.search(Reading::Document));
        assert_eq!(over.walk(), lent.walk());
        assert_eq!(over.state_energy(&[1, 2, 0]), lent.state_energy(&[1, 2, 0]));
    }

    /// RT 0.5, friends [1], [2], scaffold cells −1 and −1, strand cell (0, 2) −3, all else 0.
    #[test]
    fn bonds_with_nobody_count_over_lent_cells() {
        let mut lent = bench(&[1, 2], &[-0.5, -2.0]);
        lent.potentials = vec![0.0; 3];
        let mut tables = Tables {
            strands: vec![0.0; 9],
            scaffold: vec![0.0; 6],
        };
        (tables.scaffold[1], tables.scaffold[3 + 2]) = (-1.0, -1.0);
        tables.strands[2] = -3.0;
        let over = Tabled {
            lent: &lent,
            tables: &tables,
        };
        assert_eq!(over.search(), (-2.0, vec![0, 2]));
        assert_eq!(over.state_energy(&[0, 2]), -0.5);
    }

    #[test]
    fn a_bond_cell_is_out_behind_every_glue_cell() {
        let lent = bench(&[1, 2], &[-0.5, -2.0]);
        let fit = lent.filled();
        let told = |lent: &Lent, cell: f64| {
            let mut tables = fit.clone();
            tables.scaffold[0] = cell;
            let over = Tabled {
                lent,
                tables: &tables,
            };
            over.search_verdict(2)
        };
        assert_eq!(told(&lent, 80_000.0), Verdict::Admitted);
        assert_eq!(told(&lent, -80_000.0f64.next_up()), refused(9, None));
        assert_eq!(told(&lent, f64::NAN), refused(9, None));
        let mut hot = lent.clone();
        (hot.rt, hot.glues[2]) = (f64::NAN, 5);
        assert_eq!(told(&hot, 0.0), refused(10, None));
        assert_eq!(told(&hot, f64::INFINITY), refused(9, None));
        hot.ds[7] = 9.0;
        assert_eq!(told(&hot, f64::INFINITY), refused(9, Some(4103)));
        hot.marks[0] = 2;
        assert_eq!(told(&hot, f64::INFINITY), refused(1, None));
    }
}
