//! Calls that take a design and tables of bonds beside it.

use crate::designs::Asked;
use crate::guarded::{Figure, Guarded};
use crate::{near, Tally};
use compare::doubles::not_finite;
use compare::random::Random;
use mujplesten as mj;

/// Cells before a call that fills them: no bond of the designs.
const HELD: f64 = -1.25e-77;

impl Asked<'_> {
    /// One of the five calls.
    pub fn call_over(&self, random: &mut Random, tally: &mut Tally) {
        let strands = near(random, self.strands * self.strands);
        let scaffold = near(random, self.positions * self.strands);
        if random.once_in(5) {
            return self.fill(strands, scaffold, tally);
        }
        let [mut strands, mut scaffold] =
            [strands, scaffold].map(|length| -> Vec<f64> { cells(random, length) });
        if random.once_in(4) {
            spoil(random, &mut strands);
            spoil(random, &mut scaffold);
        }
        let bonds = mj::Bonds {
            strands: &strands,
            scaffold: &scaffold,
        };
        match random.below(4) {
            0 => self.state_energy_over(random, bonds, tally),
            1 => self.states_over(bonds, tally),
            2 => self.state_over(random, bonds, tally),
            _ => self.search_over(random, bonds, tally),
        }
    }

    /// As of a call over the design; 9 has no place where a cell of the tables alone is out.
    fn is_placed_over(&self, bonds: mj::Bonds, place: &Figure<u64>, number: u32) -> bool {
        let out = |x: &f64| !(-80_000.0..=80_000.0).contains(x);
        let bond_out = bonds.strands.iter().chain(bonds.scaffold).any(out);
        let glue_out = self.is_placed(place, number);
        match number == 9 && place.told() == mj::NOWHERE {
            true => bond_out && self.bad_cell().is_none(),
            false => glue_out && (number == 1 || number == 9 || !bond_out),
        }
    }

    fn fill(&self, strands: usize, scaffold: usize, tally: &mut Tally) {
        let mut pairs = Guarded::new(strands, HELD);
        let mut sites = Guarded::new(scaffold, HELD);
        let mut place = Figure::whole();
        let number = mj::bond_tables(self.design, pairs.lent(), sites.lent(), place.lent());
        let kept = pairs.is_fit(number) && sites.is_fit(number);
        let written = number != 0 || !pairs.lent().iter().chain(sites.lent().iter()).any(is_held);
        let fit = self.is_placed(&place, number) && kept && written;
        tally.call("bond_tables", number, fit);
    }

    fn state_energy_over(&self, random: &mut Random, bonds: mj::Bonds, tally: &mut Tally) {
        let length = near(random, self.positions);
        let most = random.pick(&[1, self.strands + 1]);
        let configuration: Vec<u8> = (0..length).map(|_| random.below(most) as u8).collect();
        let (mut place, mut energy) = (Figure::whole(), Figure::double());
        let told = energy.lent();
        let number = mj::state_energy_over(self.design, bonds, &configuration, place.lent(), told);
        let fit = self.is_placed_over(bonds, &place, number) && energy.is_fit(number);
        tally.call("state_energy_over", number, fit);
    }

    fn states_over(&self, bonds: mj::Bonds, tally: &mut Tally) {
        let (mut place, mut count) = (Figure::whole(), Figure::whole());
        let number = mj::states_over(self.design, bonds, place.lent(), count.lent());
        let fit = self.is_placed_over(bonds, &place, number) && count.is_fit(number);
        tally.call("states_over", number, fit);
    }

    fn state_over(&self, random: &mut Random, bonds: mj::Bonds, tally: &mut Tally) {
        let any = random.bits();
        let rank = random.pick(&[0, 1, any, u64::MAX]);
        let mut entries = Guarded::new(near(random, self.positions), 0xa5);
        let mut place = Figure::whole();
        let number = mj::state_over(self.design, bonds, rank, entries.lent(), place.lent());
        let fit = self.is_placed_over(bonds, &place, number) && entries.is_fit(number);
        tally.call("state_over", number, fit);
    }

    fn search_over(&self, random: &mut Random, bonds: mj::Bonds, tally: &mut Tally) {
        let mut entries = Guarded::new(near(random, self.positions), 0xa5);
        let (mut place, mut energy) = (Figure::whole(), Figure::double());
        let slice = entries.lent();
        let number = mj::search_over(self.design, bonds, slice, place.lent(), energy.lent());
        let written = entries.is_fit(number) && energy.is_fit(number);
        let fit = self.is_placed_over(bonds, &place, number) && written;
        tally.call("search_over", number, fit);
    }
}

fn is_held(x: &f64) -> bool {
    x.to_bits() == HELD.to_bits()
}

fn cells(random: &mut Random, length: usize) -> Vec<f64> {
    (0..length).map(|_| random.double(-40.0, 40.0)).collect()
}

fn spoil(random: &mut Random, cells: &mut [f64]) {
    if cells.is_empty() {
        return;
    }
    let mut odd = not_finite();
    odd.extend([80_000.0, -80_000.0, 80_001.0, -80_001.0]);
    cells[random.below(cells.len())] = random.pick(&odd);
}
