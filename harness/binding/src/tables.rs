//! Tables of bonds beside a design, and the calls over them.

use crate::design::Design;
use crate::wrapped::wrapped;

/// Tables as a call over them takes them: row first, each row as many cells as there are strands.
#[derive(Debug, Clone, Copy)]
pub struct Bonds<'a> {
    /// Strands by strands.
    pub strands: &'a [f64],
    /// Positions by strands.
    pub scaffold: &'a [f64],
}

wrapped! {
    /// Fills both tables with the design's bonds.
    bond_tables(
        design: Design,
        strand_bonds: &mut [f64],
        scaffold_bonds: &mut [f64],
        place: &mut u64
    ) -> u32;
    state_energy_over(
        design: Design,
        bonds: Bonds,
        configuration: &[u8],
        place: &mut u64,
        energy: &mut f64
    ) -> u32;
    states_over(design: Design, bonds: Bonds, place: &mut u64, count: &mut u64) -> u32;
    state_over(
        design: Design,
        bonds: Bonds,
        rank: u64,
        entries: &mut [u8],
        place: &mut u64
    ) -> u32;
    search_over(
        design: Design,
        bonds: Bonds,
        configuration: &mut [u8],
        place: &mut u64,
        energy: &mut f64
    ) -> u32;
}
