//! Designs: bonds, friends, states, both energies and the search; and those of rings.

use crate::wrapped::wrapped;

/// A design as a call takes it: slices of any length and content, and the ambient.
#[derive(Debug, Clone, Copy)]
pub struct Design<'a> {
    /// One glue for each position.
    pub scaffold: &'a [u8],
    /// One mark for each position: 0 open, 1 blocked.
    pub marks: &'a [u8],
    /// West, bottom and east glue of each strand.
    pub glues: &'a [u8],
    /// The tables, row first.
    pub dg: &'a [f64],
    pub ds: &'a [f64],
    /// One for each strand.
    pub amounts: &'a [f64],
    /// How they are given: 0 as potentials, 1 as concentrations.
    pub given: u32,
    pub rt: f64,
    pub strand_excess: f64,
    pub scaffold_excess: f64,
}

wrapped! {
    strand_bond(design: Design, x: u8, y: u8, place: &mut u64, bond: &mut f64) -> u32;
    scaffold_bond(
        design: Design,
        position: usize,
        strand: u8,
        place: &mut u64,
        bond: &mut f64
    ) -> u32;
    friends(
        design: Design,
        position: usize,
        entries: &mut [u8],
        place: &mut u64,
        count: &mut u64
    ) -> u32;
    states(design: Design, place: &mut u64, count: &mut u64) -> u32;
    state(design: Design, rank: u64, entries: &mut [u8], place: &mut u64) -> u32;
    state_energy(
        design: Design,
        configuration: &[u8],
        place: &mut u64,
        energy: &mut f64
    ) -> u32;
    /// `sum` is the chain energy as it is, `energy` RT times it.
    chain_energy(
        design: Design,
        configuration: &[u8],
        place: &mut u64,
        sum: &mut f64,
        energy: &mut f64
    ) -> u32;
    search(design: Design, configuration: &mut [u8], place: &mut u64, energy: &mut f64) -> u32;
    ring_energy(design: Design, configuration: &[u8], place: &mut u64, energy: &mut f64) -> u32;
    ring_search(
        design: Design,
        configuration: &mut [u8],
        place: &mut u64,
        energy: &mut f64
    ) -> u32;
    first_state_under(
        design: Design,
        ceiling: f64,
        entries: &mut [u8],
        place: &mut u64,
        energy: &mut f64
    ) -> u32;
}
