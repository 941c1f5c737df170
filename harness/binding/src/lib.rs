//! The functions of include/mujplesten.h for Rust, each wrapped so that it is safe to call.
//!
//! Nothing checks these declarations against the Rattle source; they are held by the comparison
//! and by the clients' tests. No function asks anything of its input, so a wrapper only has to
//! hand over what it is lent. The pointer of an empty slice is dangling but never null.
//!
//! A function is named as in the header, answers the reply number, and writes place and figures.

mod deck;
mod design;
mod energies;
mod logarithm;
mod names;
mod params;
mod sequences;
mod sheet;
mod short;
mod sums;
mod tables;
mod temperature;
mod wrapped;

pub use deck::{deck_move, deck_read, deck_write};
pub use design::{
    chain_energy, first_state_under, friends, ring_energy, ring_search, scaffold_bond, search,
    state, state_energy, states, strand_bond, Design,
};
pub use energies::{
    constrained_sum_of_energies, exp, free_sum_of_energies, occupants, probability, weight,
};
pub use logarithm::ln;
pub use names::{name, strand_glues};
pub use params::{params, Built, Params};
pub use sequences::{
    loop_penalty, pair, pair_dg, pair_ds, pair_reply, pair_strength, published_dg, published_ds,
    published_reply, sequence, sequence_dg, sequence_ds, sequence_reply, sequence_strength,
};
pub use sheet::{job_sheet, Sheet};
pub use short::short_sequence;
pub use sums::{constrained_sum, free_sum, Lists, Weights};
pub use tables::{bond_tables, search_over, state_energy_over, state_over, states_over, Bonds};
pub use temperature::ambient;

/// The place that is written where there is none.
pub const NOWHERE: u64 = u64::MAX;
