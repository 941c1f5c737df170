//! Windows onto private items of utils.rs.

use super::*;

fn bases(sequence: &str) -> Vec<DnaNucleotideBase> {
    sequence.chars().map(DnaNucleotideBase::from).collect()
}

pub fn r() -> f64 {
    R.0
}

pub fn t37c() -> f64 {
    T37C.0
}

/// The Rust's own `sequences_strength` at a temperature, and the excess that it multiplies.
pub fn strength(a: &str, b: Option<&str>, t: Kelvin) -> (f64, f64) {
    (
        sequences_strength(bases(a), b.map(bases), t).0,
        (t.to_kelvin() - T37C).0,
    )
}

/// NOT Rust text: the same expression typed again over the Rust's own sums, for an excess that no
/// temperature gives.
pub fn strength_retyped(a: &str, b: Option<&str>, excess: f64) -> f64 {
    let (total_dg, total_ds) = match b {
        None => single_sequence_dg_ds(bases(a).into_iter()),
        Some(other) => sequence_pair_dg_ds(bases(a), bases(other)),
    };
    ((total_dg + INITIATION_DG) - (Kelvin(excess) * (total_ds + INITIATION_DS))).0
}
