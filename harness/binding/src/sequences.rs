//! Sequence, pair and loop energies, and strengths. An energy that is answered alone is as its bits.

use crate::wrapped::wrapped;

wrapped! {
    sequence(s: &[u8], dg: &mut f64, ds: &mut f64) -> u32;
    sequence_reply(s: &[u8]) -> u32;
    sequence_dg(s: &[u8]) -> u64;
    sequence_ds(s: &[u8]) -> u64;
    published_reply(s: &[u8]) -> u32;
    published_dg(s: &[u8]) -> u64;
    published_ds(s: &[u8]) -> u64;
    pair(a: &[u8], b: &[u8], dg: &mut f64, ds: &mut f64) -> u32;
    pair_reply(a: &[u8], b: &[u8]) -> u32;
    pair_dg(a: &[u8], b: &[u8]) -> u64;
    pair_ds(a: &[u8], b: &[u8]) -> u64;
    loop_penalty(length: usize, kind: u32, dg: &mut f64) -> u32;
    sequence_strength(s: &[u8], excess: f64, strength: &mut f64) -> u32;
    pair_strength(a: &[u8], b: &[u8], excess: f64, strength: &mut f64) -> u32;
}
