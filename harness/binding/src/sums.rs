//! Sums over the states of a design, over lent weights.

use crate::design::Design;
use crate::wrapped::wrapped;

/// Weights as a call takes them: digits and powers of each position and strand, and of each left and
/// right strand, row first.
#[derive(Debug, Clone, Copy)]
pub struct Weights<'a> {
    pub place_digits: &'a [u32],
    pub place_powers: &'a [i32],
    pub pair_digits: &'a [u32],
    pub pair_powers: &'a [i32],
}

/// Allowed occupants: the list of a position starts somewhere in the numbers and has some length.
#[derive(Debug, Clone, Copy)]
pub struct Lists<'a> {
    pub numbers: &'a [u8],
    pub starts: &'a [usize],
    pub lengths: &'a [usize],
}

wrapped! {
    /// The sum over all states: digits × 2^power.
    free_sum(
        design: Design,
        weights: Weights,
        place: &mut u64,
        digits: &mut u32,
        power: &mut i32
    ) -> u32;
    /// The sum over the states that the lists allow.
    constrained_sum(
        design: Design,
        weights: Weights,
        lists: Lists,
        place: &mut u64,
        digits: &mut u32,
        power: &mut i32
    ) -> u32;
}
