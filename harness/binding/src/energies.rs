//! Sums over the states of a design, over the exponentials of its own energies; probabilities; and the
//! exponential of one double.

use crate::design::Design;
use crate::sums::Lists;
use crate::wrapped::wrapped;

wrapped! {
    /// The exponential of a double: digits × 2^power.
    exp(x: f64, digits: &mut u32, power: &mut i32) -> u32;
    /// digits × 2^power as the bits of a double.
    weight(digits: u32, power: i32) -> u64;
    /// The sum over all states.
    free_sum_of_energies(
        design: Design,
        place: &mut u64,
        digits: &mut u32,
        power: &mut i32
    ) -> u32;
    /// The sum over the states that the lists allow.
    constrained_sum_of_energies(
        design: Design,
        lists: Lists,
        place: &mut u64,
        digits: &mut u32,
        power: &mut i32
    ) -> u32;
    /// The probability of these states.
    probability(
        design: Design,
        lists: Lists,
        place: &mut u64,
        digits: &mut u32,
        power: &mut i32
    ) -> u32;
    /// The probability of each occupant at each position, row first, each row as many cells as strands.
    occupants(design: Design, digits: &mut [u32], powers: &mut [i32], place: &mut u64) -> u32;
}
