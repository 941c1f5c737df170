//! The sequences of 2 to 8 bases by their ranks.

use crate::wrapped::wrapped;

wrapped! {
    short_sequence(rank: u64, bytes: &mut [u8], bases: &mut u64) -> u32;
}
