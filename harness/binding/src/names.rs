//! Names and the numbers of strand glues.

use crate::wrapped::wrapped;

wrapped! {
    /// `is_base` is 1 where the name stands for its base, 0 where it stands for base*.
    name(
        text: &[u8],
        start: usize,
        length: usize,
        base_start: &mut u64,
        base_length: &mut u64,
        is_base: &mut u64
    ) -> u32;
    /// A name is a row of three numbers: its mark, 0 absent, 1 present; its start; its length.
    strand_glues(text: &[u8], users: usize, strands: &[usize], glues: &mut [u8]) -> u32;
}
