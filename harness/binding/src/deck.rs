//! Stored configurations: reading, writing and moving a deck's words. A form is 0, as document 01
//! has it, or 1, with runs.

use crate::wrapped::wrapped;

wrapped! {
    deck_read(
        form: u32,
        words: &[u32],
        entries: &mut [u8],
        place: &mut u64,
        count: &mut u64
    ) -> u32;
    deck_write(form: u32, configuration: &[u8], words: &mut [u32], count: &mut u64) -> u32;
    deck_move(
        form: u32,
        words: &[u32],
        moved: &mut [u32],
        place: &mut u64,
        count: &mut u64
    ) -> u32;
}
