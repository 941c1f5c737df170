//! `short LENT RANK`, which the Rust lacks: the sequence of 2 to 8 bases at a rank, in so many lent
//! bytes. `ok BASES BYTES` gives all of these, so that what was to be kept is seen too.

use crate::slices::Filled;
use crate::{counted, WHOLE};
use mujplesten as mj;
use protocol::{expect_words, joined, whole, Complaint, Reply, Words};

pub fn answer(words: Words) -> Result<Reply, Complaint> {
    expect_words(words, &[2])?;
    let mut bytes = Filled::bytes(whole(words[1])?);
    let mut bases = WHOLE;
    let number = mj::short_sequence(whole(words[2])?, &mut bytes.slice, &mut bases);
    let told = format!("{bases} {}", joined(&bytes.slice, ","));
    let none = bases == 0 && bytes.is_kept();
    Ok(counted(number, mj::NOWHERE, told, none))
}
