//! The line `ln X`.

use crate::{reply, DOUBLE};
use mujplesten as mj;
use protocol::{double, expect_words, Complaint, Reply, Words};

pub fn answer(words: Words) -> Result<Reply, Complaint> {
    expect_words(words, &[1])?;
    let mut logarithm = DOUBLE;
    let number = mj::ln(double(words[1])?, &mut logarithm);
    Ok(reply(number, &[logarithm]))
}
