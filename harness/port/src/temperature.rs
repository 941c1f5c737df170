//! The line `ambient K T`, in the oracle's layout.

use crate::{reply, DOUBLE};
use mujplesten as mj;
use protocol::{double, expect_words, Complaint, Reply, Words};

/// The port has one RT, which stands for both the RT under a bond and the Rust's `rtval`. On a
/// refusal the temperature that was asked about is no figure of the reply.
pub fn answer(words: Words) -> Result<Reply, Complaint> {
    expect_words(words, &[2])?;
    if words[1] != "K" {
        return Err("the port's ambient takes kelvins".to_string());
    }
    let kelvin = double(words[2])?;
    let (mut rt, mut strand_excess, mut scaffold_excess) = (DOUBLE, DOUBLE, DOUBLE);
    let number = mj::ambient(kelvin, &mut rt, &mut strand_excess, &mut scaffold_excess);
    let asked = if number == 0 { kelvin } else { 0.0 };
    let figures = [asked, rt, rt, strand_excess, scaffold_excess];
    Ok(reply(number, &figures))
}
