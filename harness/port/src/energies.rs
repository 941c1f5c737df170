//! Sums over the exponentials of a design's own energies, of the design that lines have set; and the
//! exponential of one double.
//!
//! * `exp X` is the exponential of a double, as its bits;
//! * `weight DIGITS POWER` is a weight as a double, `ok BITS`;
//! * `energy.sum` is the free sum, `energy.lists NUMBERS STARTS LENGTHS` the constrained one, each a
//!   list, and `energy.part NUMBERS STARTS LENGTHS` the probability;
//! * `energy.occupants DIGITS POWERS` lends so many cells for the probability of each occupant at each
//!   position.
//!
//! `ok DIGITS POWER` answers each, the last with two lists.

use crate::slices::{list, Filled};
use crate::sums::{DIGITS, POWER};
use crate::{counted, WHOLE};
use mujplesten as mj;
use protocol::{double, expect_words, joined, whole, Complaint, Reply, Words};

fn told(number: u32, place: u64, digits: u32, power: i32) -> Reply {
    let none = digits == 0 && power == 0;
    counted(number, place, format!("{digits} {power}"), none)
}

/// `exp X`
pub fn exponential(words: Words) -> Result<Reply, Complaint> {
    expect_words(words, &[1])?;
    let (mut digits, mut power) = (DIGITS, POWER);
    let number = mj::exp(double(words[1])?, &mut digits, &mut power);
    Ok(told(number, mj::NOWHERE, digits, power))
}

/// `weight DIGITS POWER`
pub fn weight(words: Words) -> Result<Reply, Complaint> {
    expect_words(words, &[2])?;
    let figure = mj::weight(whole(words[1])?, whole(words[2])?);
    Ok(Reply::Ok(format!("{figure:016x}")))
}

/// `energy.occupants DIGITS POWERS`
fn occupants(design: mj::Design, words: Words) -> Result<Reply, Complaint> {
    expect_words(words, &[2])?;
    let mut digits = Filled::words(whole(words[1])?);
    let mut powers = Filled::powers(whole(words[2])?);
    let mut place = WHOLE;
    let number = mj::occupants(design, &mut digits.slice, &mut powers.slice, &mut place);
    let told = format!(
        "{} {}",
        joined(&digits.slice, ","),
        joined(&powers.slice, ",")
    );
    let kept = digits.is_kept() && powers.is_kept();
    Ok(counted(number, place, told, kept))
}

/// The lines on a design.
pub fn answer(design: mj::Design, words: Words) -> Result<Reply, Complaint> {
    if words[0] == "energy.occupants" {
        return occupants(design, words);
    }
    let (mut place, mut digits, mut power) = (WHOLE, DIGITS, POWER);
    let number = match words[0] {
        "energy.sum" => {
            expect_words(words, &[0])?;
            mj::free_sum_of_energies(design, &mut place, &mut digits, &mut power)
        }
        word => {
            expect_words(words, &[3])?;
            let numbers: Vec<u8> = list(words[1], whole)?;
            let starts: Vec<usize> = list(words[2], whole)?;
            let lengths: Vec<usize> = list(words[3], whole)?;
            let lists = mj::Lists {
                numbers: &numbers,
                starts: &starts,
                lengths: &lengths,
            };
            let call = match word {
                "energy.lists" => mj::constrained_sum_of_energies,
                "energy.part" => mj::probability,
                other => return Err(format!("no such line {other}")),
            };
            call(design, lists, &mut place, &mut digits, &mut power)
        }
    };
    Ok(told(number, place, digits, power))
}
