//! Sums over the states of the design that lines have set, over weights that lines set too.
//!
//! * `w.place DIGITS POWERS`, `w.pair DIGITS POWERS` lend weights, each a list;
//! * `sum` is the free sum, `sum.lists NUMBERS STARTS LENGTHS` the constrained one, each a list.
//!
//! `ok DIGITS POWER` answers both.

use crate::counted;
use crate::slices::list;
use crate::WHOLE;
use mujplesten as mj;
use protocol::{expect_words, whole, Complaint, Reply, Words};

/// What a figure holds before a call: no call answers it.
pub const DIGITS: u32 = 0xa5a5_a5a5;
pub const POWER: i32 = i32::MIN + 0xa5;

#[derive(Default)]
pub struct Weights {
    place_digits: Vec<u32>,
    place_powers: Vec<i32>,
    pair_digits: Vec<u32>,
    pair_powers: Vec<i32>,
}

impl Weights {
    /// `w.place DIGITS POWERS` or `w.pair DIGITS POWERS`
    pub fn set(&mut self, words: Words) -> Result<(), Complaint> {
        expect_words(words, &[2])?;
        let (digits, powers) = (list(words[1], whole)?, list(words[2], whole)?);
        match words[0] {
            "w.place" => (self.place_digits, self.place_powers) = (digits, powers),
            "w.pair" => (self.pair_digits, self.pair_powers) = (digits, powers),
            other => return Err(format!("no such line {other}")),
        }
        Ok(())
    }

    fn lent(&self) -> mj::Weights<'_> {
        mj::Weights {
            place_digits: &self.place_digits,
            place_powers: &self.place_powers,
            pair_digits: &self.pair_digits,
            pair_powers: &self.pair_powers,
        }
    }

    /// `sum` or `sum.lists NUMBERS STARTS LENGTHS`
    pub fn answer(&self, design: mj::Design, words: Words) -> Result<Reply, Complaint> {
        let (mut place, mut digits, mut power) = (WHOLE, DIGITS, POWER);
        let number = match words[0] {
            "sum" => {
                expect_words(words, &[0])?;
                mj::free_sum(design, self.lent(), &mut place, &mut digits, &mut power)
            }
            _ => {
                expect_words(words, &[3])?;
                let numbers: Vec<u8> = list(words[1], whole)?;
                let starts: Vec<usize> = list(words[2], whole)?;
                let lengths: Vec<usize> = list(words[3], whole)?;
                let lists = mj::Lists {
                    numbers: &numbers,
                    starts: &starts,
                    lengths: &lengths,
                };
                let weights = self.lent();
                mj::constrained_sum(design, weights, lists, &mut place, &mut digits, &mut power)
            }
        };
        let none = digits == 0 && power == 0;
        Ok(counted(number, place, format!("{digits} {power}"), none))
    }
}
