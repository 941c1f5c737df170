//! Lines about sequences and loops.

use crate::{reply, DOUBLE};
use mujplesten as mj;
use protocol::{bytes, double, expect_words, whole, Complaint, Reply, Words};

pub fn answer(words: Words) -> Result<Reply, Complaint> {
    match words[0] {
        "seq" => {
            expect_words(words, &[1])?;
            let s = sequence(words[1])?;
            let (mut dg, mut ds) = (DOUBLE, DOUBLE);
            let number = mj::sequence(&s, &mut dg, &mut ds);
            let one_by_one = (
                mj::sequence_reply(&s),
                mj::sequence_dg(&s),
                mj::sequence_ds(&s),
            );
            told(number, [dg, ds], one_by_one)
        }
        "published" => {
            expect_words(words, &[1])?;
            let s = sequence(words[1])?;
            let figures = [mj::published_dg(&s), mj::published_ds(&s)].map(f64::from_bits);
            Ok(reply(mj::published_reply(&s), &figures))
        }
        "pair" => {
            expect_words(words, &[2])?;
            let (a, b) = (sequence(words[1])?, sequence(words[2])?);
            let (mut dg, mut ds) = (DOUBLE, DOUBLE);
            let number = mj::pair(&a, &b, &mut dg, &mut ds);
            let one_by_one = (
                mj::pair_reply(&a, &b),
                mj::pair_dg(&a, &b),
                mj::pair_ds(&a, &b),
            );
            told(number, [dg, ds], one_by_one)
        }
        "loop" => {
            expect_words(words, &[2])?;
            let mut dg = DOUBLE;
            let number = mj::loop_penalty(whole(words[1])?, whole(words[2])?, &mut dg);
            Ok(reply(number, &[dg]))
        }
        "strengthx" => {
            expect_words(words, &[2, 3])?;
            let (excess, a) = (double(words[1])?, sequence(words[2])?);
            let mut strength = DOUBLE;
            let number = match words.get(3) {
                None => mj::sequence_strength(&a, excess, &mut strength),
                Some(word) => mj::pair_strength(&a, &sequence(word)?, excess, &mut strength),
            };
            Ok(reply(number, &[strength]))
        }
        other => Err(format!("no such line {other}")),
    }
}

/// One call tells all that the functions of one figure do.
fn told(number: u32, [dg, ds]: [f64; 2], one_by_one: (u32, u64, u64)) -> Result<Reply, Complaint> {
    match (number, dg.to_bits(), ds.to_bits()) == one_by_one {
        true => Ok(reply(number, &[dg, ds])),
        false => Err("the functions of one call answer differently".to_string()),
    }
}

fn sequence(word: &str) -> Result<Vec<u8>, Complaint> {
    bytes(word)?.ok_or_else(|| "absent is not allowed here".to_string())
}
