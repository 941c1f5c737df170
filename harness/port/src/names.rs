//! Lines about names: `name N` and `raw.name TEXT START LENGTH` give a name's base, `raw.glues TEXT
//! USERS NAMES LENT` the numbers of all strand glues.

use crate::slices::{list, Filled};
use crate::WHOLE;
use mujplesten as mj;
use protocol::{bytes, expect_words, joined, sequence_word, whole, Complaint, Reply, Words};

pub fn answer(words: Words) -> Result<Reply, Complaint> {
    let counts: &[usize] = match words[0] {
        "name" => &[1],
        "raw.name" => &[3],
        _ => &[4],
    };
    expect_words(words, counts)?;
    let text = bytes(words[1])?.ok_or("absent is not allowed here")?;
    match words[0] {
        "name" => base(&text, 0, text.len(), false),
        "raw.name" => base(&text, whole(words[2])?, whole(words[3])?, true),
        _ => glues(&text, whole(words[2])?, words[3], whole(words[4])?),
    }
}

/// The base as it is spelled, or in `full` where it lies, and whether the name stands for it.
fn base(text: &[u8], start: usize, length: usize, full: bool) -> Result<Reply, Complaint> {
    let (mut from, mut size, mut is_base) = (WHOLE, WHOLE, WHOLE);
    let number = mj::name(text, start, length, &mut from, &mut size, &mut is_base);
    if number != 0 {
        return match (from, size, is_base) {
            (0, 0, 0) => Ok(Reply::refused(number)),
            figures => Err(format!("refused {number} with {figures:?}")),
        };
    }
    if full {
        return Ok(Reply::Ok(format!("{from} {size} {is_base}")));
    }
    let base = text
        .get(from as usize..)
        .and_then(|rest| rest.get(..size as usize));
    let base = base.ok_or("the base leaves the text")?;
    Ok(Reply::Ok(format!("{} {is_base}", sequence_word(base))))
}

fn glues(text: &[u8], users: usize, names: &str, lent: usize) -> Result<Reply, Complaint> {
    let names: Vec<usize> = list(names, whole)?;
    let mut glues = Filled::bytes(lent);
    match mj::strand_glues(text, users, &names, &mut glues.slice) {
        0 => Ok(Reply::Ok(joined(&glues.slice, ","))),
        number if glues.is_kept() => Ok(Reply::refused(number)),
        number => Err(format!("refused {number} after writing")),
    }
}
