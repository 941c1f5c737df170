//! Lines about stored configurations, which the Rust lacks: `deck.read FORM LENT WORDS` reads words,
//! in hexadecimal, into so many lent entries, `deck.write FORM LENT ENTRIES` writes entries into so
//! many lent words, and `deck.move FORM LENT WORDS` moves words into the other form, into so many.
//! `ok COUNT …` gives all of the lent slice, so that what was to be kept is seen too.

use crate::slices::{list, Filled};
use crate::{counted, WHOLE};
use mujplesten as mj;
use protocol::{expect_words, joined, whole, Complaint, Reply, Words};

pub fn answer(words: Words) -> Result<Reply, Complaint> {
    expect_words(words, &[3])?;
    let form: u32 = whole(words[1])?;
    let lent: usize = whole(words[2])?;
    match words[0] {
        "deck.read" => read(form, &list(words[3], hexadecimal)?, lent),
        "deck.write" => write(form, &list(words[3], whole)?, lent),
        "deck.move" => moved(form, &list(words[3], hexadecimal)?, lent),
        other => Err(format!("no such line {other}")),
    }
}

fn read(form: u32, words: &[u32], lent: usize) -> Result<Reply, Complaint> {
    let mut entries = Filled::bytes(lent);
    let (mut place, mut count) = (WHOLE, WHOLE);
    let number = mj::deck_read(form, words, &mut entries.slice, &mut place, &mut count);
    let told = format!("{count} {}", joined(&entries.slice, ","));
    let none = count == 0 && entries.is_kept();
    Ok(counted(number, place, told, none))
}

fn write(form: u32, configuration: &[u8], lent: usize) -> Result<Reply, Complaint> {
    let mut words = Filled::words(lent);
    let mut count = WHOLE;
    let number = mj::deck_write(form, configuration, &mut words.slice, &mut count);
    let told = format!("{count} {}", in_hexadecimal(&words.slice));
    let none = count == 0 && words.is_kept();
    Ok(counted(number, mj::NOWHERE, told, none))
}

fn moved(form: u32, words: &[u32], lent: usize) -> Result<Reply, Complaint> {
    let mut moved = Filled::words(lent);
    let (mut place, mut count) = (WHOLE, WHOLE);
    let number = mj::deck_move(form, words, &mut moved.slice, &mut place, &mut count);
    let told = format!("{count} {}", in_hexadecimal(&moved.slice));
    let none = count == 0 && moved.is_kept();
    Ok(counted(number, place, told, none))
}

fn hexadecimal(word: &str) -> Result<u32, Complaint> {
    u32::from_str_radix(word, 16).map_err(|_| format!("no word {word}"))
}

fn in_hexadecimal(words: &[u32]) -> String {
    joined(words.iter().map(|word| format!("{word:08x}")), ",")
}
