//! Faults for which a file cannot be read.

use super::{is, is_ambient, one, split, unreadable, Expected};
use crate::statements::{statement, Statement};
use compare::random::Random;

/// The places of numbers among a statement's words.
fn number_places(words: &Statement) -> Vec<usize> {
    let keyword = words[0].as_slice();
    match keyword {
        b"kelvin" | b"celsius" => vec![1],
        b"ambient" => vec![1, 2, 3],
        b"strand" => vec![5],
        b"quencher" | b"reporter" => vec![2],
        b"penalty" => vec![1, 2],
        b"energy" | b"pair" => {
            let names = if keyword == b"pair" { 2 } else { 1 };
            match words[names + 1] == b"dg" {
                true => vec![names + 2, names + 4],
                false => vec![],
            }
        }
        _ => vec![],
    }
}

pub fn bad_number(random: &mut Random, all: &mut [Statement]) -> Option<Expected> {
    let at = one(random, all, |words| !number_places(words).is_empty())?;
    let place = random.pick(&number_places(&all[at]));
    let bad = [
        "1,5",
        "x",
        "-",
        "--1",
        "1.2.3",
        "1e",
        "1e+",
        ".",
        "+",
        "e5",
        "nan",
        "inf",
        "NaN",
        "0x3ff",
        "0x3ff000000000000g",
        "0x3ff00000000000000",
        "123456789012345678",
        "0.123456789012345678",
        "1e1000",
        "1e-401",
        "1_000",
        "1e5.5",
        "\u{221e}",
        "0X3ff0000000000000",
        "1\u{0}",
        "M",
        "uM",
        "1nm",
        "1nMM",
        "0x3ff0000000000000M",
    ];
    all[at][place] = random.pick(&bad).as_bytes().to_vec();
    unreadable(at)
}

/// Any number of words may follow.
fn is_positions(words: &Statement) -> bool {
    is(words, b"scaffold") || is(words, b"blocked")
}

pub fn word_missing(random: &mut Random, all: &mut [Statement]) -> Option<Expected> {
    let at = one(random, all, |words| !is_positions(words) && words.len() > 1)?;
    let left = random.within(1..=all[at].len() - 1);
    all[at].truncate(left);
    unreadable(at)
}

pub fn word_too_many(random: &mut Random, all: &mut [Statement]) -> Option<Expected> {
    let at = one(random, all, |words| !is_positions(words))?;
    for _ in 0..random.within(1..=3) {
        let word = random.pick(&["1", "-", "x", "seq", "strand", "\u{1}"]);
        all[at].push(word.as_bytes().to_vec());
    }
    unreadable(at)
}

pub fn no_statement(random: &mut Random, all: &mut Vec<Statement>) -> Option<Expected> {
    let wrong = [
        "Strand",
        "STRAND",
        "strands",
        "stran",
        "glue",
        "-",
        "1",
        "\u{0}",
        "\u{e9}",
        "kelvin:",
        "Blocked",
        "block",
        "\"strand\"",
        "energy,",
    ];
    let word = random.pick(&wrong).as_bytes().to_vec();
    if random.once_in(2) {
        let at = random.within(0..=all.len());
        all.insert(at, vec![word]);
        return unreadable(at);
    }
    let at = random.below(all.len());
    all[at][0] = word;
    unreadable(at)
}

pub fn dash_for_a_name(random: &mut Random, all: &mut [Statement]) -> Option<Expected> {
    let at = one(random, all, |words| {
        [b"strand".as_slice(), b"energy", b"pair"].contains(&words[0].as_slice())
    })?;
    let place = if is(&all[at], b"pair") {
        random.within(1..=2)
    } else {
        1
    };
    all[at][place] = b"-".to_vec();
    unreadable(at)
}

/// A word in the middle of an entry, in place of another.
pub fn wrong_letters(
    random: &mut Random,
    all: &mut [Statement],
    right: &[u8],
    wrong: &[&str],
) -> Option<Expected> {
    let place = |words: &Statement| {
        let numbers = number_places(words);
        let entry = is(words, b"energy") || is(words, b"pair");
        match (entry, numbers.len()) {
            (true, 2) if right == b"dg" => Some(numbers[0] - 1),
            (true, 2) => Some(numbers[1] - 1),
            _ => None,
        }
    };
    let at = one(random, all, |words| place(words).is_some())?;
    let place = place(&all[at])?;
    all[at][place] = random.pick(wrong).as_bytes().to_vec();
    unreadable(at)
}

pub fn given_twice(
    random: &mut Random,
    all: &mut Vec<Statement>,
    lines: &[&str],
) -> Option<Expected> {
    all.push(split(random.pick(lines)));
    unreadable(all.len() - 1)
}

pub fn twice_if_there(
    random: &mut Random,
    all: &mut Vec<Statement>,
    keyword: &[u8],
    line: &str,
) -> Option<Expected> {
    one(random, all, |words| is(words, keyword))?;
    given_twice(random, all, &[line])
}

pub fn no_ambient(all: &mut Vec<Statement>) -> Option<Expected> {
    all.retain(|words| !is_ambient(words));
    Some(Expected {
        reply: None,
        statement: None,
        word: None,
    })
}

pub fn ring_twice(all: &mut Vec<Statement>) -> Option<Expected> {
    all.extend([split("ring"), split("ring")]);
    unreadable(all.len() - 1)
}

pub fn strand_twice(random: &mut Random, all: &mut Vec<Statement>) -> Option<Expected> {
    let at = one(random, all, |words| is(words, b"strand"))?;
    let name = String::from_utf8_lossy(&all[at][1]).into_owned();
    all.push(statement(&["strand", &name, "-", "-", "-", "0"]));
    unreadable(all.len() - 1)
}
