//! Files with one fault each, planted at a known statement.

mod refused;
mod unreadable;

use crate::design::Design;
use crate::statements::{statement, Statement};
use compare::random::Random;
use refused::{
    ambient_range, bad_sequence, bases_32, concentration_range, copied_concentration_range,
    copied_potential_range, energy_range, entries_1025, kelvin_range, long_name, no_such_strand,
    pair_twice, positions_129, potential_range, small_ring, strands_62,
};
use unreadable::{
    bad_number, dash_for_a_name, given_twice, no_ambient, no_statement, ring_twice, strand_twice,
    twice_if_there, word_missing, word_too_many, wrong_letters,
};

/// What has to be said of a damaged file.
#[derive(Debug, Clone, Copy, PartialEq)]
pub struct Expected {
    /// Document 01's number; none where the file can't be read.
    pub reply: Option<u32>,
    /// The statement at fault, where there is one.
    pub statement: Option<usize>,
    /// The word at fault, where one is known to be told.
    pub word: Option<&'static str>,
}

fn unreadable(at: usize) -> Option<Expected> {
    Some(Expected {
        reply: None,
        statement: Some(at),
        word: None,
    })
}

fn refused(reply: u32, at: usize) -> Option<Expected> {
    Some(Expected {
        reply: Some(reply),
        statement: Some(at),
        word: None,
    })
}

/// Refused at a word of the statement.
fn refused_at(reply: u32, at: usize, word: &'static str) -> Option<Expected> {
    Some(Expected {
        word: Some(word),
        ..refused(reply, at)?
    })
}

pub const KINDS: usize = 33;

/// Plants a fault of a kind; none where the design has no place for it.
pub fn plant(
    random: &mut Random,
    design: &Design,
    all: &mut Vec<Statement>,
    kind: usize,
) -> Option<Expected> {
    match kind {
        0 => bad_number(random, all),
        1 => word_missing(random, all),
        2 => word_too_many(random, all),
        3 => no_statement(random, all),
        4 => dash_for_a_name(random, all),
        5 => wrong_letters(random, all, b"dg", &["DG", "dG", "gd", "sequence", "-"]),
        6 => wrong_letters(random, all, b"ds", &["DS", "dS", "dg", "seq", "1"]),
        7 => given_twice(
            random,
            all,
            &["kelvin 310", "celsius 37", "ambient 0.6 0 0"],
        ),
        8 => twice_if_there(random, all, b"penalty", "penalty 0 0"),
        9 => twice_if_there(random, all, b"quencher", "quencher - 0"),
        10 => twice_if_there(random, all, b"reporter", "reporter - 0"),
        11 => no_ambient(all),
        12 => strand_twice(random, all),
        13 => strands_62(design, all),
        14 => positions_129(random, design, all),
        15 => entries_1025(design, all),
        16 => long_name(random, all),
        17 => add(all, &["energy", "none", "seq", &"acgt".repeat(65)], 1),
        18 => bad_sequence(random, all),
        19 => add(
            all,
            &["pair", "none", "none*", "seq", random.pick(&["a", "T"])],
            3,
        ),
        20 if design.scaffold.len() > 126 => None,
        20 => add(
            all,
            &[
                random.pick(&["scaffold", "blocked"]),
                "-",
                random.pick(&["nowhere", "nowhere*", "x**"]),
            ],
            6,
        ),
        21 => bases_32(design, all),
        22 => pair_twice(random, design, all),
        23 => energy_range(random, design, all),
        24 => kelvin_range(random, all),
        25 => ambient_range(random, design, all),
        26 => potential_range(random, design, all),
        27 => copied_potential_range(random, design, all),
        28 => ring_twice(all),
        29 => small_ring(random, all),
        30 => concentration_range(random, design, all),
        31 => copied_concentration_range(random, design, all),
        _ => no_such_strand(random, all),
    }
}

fn is(statement: &Statement, keyword: &[u8]) -> bool {
    statement[0] == keyword
}

fn is_ambient(statement: &Statement) -> bool {
    [b"kelvin".as_slice(), b"celsius", b"ambient"].contains(&statement[0].as_slice())
}

/// One of the statements for which a condition holds.
fn one(random: &mut Random, all: &[Statement], fit: impl Fn(&Statement) -> bool) -> Option<usize> {
    let fitting: Vec<usize> = (0..all.len()).filter(|index| fit(&all[*index])).collect();
    (!fitting.is_empty()).then(|| random.pick(&fitting))
}

fn split(line: &str) -> Statement {
    statement(&line.split(' ').collect::<Vec<&str>>())
}

fn add(all: &mut Vec<Statement>, words: &[&str], reply: u32) -> Option<Expected> {
    all.push(statement(words));
    refused(reply, all.len() - 1)
}
