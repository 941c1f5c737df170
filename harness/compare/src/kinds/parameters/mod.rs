//! Questions about `from_params`: every glue and every cell against the Rust, every refusal against
//! the judge, and where it admits its own tables too. The port is lent slices; the oracle is given
//! lines. Where a set is damaged as only slices can be, the port alone is asked.

mod damage;
mod fixed;

use super::{Ask, Kind};
use crate::judge::parameters::{Built, Lent, ARCHIVE, ORDINARY};
use crate::judge::Verdict;
use crate::parameters::{damage, parameters, Parameters, Shape};
use crate::question::{Expected, Question};
use crate::random::Random;
use protocol::{bits, joined, sequence_word};

pub struct ParameterSets;

/// Sets of each size in one round.
const SMALL: usize = 1200;
const MIDDLING: usize = 30;
const FULL: usize = 5;

/// One set in so many is built by the Rust over several hash maps, whose orders differ.
const ORDERS_SEEN_IN: usize = 4;

impl Kind for ParameterSets {
    fn name(&self) -> &'static str {
        "params"
    }

    fn replies(&self) -> &'static [u32] {
        &[0, 1, 2, 3, 6, 7, 8, 9, 21]
    }

    fn fixed(&self, ask: &mut Ask) {
        let random = &mut Random::new(9);
        fixed::every_count(random, ask);
        fixed::every_star(random, ask);
        fixed::every_build(random, ask);
        fixed::bench_lines(random, ask);
        fixed::every_length(random, ask);
        fixed::every_number(random, ask);
    }

    fn random(&self, random: &mut Random, ask: &mut Ask) {
        for number in 0..SMALL + MIDDLING + FULL {
            let shape = match number {
                ..SMALL => Shape::small(random),
                number if number < SMALL + MIDDLING => Shape::middling(random),
                _ => Shape::full(random),
            };
            let utf8 = !random.once_in(6);
            let mut set = parameters(random, &shape, utf8);
            for _ in 0..random.below(4) {
                damage(random, &mut set);
            }
            if !random.once_in(5) {
                ask_both(random, &set, ask);
                continue;
            }
            let mut lent = set.laid_out(random);
            for _ in 0..random.within(1..=2) {
                damage::of_slices(random, &mut lent);
            }
            ask_port(&lent, ask);
        }
    }

    /// What both settle, and that the Rust's answer does not hang on the order of its hash map.
    fn agree(&self, oracle: &str, port: &str) -> bool {
        let shared = ["sg=", "sc=", "dg=", "ds="];
        let is_shared = |word: &&str| shared.iter().any(|name| word.starts_with(name));
        let words: Vec<&str> = oracle.split(' ').filter(is_shared).collect();
        words.join(" ") == port && oracle.ends_with(" orders=stable")
    }
}

/// A set as it is, in both builds.
fn ask_both(random: &mut Random, set: &Parameters, ask: &mut Ask) {
    let lent = set.laid_out(random);
    for build in [ORDINARY, ARCHIVE] {
        ask_in(random, build, set, &lent, ask);
    }
}

/// To both where the Rust can take it; where it is admitted, the judge's tables too. The Rust builds
/// names that retire, so that they go to the port alone in an ordinary build.
fn ask_in(random: &mut Random, build: u32, set: &Parameters, lent: &Lent, ask: &mut Ask) {
    let lent = Lent {
        build,
        ..lent.clone()
    };
    let verdict = lent.verdict();
    let taken_by_the_rust = set.is_utf8()
        && set.is_valid_to_the_rust()
        && !set.has_a_key_twice()
        && verdict.number() != 21;
    if taken_by_the_rust {
        let lines = set.oracle_lines(random);
        let times = if random.once_in(ORDERS_SEEN_IN) { 3 } else { 1 };
        ask(Question {
            port: line(&lent),
            oracle: Some(format!("{lines}p.build {times}")),
            expected: Expected::Judged(verdict),
            about: None,
        });
    }
    if verdict == Verdict::Admitted || !taken_by_the_rust {
        ask_alone(&lent, ask);
    }
}

/// Slices, in both builds.
fn ask_port(lent: &Lent, ask: &mut Ask) {
    for build in [ORDINARY, ARCHIVE] {
        let lent = lent.clone();
        ask_alone(&Lent { build, ..lent }, ask);
    }
}

fn ask_alone(lent: &Lent, ask: &mut Ask) {
    let figures = || figures(&lent.built());
    ask(Question::of_port(line(lent), lent.verdict(), figures));
}

/// `params BUILD TEXT USERS STRANDS SCAFFOLD ENTRIES ENERGIES PENALTIES COPIED LENT`
fn line(lent: &Lent) -> String {
    let numbers = |list: &[usize]| joined(list, ",");
    let doubles = |list: &[f64]| joined(list.iter().map(|x| bits(*x)), ",");
    let words = [
        lent.build.to_string(),
        sequence_word(&lent.text),
        lent.users.to_string(),
        numbers(&lent.strands),
        numbers(&lent.scaffold),
        numbers(&lent.entries),
        doubles(&lent.energies),
        doubles(&[lent.penalty_dg, lent.penalty_ds]),
        numbers(&[lent.quencher, lent.reporter]),
        numbers(&lent.written),
    ];
    format!("params {}", words.join(" "))
}

/// As the oracle writes what a build settles: of the tables, the cells whose bits are not 0.
fn figures(built: &Built) -> String {
    let cells = |table: &[f64]| {
        let set = table.iter().enumerate().filter(|(_, x)| x.to_bits() != 0);
        let cell = |(at, x): (usize, &f64)| format!("{}.{}.{}", at / 64, at % 64, bits(*x));
        joined(set.map(cell), ",")
    };
    let strands = built.strand_glues.chunks(3).map(|sides| joined(sides, "."));
    format!(
        "sg={} sc={} dg={} ds={}",
        joined(strands, ","),
        joined(&built.scaffold_glues, ","),
        cells(&built.dg),
        cells(&built.ds)
    )
}
