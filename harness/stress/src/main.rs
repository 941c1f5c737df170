//! `stress [--seed S] [--calls N]`: random calls of every C function, with slices of no entry, of the
//! wanted length, of one less and of one more. Nothing may crash, every reply is one of the documents',
//! a place is that of the fault, around every slice and number that is lent to be written stand guards
//! that must keep what they hold, and every number is written.

mod designs;
mod guarded;
mod names;
mod numbers;
mod sheets;
mod sums;
mod tables;

use compare::random::Random;
use std::collections::BTreeMap;
use std::process::ExitCode;
use std::time::Instant;

const USAGE: &str = "usage: stress [--seed S] [--calls N]";

/// 0 and the numbers of the refusals that there are.
const REPLIES: [u32; 24] = [
    0, 1, 2, 3, 4, 5, 6, 7, 8, 9, 10, 11, 12, 13, 14, 15, 16, 17, 18, 19, 20, 21, 22, 23,
];

const SEED: u64 = 9;
const CALLS: u64 = 1_000_000;

/// Calls so far, by what they replied.
#[derive(Default)]
pub struct Tally {
    replies: BTreeMap<u32, u64>,
    functions: BTreeMap<&'static str, u64>,
    faults: u64,
}

impl Tally {
    /// The reply of a call; `fit` says whether all else is as it has to be.
    pub fn call(&mut self, function: &'static str, number: u32, fit: bool) {
        *self.functions.entry(function).or_default() += 1;
        *self.replies.entry(number).or_default() += 1;
        if !REPLIES.contains(&number) || !fit {
            self.faults += 1;
            println!("stress: {function} replied {number}, fit {fit}");
        }
    }
}

fn main() -> ExitCode {
    let Ok((seed, calls)) = arguments() else {
        eprintln!("{USAGE}");
        return ExitCode::from(2);
    };
    let started = Instant::now();
    let random = &mut Random::new(seed);
    let designs = designs::Designs::new(random);
    let names = names::Sets::new(random);
    let mut tally = Tally::default();
    while tally.functions.values().sum::<u64>() < calls {
        match random.below(3) {
            0 => numbers::call(random, &mut tally),
            1 => names.call(random, &mut tally),
            _ => designs.call(random, &mut tally),
        }
    }
    let counted = |(number, count): (&u32, &u64)| format!("{number}: {count}");
    let replies: Vec<String> = tally.replies.iter().map(counted).collect();
    println!("seed {seed}, {:.1} s", started.elapsed().as_secs_f64());
    println!("replies {}", replies.join(", "));
    let (functions, faults) = (tally.functions.len(), tally.faults);
    let all: u64 = tally.functions.values().sum();
    println!("stress: {all} calls of {functions} kinds, {faults} faults");
    match faults {
        0 => ExitCode::SUCCESS,
        _ => ExitCode::FAILURE,
    }
}

fn arguments() -> Result<(u64, u64), ()> {
    let (mut seed, mut calls) = (SEED, CALLS);
    let mut words = std::env::args().skip(1);
    while let Some(word) = words.next() {
        let value = words
            .next()
            .and_then(|value| value.parse().ok())
            .ok_or(())?;
        match word.as_str() {
            "--seed" => seed = value,
            "--calls" => calls = value,
            _ => return Err(()),
        }
    }
    Ok((seed, calls))
}

/// One length too short or too long, none, or the one that is wanted.
pub fn near(random: &mut Random, wanted: usize) -> usize {
    match random.below(8) {
        0 => 0,
        1 => wanted.saturating_sub(1),
        2 => wanted + 1,
        _ => wanted,
    }
}
