//! `compare ORACLE PORT [--seed S] [--rounds N] [--only KIND,…]`
//!
//! Asks both programs the same lines and compares every answer. The last line counts what was
//! compared, by kind, and what differs; the exit status is 0 only if nothing does.

use compare::comparison::Comparison;
use compare::kinds::{self, Kind};
use std::path::PathBuf;
use std::process::ExitCode;
use std::time::Instant;

const USAGE: &str = "usage: compare ORACLE PORT [--seed S] [--rounds N] [--only KIND,…]";

const SEED: u64 = 2004;
const ROUNDS: u64 = 20;

struct Arguments {
    oracle: PathBuf,
    port: PathBuf,
    seed: u64,
    rounds: u64,
    only: Option<String>,
}

fn main() -> ExitCode {
    match arguments().and_then(|arguments| run(&arguments)) {
        Ok(true) => ExitCode::SUCCESS,
        Ok(false) => ExitCode::FAILURE,
        Err(complaint) => {
            eprintln!("compare: {complaint}");
            ExitCode::from(2)
        }
    }
}

fn arguments() -> Result<Arguments, String> {
    let mut words = std::env::args().skip(1);
    let mut programs = vec![];
    let (mut seed, mut rounds, mut only) = (SEED, ROUNDS, None);
    while let Some(word) = words.next() {
        if !word.starts_with("--") {
            programs.push(PathBuf::from(word));
            continue;
        }
        let value = words.next().ok_or(USAGE)?;
        let number = || value.parse().map_err(|_| format!("{value} is no number"));
        match word.as_str() {
            "--seed" => seed = number()?,
            "--rounds" => rounds = number()?,
            "--only" => only = Some(value),
            _ => return Err(USAGE.to_string()),
        }
    }
    let [oracle, port] = <[PathBuf; 2]>::try_from(programs).map_err(|_| USAGE)?;
    Ok(Arguments {
        oracle,
        port,
        seed,
        rounds,
        only,
    })
}

/// Whether nothing differs.
fn run(arguments: &Arguments) -> Result<bool, String> {
    let started = Instant::now();
    let chosen = chosen_kinds(arguments.only.as_deref())?;
    let mut comparison = Comparison::start(&arguments.oracle, &arguments.port)?;
    let (seed, rounds) = (arguments.seed, arguments.rounds);
    println!("seed {seed}, rounds {rounds}");
    for kind in &chosen {
        comparison.compare(kind.as_ref(), seed, rounds);
    }
    println!("{:.1} s", started.elapsed().as_secs_f64());
    println!("{}", comparison.tally().last_line());
    Ok(comparison.tally().is_clean())
}

fn chosen_kinds(only: Option<&str>) -> Result<Vec<Box<dyn Kind>>, String> {
    let mut chosen = kinds::all();
    if let Some(only) = only {
        let names: Vec<&str> = only.split(',').collect();
        let known: Vec<&str> = chosen.iter().map(|kind| kind.name()).collect();
        if let Some(unknown) = names.iter().find(|name| !known.contains(name)) {
            let known = known.join(", ");
            return Err(format!("no kind {unknown}; there are {known}"));
        }
        chosen.retain(|kind| names.contains(&kind.name()));
    }
    Ok(chosen)
}
