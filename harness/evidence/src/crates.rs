//! Every crate proved anew, one after the other, and the size of its texts.

use crate::measure::measured;
use std::fs;
use std::path::Path;

pub struct Crate {
    pub name: String,
    pub functions: u64,
    pub axioms: u64,
    pub seconds: f64,
    pub peak_megabytes: u64,
    pub code: usize,
    pub definitions: usize,
    pub proofs: usize,
    pub edits: usize,
}

/// The crates in an order in which each comes after those that it uses.
fn in_order() -> Vec<String> {
    let text = fs::read_to_string("crates.txt").expect("crates.txt");
    let listed: Vec<(String, Vec<String>)> = text
        .lines()
        .filter(|line| !line.starts_with('#'))
        .filter_map(|line| line.split_once(':'))
        .map(|(name, uses)| {
            (
                name.split_whitespace().next().expect("a name").to_string(),
                uses.split_whitespace().map(str::to_string).collect(),
            )
        })
        .collect();
    let ours = |name: &String| listed.iter().any(|(other, _)| other == name);
    let mut order: Vec<String> = Vec::new();
    while order.len() < listed.len() {
        let before = order.len();
        for (name, uses) in &listed {
            if !order.contains(name) && uses.iter().all(|used| !ours(used) || order.contains(used))
            {
                order.push(name.clone());
            }
        }
        assert!(before < order.len(), "crates.txt goes in a circle");
    }
    order
}

fn lines_under(folder: &Path, ending: &str) -> usize {
    let Ok(entries) = fs::read_dir(folder) else {
        return 0;
    };
    entries
        .map(|entry| entry.expect("an entry").path())
        .map(|path| match path.is_dir() {
            true => lines_under(&path, ending),
            false if path.extension().is_some_and(|e| e == ending) => {
                fs::read_to_string(&path).expect("a text").lines().count()
            }
            false => 0,
        })
        .sum()
}

/// The edits in one folder.
fn edits_in(folder: &Path) -> usize {
    let Ok(entries) = fs::read_dir(folder) else {
        return 0;
    };
    entries
        .map(|entry| entry.expect("an entry").path())
        .filter(|path| path.extension().is_some_and(|e| e == "edit"))
        .count()
}

/// The number after `word=` in the verdict.
fn figure(verdict: &str, word: &str) -> u64 {
    verdict
        .split_whitespace()
        .find_map(|part| part.strip_prefix(word)?.strip_prefix('='))
        .map_or(0, |digits| digits.parse().expect("a number"))
}

fn is_program(name: &str) -> bool {
    Path::new("crates").join(name).join("src/main.rt").exists()
}

fn prove(name: &str) -> Crate {
    let there = |what: &str| format!("cd crates/{name} && {what}");
    let done = measured(&["sh", "-c", &there("rm -rf out && rt check")]);
    assert!(done.ok, "{name} is not proved:\n{}", done.output);
    // What the crates above it read of it is made apart from the check that is timed.
    let made = measured(&["sh", "-c", &there("rt lib")]);
    assert!(made.ok || is_program(name), "{name} is not built:\n{}", made.output);
    let verdict = done
        .output
        .lines()
        .filter(|line| line.starts_with("logic=proved"))
        .last()
        .unwrap_or_default();
    assert!(
        !verdict.is_empty(),
        "{name} has no verdict:\n{}",
        done.output
    );
    let folder = Path::new("crates").join(name);
    Crate {
        name: name.to_string(),
        functions: figure(verdict, "functions"),
        axioms: figure(verdict, "axioms"),
        seconds: done.seconds,
        peak_megabytes: done.peak_megabytes,
        code: lines_under(&folder.join("src"), "rt"),
        definitions: lines_under(&folder.join("specs"), "antt"),
        proofs: lines_under(&folder.join("proofs"), "antt"),
        edits: edits_in(&folder.join("must-fail")) + edits_in(&folder.join("more")),
    }
}

pub fn prove_all() -> Vec<Crate> {
    in_order().iter().map(|name| prove(name)).collect()
}
