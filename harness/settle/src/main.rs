//! `files SETTLE FOLDER [ORACLE] [--seed S] [--designs N] [--damaged N]`
//!
//! Writes design files to a folder and runs `./settle --json` on them, with `--archive`, and on the designs without it too. Without an oracle the designs are left out. The exit
//! status is 0 only if nothing differs.

mod alike;
mod damage;
mod design;
mod exact;
mod json;
mod noise;
mod settle;
mod statements;

use compare::program::Program;
use compare::random::Random;
use damage::Expected;
use design::Design;
use exact::Exact;
use settle::{fresh_folder, shown, Answer, Settle, Settled};
use statements::{statement, written, Statement};
use std::path::{Path, PathBuf};
use std::process::ExitCode;
use std::time::Instant;

const USAGE: &str = "usage: files SETTLE FOLDER [ORACLE] [--seed S] [--designs N] [--damaged N]";

/// Files in one call: their names have to fit into one command.
const BATCH: usize = 2000;

/// How many differences are shown.
const SHOWN: usize = 20;

struct Arguments {
    settle: Settle,
    oracle: Option<PathBuf>,
    seed: u64,
    designs: usize,
    damaged: usize,
}

fn main() -> ExitCode {
    match arguments().and_then(|arguments| run(&arguments)) {
        Ok(0) => ExitCode::SUCCESS,
        Ok(_) => ExitCode::FAILURE,
        Err(complaint) => {
            eprintln!("files: {complaint}");
            ExitCode::from(2)
        }
    }
}

fn arguments() -> Result<Arguments, String> {
    let mut words = std::env::args().skip(1);
    let (mut paths, mut seed, mut designs, mut damaged) = (vec![], 2004, 2000, 100_000);
    while let Some(word) = words.next() {
        if !word.starts_with("--") {
            paths.push(PathBuf::from(word));
            continue;
        }
        let value = words.next().ok_or(USAGE)?;
        let number: u64 = value.parse().map_err(|_| format!("{value} is no number"))?;
        match word.as_str() {
            "--seed" => seed = number,
            "--designs" => designs = number as usize,
            "--damaged" => damaged = number as usize,
            _ => return Err(USAGE.to_string()),
        }
    }
    let absolute = |path: &Path| {
        path.canonicalize()
            .map_err(|error| format!("{}: {error}", path.display()))
    };
    let [command, folder, oracle @ ..] = &paths[..] else {
        return Err(USAGE.to_string());
    };
    Ok(Arguments {
        settle: Settle {
            command: absolute(command)?,
            folder: absolute(&fresh_folder(folder)?)?,
            archive: true,
        },
        oracle: oracle.first().cloned(),
        seed,
        designs,
        damaged,
    })
}

/// How many files differ.
fn run(arguments: &Arguments) -> Result<usize, String> {
    let started = Instant::now();
    let mut tally = Tally::default();
    fixed(&arguments.settle, &mut tally)?;
    println!("seed {}, fixed {}", arguments.seed, tally.asked);
    let mut designs = 0;
    if let Some(oracle) = &arguments.oracle {
        designs = arguments.designs;
        let mut oracle = Program::start("oracle", oracle)?;
        settled_as_the_oracle(arguments, &mut oracle, &mut tally)?;
    }
    let pairs = alike_in_pairs(arguments, &mut tally)?;
    damaged(arguments, &mut tally)?;
    let (seconds, damaged) = (started.elapsed().as_secs_f64(), arguments.damaged);
    println!(
        "{seconds:.1} s; settled {}, refused {}, unreadable {}",
        tally.settled, tally.refused, tally.unreadable
    );
    println!(
        "files: {designs} designs as the oracle has them, {pairs} pairs alike, {damaged} damaged; differ {}",
        tally.differ
    );
    Ok(tally.differ)
}

#[derive(Default)]
struct Tally {
    asked: usize,
    settled: usize,
    refused: usize,
    unreadable: usize,
    differ: usize,
}

impl Tally {
    fn count(&mut self, answer: &Answer, complaint: Option<String>, text: &[u8]) {
        self.asked += 1;
        match answer.reply {
            Some(0) => self.settled += 1,
            Some(_) => self.refused += 1,
            None => self.unreadable += 1,
        }
        if let Some(complaint) = complaint {
            self.differ += 1;
            if self.differ <= SHOWN {
                println!(
                    "{complaint}\n{answer:?}\n{}\n",
                    String::from_utf8_lossy(text)
                );
            }
        }
    }
}

// ---- files that are always asked

/// Sizes, ends of lines, single bytes, what is no file.
fn fixed(settle: &Settle, tally: &mut Tally) -> Result<(), String> {
    let whole =
        b"kelvin 310.15\nstrand a - s* - -16\nscaffold s -\nenergy s dg -20 ds 0\n".to_vec();
    let with_returns = String::from_utf8_lossy(&whole)
        .replace('\n', "\r\n")
        .into_bytes();
    let mut padded = whole.clone();
    padded.resize((1 << 20) - 1, b'#');
    padded.push(b'\n');
    let (mut full, mut over) = (padded.clone(), padded);
    full[whole.len()] = b'#';
    over.push(b'\n');
    let many_words = [b"scaffold".to_vec(), b" -".repeat(400_000)].concat();
    let long_word = vec![b'a'; 1 << 20];
    let newlines = vec![b'\n'; 1 << 20];
    let mut asked: Vec<(Vec<u8>, Option<u32>, Option<usize>)> = vec![
        (vec![], None, None),
        (whole.clone(), Some(0), None),
        (whole[..whole.len() - 1].to_vec(), Some(0), None),
        (with_returns, Some(0), None),
        (full, Some(0), None),
        (over, None, None),
        (vec![0; 1 << 20], None, None),
        (vec![0xff; (1 << 20) + 1], None, None),
        (long_word, None, Some(1)),
        (newlines, None, None),
        (many_words, Some(1), Some(1)),
        ([&whole[..], b"\xff\xfe \x00"].concat(), None, Some(5)),
    ];
    for byte in 0..=255u8 {
        let idle = matches!(byte, 0 | b'\n' | b'\r' | b'\t' | b' ' | b'#');
        asked.push((vec![byte], None, (!idle).then_some(1)));
    }
    let texts: Vec<&[u8]> = asked.iter().map(|(text, ..)| text.as_slice()).collect();
    let answers = settle.ask(&texts)?;
    for (answer, (text, reply, line)) in answers.iter().zip(&asked) {
        let complaint = match answer.reply != *reply || answer.line != *line {
            true => Some(format!("expected {reply:?} at line {line:?}")),
            false => misplaced(answer, text),
        };
        tally.count(answer, complaint, &text[..text.len().min(200)]);
    }
    std::fs::create_dir(settle.path("folder")).map_err(|error| error.to_string())?;
    let odd = ["missing", "folder", "f1/below", ".", "", "-", "--json"].map(String::from);
    for (answer, name) in settle.ask_of(&odd)?.iter().zip(&odd) {
        let complaint = answer.reply.map(|_| "no such file".to_string());
        tally.count(answer, complaint, name.as_bytes());
    }
    Ok(())
}

// ---- designs

/// Each design is built and settled by the oracle, and written to a file with the oracle's own ambient; every other one with two
/// excesses of its own, a penalty, a quencher and a reporter.
fn settled_as_the_oracle(
    arguments: &Arguments,
    oracle: &mut Program,
    tally: &mut Tally,
) -> Result<(), String> {
    let mut random = Random::stream(arguments.seed, "designs", 0);
    let mut left = arguments.designs;
    while left > 0 {
        let mut files: Vec<(Design, Vec<u8>, Lowest)> = vec![];
        while files.len() < left.min(BATCH / 4) {
            let (asked, design, excesses) = match files.len() % 2 {
                0 => (None, Design::random(&mut random), None),
                _ => {
                    let exact = Exact::random(&mut random);
                    (Some(exact.asked), exact.stated, Some(exact.excesses))
                }
            };
            let asked = asked.as_ref().unwrap_or(&design);
            if let Some((ambient, lowest)) = lowest(oracle, asked, excesses, &mut random)? {
                let statements = design.statements(&mut random, ambient);
                let (text, _) = written(&mut random, &statements);
                files.push((design, text, lowest));
            }
        }
        let texts: Vec<&[u8]> = files.iter().map(|(_, text, _)| text.as_slice()).collect();
        for (answer, (design, text, lowest)) in arguments.settle.ask(&texts)?.iter().zip(&files) {
            tally.count(answer, unlike(answer, design, lowest), text);
        }
        let ordinary = Settle {
            archive: false,
            ..arguments.settle.clone()
        };
        for (answer, (design, text, lowest)) in ordinary.ask(&texts)?.iter().zip(&files) {
            let complaint = match design.first_retired() {
                Some(name) => not_retired(answer, name),
                None => unlike(answer, design, lowest),
            };
            tally.count(answer, complaint, text);
        }
        left -= files.len();
    }
    Ok(())
}

/// What an answer has other than 21 at a name that ends in two or more stars.
fn not_retired(answer: &Answer, name: &[u8]) -> Option<String> {
    let shown = answer
        .word
        .as_deref()
        .is_some_and(|word| word.ends_with("**"));
    let told = answer.reply == Some(21) && answer.line.is_some() && shown;
    (!told).then(|| format!("{} retires", String::from_utf8_lossy(name)))
}

/// The oracle's answer.
struct Lowest {
    bits: u64,
    configuration: Vec<usize>,
    /// Where the Rust can list them.
    states: Option<u64>,
}

/// The ambient as a statement, with other excesses where they are given, and what the Rust settles; none where the Rust takes no
/// such design.
fn lowest(
    oracle: &mut Program,
    design: &Design,
    excesses: Option<[f64; 2]>,
    random: &mut Random,
) -> Result<Option<(Statement, Lowest)>, String> {
    oracle.send(format!(
        "{}\np.build\nhere\nmfe\nnstates\n",
        design.oracle_lines()
    ));
    let built = oracle.answer()?;
    let here = oracle.answer()?;
    let settled = oracle.answer()?;
    let states = oracle.answer()?;
    if !built.starts_with("ok ") {
        return Ok(None);
    }
    let words = |line: &str| -> Result<Vec<String>, String> {
        let words = line
            .strip_prefix("ok ")
            .ok_or(format!("the oracle says {line}"))?;
        Ok(words.split(' ').map(String::from).collect())
    };
    let ambient = words(&here)?;
    let own = [
        protocol::double(&ambient[3])?,
        protocol::double(&ambient[4])?,
    ];
    if excesses.is_some() && own != [0.0, 0.0] {
        return Err(format!("at 37 C the oracle has the excesses {own:?}"));
    }
    let [strand_excess, scaffold_excess] = excesses.unwrap_or(own);
    let mut parts = vec![b"ambient".to_vec()];
    for figure in [
        protocol::double(&ambient[1])?,
        strand_excess,
        scaffold_excess,
    ] {
        parts.push(statements::number(random, figure));
    }
    let settled = words(&settled)?;
    let configuration = match settled[1].as_str() {
        "-" => vec![],
        list => list
            .split(',')
            .map(|word| word.parse().map_err(|_| list.to_string()))
            .collect::<Result<_, _>>()?,
    };
    let lowest = Lowest {
        bits: protocol::double(&settled[0])?.to_bits(),
        configuration,
        states: words(&states).ok().and_then(|words| words[0].parse().ok()),
    };
    Ok(Some((parts, lowest)))
}

/// What an answer has other than the oracle, the design, or itself.
fn unlike(answer: &Answer, design: &Design, lowest: &Lowest) -> Option<String> {
    let Some(settled) = &answer.settled else {
        return Some("the oracle settles it".to_string());
    };
    let names: Vec<_> = settled
        .configuration
        .iter()
        .map(|strand| design.shown(*strand).as_deref().map(shown))
        .collect();
    let checks = [
        ("bits", settled.bits == lowest.bits),
        (
            "configuration",
            settled.configuration == lowest.configuration,
        ),
        ("blocked", settled.blocked == design.blocked),
        ("ring", !settled.ring),
        ("names", settled.names == names),
        ("states", settled.states == lowest.states),
        (
            "energy",
            settled.energy == six_places(f64::from_bits(settled.bits)),
        ),
        ("deck", settled.deck == deck(settled)),
    ];
    let (what, _) = checks.iter().find(|(_, holds)| !holds)?;
    Some(format!(
        "{what}: the oracle has {:016x} {:?} {:?}",
        lowest.bits, lowest.configuration, lowest.states
    ))
}

/// Rounded as the exact value is, with no sign before zeros.
fn six_places(x: f64) -> String {
    let text = format!("{x:.6}");
    match text.strip_prefix('-') {
        Some("0.000000") => "0.000000".to_string(),
        _ => text,
    }
}

fn deck(settled: &Settled) -> Vec<u32> {
    let mut words = vec![0x1000_0000 | settled.configuration.len() as u32];
    for strand in &settled.configuration {
        match (strand, words.last_mut()) {
            (0, Some(run)) if *run >> 28 == 3 => *run += 1,
            (0, _) => words.push(0x3000_0001),
            (strand, _) => words.push(0x2000_0000 | *strand as u32),
        }
    }
    words
}

// ---- the same in other words

/// As many random designs as are asked for, each in pairs of files that have to be answered alike; how many pairs there were.
fn alike_in_pairs(arguments: &Arguments, tally: &mut Tally) -> Result<usize, String> {
    let mut random = Random::stream(arguments.seed, "alike", 0);
    let (mut left, mut count) = (arguments.designs, 0);
    while left > 0 {
        let designs = left.min(BATCH / 10);
        let pairs: Vec<_> = (0..designs)
            .flat_map(|_| alike::pairs(&mut random))
            .collect();
        for (answer, complaint, text) in alike::asked(&arguments.settle, &pairs)? {
            tally.count(&answer, complaint, &text);
        }
        count += pairs.len();
        left -= designs;
    }
    Ok(count)
}

// ---- damaged files

/// Half of them with a planted fault, the rest without form. Of those an answer or a reason is asked for, and no more.
fn damaged(arguments: &Arguments, tally: &mut Tally) -> Result<(), String> {
    let mut random = Random::stream(arguments.seed, "damaged", 0);
    let mut left = arguments.damaged;
    let mut planted = [0usize; damage::KINDS];
    while left > 0 {
        let mut files: Vec<(Vec<u8>, Option<(Expected, Option<usize>)>)> = vec![];
        while files.len() < left.min(BATCH) {
            files.push(damaged_file(&mut random, &mut planted));
        }
        let texts: Vec<&[u8]> = files.iter().map(|(text, _)| text.as_slice()).collect();
        for (answer, (text, expected)) in arguments.settle.ask(&texts)?.iter().zip(&files) {
            let complaint = match expected {
                Some((expected, line)) => {
                    let line = line.filter(|_| expected.reply.is_some() || is_plain(text));
                    match is_as(answer, expected, line) {
                        true => misplaced(answer, text),
                        false => Some(format!("expected {expected:?} at line {line:?}")),
                    }
                }
                None => misplaced(answer, text),
            };
            tally.count(answer, complaint, text);
        }
        left -= files.len();
    }
    match planted.iter().position(|count| *count == 0) {
        Some(kind) if arguments.damaged > 10_000 => {
            Err(format!("no fault of kind {kind} was planted"))
        }
        _ => Ok(()),
    }
}

/// The reply, the line and, where one is known, the word.
fn is_as(answer: &Answer, expected: &Expected, line: Option<usize>) -> bool {
    let word = expected.word;
    answer.reply == expected.reply
        && answer.line == line
        && (word.is_none() || answer.word.as_deref() == word)
}

/// Written as design files are: no byte order mark, no UTF-16, no lines that end in carriage returns alone. Any other file that can't be read is told as
/// what it is, with no line.
fn is_plain(text: &[u8]) -> bool {
    let front = &text[..text.len().min(2)];
    let is_utf16 = front.contains(&0) || front == b"\xff\xfe" || front == b"\xfe\xff";
    let returns_alone = text.contains(&b'\r') && !text.contains(&b'\n');
    !(text.starts_with(b"\xef\xbb\xbf") || is_utf16 || returns_alone)
}

/// A line is one of the file's, and a word stands in it; of a long one the beginning, and dots.
fn misplaced(answer: &Answer, text: &[u8]) -> Option<String> {
    let lines: Vec<&[u8]> = text.split(|byte| *byte == b'\n').collect();
    let line = match answer.line {
        Some(line) if line == 0 || line > lines.len() => return Some("no such line".to_string()),
        Some(line) => lines[line - 1],
        None => text,
    };
    let word = answer.word.as_deref()?;
    let whole = [Some(word), word.strip_suffix("...")];
    let there = (0..=line.len()).any(|from| {
        whole.iter().flatten().any(|word| {
            let sizes = [word.len(), word.chars().count()];
            let part = |size| line.get(from..from + size).unwrap_or_default();
            sizes.iter().any(|size| shown(part(*size)) == **word)
        })
    });
    (!there).then(|| "no such word".to_string())
}

type Damaged = (Vec<u8>, Option<(Expected, Option<usize>)>);

fn damaged_file(random: &mut Random, planted: &mut [usize; damage::KINDS]) -> Damaged {
    match random.below(8) {
        0 => return (noise::bytes(random), None),
        1 => return (noise::words(random), None),
        _ => {}
    }
    let design = Design::random(random);
    let ambient = match random.below(3) {
        0 => statement(&["kelvin", "310.15"]),
        1 => statement(&["celsius", "37"]),
        _ => statement(&["ambient", "0.61", "-0.5", "12.25"]),
    };
    let mut statements = design.statements(random, ambient);
    if random.once_in(4) {
        let (text, _) = written(random, &statements);
        return (noise::changed(random, &text), None);
    }
    let kind = random.below(damage::KINDS);
    // The longest kind is rare.
    if kind == 15 && !random.once_in(20) {
        return (noise::words(random), None);
    }
    let Some(expected) = damage::plant(random, &design, &mut statements, kind) else {
        return (noise::bytes(random), None);
    };
    planted[kind] += 1;
    let (text, lines) = written(random, &statements);
    let line = expected.statement.map(|at| lines[at]);
    (text, Some((expected, line)))
}
