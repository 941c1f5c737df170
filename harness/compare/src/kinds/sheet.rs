//! `sheet JOBS NUMBERS,ENERGIES,COUNTS,STRETCHES`: sheets of job words, with so many entries lent of
//! each, which the Rust lacks. The judge answers each job by its direct call.

use super::ceiling::worked;
use super::raw::damage;
use super::{Ask, Kind};
use crate::designs::{blocks, marked, raw_lines, Ambient, Shape, SORTS};
use crate::judge::design::{Lent, MOST_STATES};
use crate::judge::sheet::{parts, Job, MOST_JOBS};
use crate::question::Question;
use crate::random::Random;
use protocol::{bits, joined};
use std::cell::RefCell;
use std::collections::BTreeMap;
use std::rc::Rc;

/// How many jobs of a kind had a number.
#[derive(Default)]
pub struct Sheets(RefCell<BTreeMap<(u32, u32), u64>>);

/// Designs in one round, and sheets for each.
const IN_A_ROUND: usize = 300;
const SHEETS: usize = 4;

/// What the port's lent stretches hold before a call.
const KEPT: u8 = 0xa5;

/// Every number that a job of a kind can have. Those of other kinds have 22 alone.
const OWED: [(u32, &[u32]); 3] = [
    (8, &[0, 1, 9, 10, 12, 13, 16, 17]),
    (9, &[0, 1, 9, 10, 16, 17, 22]),
    (10, &[0, 1, 9, 10, 12, 16, 17, 22]),
];

/// The worked sheet.
const WORKED: [u32; 6] = [
    0x8000_0000,
    0x8000_0004,
    0x9000_0000,
    0xa000_0000,
    0x9000_0001,
    0x3000_0001,
];

/// Job words, and how much is lent of numbers, energies, counts and stretches.
type Sheet = (Vec<u32>, [usize; 4]);

impl Kind for Sheets {
    fn name(&self) -> &'static str {
        "sheet"
    }

    fn replies(&self) -> &'static [u32] {
        &[0, 1]
    }

    /// The worked sheet, with each lent length just off, on a design that is fit and one that is not;
    /// sheets of 0, 1, 64 and 65 words; words of every kind; designs of no position, of as many states
    /// as are counted and of more, and of more positions than there may be.
    fn fixed(&self, ask: &mut Ask) {
        for cell in [-0.5, f64::NAN] {
            let mut lent = worked(&[1, 2]);
            lent.dg[65] = cell;
            let mut sheets: Vec<Sheet> = vec![];
            for count in [0, 1, 6, MOST_JOBS, MOST_JOBS + 1] {
                let words: Vec<u32> = WORKED.into_iter().cycle().take(count).collect();
                sheets.extend(just_off(&lent, &words));
            }
            for payload in [0, 1, 2, 0x0fff_ffff] {
                let words = (0..16).map(|kind| kind << 28 | payload).collect();
                sheets.push(fitting(&lent, words));
            }
            self.ask_sheets(&lent, &sheets, ask);
        }
        for positions in [0, 1, 19, 20, 21, 128, 129, 200] {
            let lent = worked(&vec![1; positions]);
            let ranks = [0, 1, 0xf_ffff, 0x10_0000, 0x10_0001, 0x0fff_ffff];
            let words: Vec<u32> = ranks.into_iter().map(|rank| 8 << 28 | rank).collect();
            let sheets = [
                fitting(&lent, [words, WORKED.to_vec()].concat()),
                fitting(&lent, vec![9 << 28; MOST_JOBS]),
            ];
            self.ask_sheets(&lent, &sheets, ask);
        }
    }

    fn random(&self, random: &mut Random, ask: &mut Ask) {
        for _ in 0..IN_A_ROUND {
            let shape = match random.once_in(10) {
                true => Shape::middling(random),
                false => Shape::small(random),
            };
            let marks = match random.once_in(2) {
                true => blocks(random, shape.positions),
                false => vec![0; shape.positions],
            };
            let (sort, ambient) = (random.pick(&SORTS), Ambient::any(random));
            let mut lent = marked(random, sort, &shape, ambient, marks);
            let count = lent.count().min(MOST_STATES) as u32;
            if random.once_in(3) {
                damage::of_a_design(random, &mut lent);
            }
            let sheets: Vec<Sheet> = (0..SHEETS).map(|_| sheet(random, &lent, count)).collect();
            self.ask_sheets(&lent, &sheets, ask);
        }
    }

    /// Every number of every kind of job.
    fn watched(&self) -> Option<Result<String, String>> {
        let had = self.0.borrow();
        for (kind, numbers) in OWED {
            for number in numbers {
                if !had.contains_key(&(kind, *number)) {
                    return Some(Err(format!(
                        "no job of kind {kind} has the number {number}"
                    )));
                }
            }
        }
        let jobs: u64 = had.values().sum();
        let owed = had.iter().filter(|((kind, _), _)| (8..=10).contains(kind));
        let each = owed.map(|((kind, number), count)| format!("{kind} {number} {count}"));
        let told = joined(each, ", ");
        Some(Ok(format!("{jobs} jobs; kind, number, how many: {told}")))
    }
}

impl Sheets {
    /// The worked sheet on another design.
    pub(super) fn ask_worked(&self, lent: &Lent, ask: &mut Ask) {
        self.ask_sheets(lent, &[fitting(lent, WORKED.to_vec())], ask);
    }

    /// The slices go with the first question and hold for the rest.
    fn ask_sheets(&self, lent: &Lent, sheets: &[Sheet], ask: &mut Ask) {
        let lines: Rc<str> = raw_lines(lent).into();
        for (index, (words, lengths)) in sheets.iter().enumerate() {
            let line = format!("sheet {} {}", joined(words, ","), joined(lengths, ","));
            let verdict = lent.sheet_verdict(words.len(), *lengths);
            let mut question = Question::of_port(line, verdict, || {
                let jobs: Vec<Job> = words.iter().map(|word| lent.job(*word)).collect();
                self.count(words, &jobs);
                told(lent.positions(), &jobs)
            });
            match index {
                0 => question.port = format!("{lines}{}", question.port),
                _ => question.about = Some(lines.clone()),
            }
            ask(question);
        }
    }

    fn count(&self, words: &[u32], jobs: &[Job]) {
        let mut had = self.0.borrow_mut();
        for (word, job) in words.iter().zip(jobs) {
            *had.entry((parts(*word).0, job.number)).or_default() += 1;
        }
    }
}

/// Numbers, energies, counts and stretches.
fn told(positions: usize, jobs: &[Job]) -> String {
    let stretch = |job: &Job| job.stretch.clone().unwrap_or(vec![KEPT; positions]);
    format!(
        "{} {} {} {}",
        joined(jobs.iter().map(|job| job.number), ","),
        joined(jobs.iter().map(|job| bits(job.energy)), ","),
        joined(jobs.iter().map(|job| job.count), ","),
        joined(jobs.iter().flat_map(stretch), ",")
    )
}

/// The lengths that a sheet of these words asks for.
fn fitting(lent: &Lent, words: Vec<u32>) -> Sheet {
    let count = words.len();
    (words, [count, count, count, count * lent.positions()])
}

/// The lengths that are asked for, and each of them one less, one more, and none.
fn just_off(lent: &Lent, words: &[u32]) -> Vec<Sheet> {
    let mut sheets = vec![fitting(lent, words.to_vec())];
    for which in 0..4 {
        let (words, right) = fitting(lent, words.to_vec());
        for length in [right[which].saturating_sub(1), right[which] + 1, 0] {
            let mut lengths = right;
            lengths[which] = length;
            sheets.push((words.clone(), lengths));
        }
    }
    sheets
}

/// Most often a short one with the lengths that it asks for.
fn sheet(random: &mut Random, lent: &Lent, states: u32) -> Sheet {
    let count = match random.below(16) {
        0 => random.pick(&[0, 1, MOST_JOBS - 1, MOST_JOBS, MOST_JOBS + 1]),
        _ => random.below(12),
    };
    let words = (0..count).map(|_| word(random, states)).collect();
    let (words, mut lengths) = fitting(lent, words);
    if random.once_in(10) {
        let which = random.below(4);
        let wanted = lengths[which];
        let a_job_less = wanted.saturating_sub(lent.positions());
        lengths[which] = random.pick(&[wanted.saturating_sub(1), wanted + 1, 0, a_job_less]);
    }
    (words, lengths)
}

/// Most often a job of a design of so many states, its rank one of theirs or hardly past the last.
fn word(random: &mut Random, states: u32) -> u32 {
    let any = random.bits() as u32;
    let rank = any % states;
    let payload = random.pick(&[rank, rank, rank, states - 1, states, states + 1, any >> 4]);
    match random.below(10) {
        0 => any,
        1 => (any & 0xf000_0000) | 1,
        2 | 3 => 9 << 28,
        4 | 5 => 10 << 28,
        _ => 8 << 28 | payload,
    }
}
