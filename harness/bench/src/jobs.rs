//! Sheets of 64 jobs, and the first state under a ceiling.
//!
//! A sheet checks its design once, and works out its options, its bonds and its search once.

use crate::both::{ambient, Both};
use crate::designs::tiles;
use crate::measure::Row;
use crate::searches::settling;
use compare::judge::design::{Lent, CELLS};
use compare::random::Random;
use mujplesten as mj;
use std::hint::black_box;
use std::rc::Rc;

const JOBS: usize = 64;

const BONDS_KEPT: &str =
    "nothing; the Rust has all its bonds at hand, the port checks its design once";
const BESIDE: &str = "nothing; on the left the port's 64 direct calls, on the right one sheet";
const LISTED: &str = "nothing; the Rust lists all states with an energy for each";

pub fn rows() -> Vec<Row> {
    vec![
        state_energies(),
        mixed(20, 60, 3),
        mixed(128, 60, 4),
        none_under(),
    ]
}

/// A sheet, and what is lent for it.
struct Sheet {
    jobs: Vec<u32>,
    numbers: Vec<u32>,
    energies: Vec<f64>,
    counts: Vec<u64>,
    stretches: Vec<u8>,
}

impl Sheet {
    fn new(jobs: Vec<u32>, positions: usize) -> Self {
        let count = jobs.len();
        Sheet {
            jobs,
            numbers: vec![0; count],
            energies: vec![0.0; count],
            counts: vec![0; count],
            stretches: vec![0; count * positions],
        }
    }

    fn ask(&mut self, design: mj::Design) {
        let sheet = mj::Sheet {
            jobs: black_box(&self.jobs),
            numbers: &mut self.numbers,
            energies: &mut self.energies,
            counts: &mut self.counts,
            stretches: &mut self.stretches,
        };
        assert_eq!(mj::job_sheet(design, sheet), 0);
        black_box(&self.energies);
    }
}

/// On 20 positions of 3 friends, of 60 strands, every other one blocked: all open there are more
/// states than have ranks, so there are just as many as may be, 4^10.
fn state_energies() -> Row {
    let mut both = settling(20, 60, 3);
    for mark in both.lent.marks.iter_mut().step_by(2) {
        *mark = 1;
    }
    let random = &mut Random::new(63);
    let ranks: Vec<u64> = (0..JOBS).map(|_| random.below(1 << 20) as u64).collect();
    let states: Vec<Vec<u32>> = ranks
        .iter()
        .map(|rank| tiles(&both.lent.state(*rank)))
        .collect();
    let jobs = ranks.iter().map(|rank| 8 << 28 | *rank as u32).collect();
    let mut sheet = Sheet::new(jobs, both.lent.positions());
    sheet.ask(both.port());
    // Times of different answers would say nothing.
    for (state, energy) in states.iter().zip(&sheet.energies) {
        let of_rust = both.rust.borrow().p_g_system(state);
        assert_eq!(of_rust.to_bits(), energy.to_bits());
    }
    let both = Rc::new(both);
    let rust_side = both.clone();
    Row {
        label: "sheet of 64 energies, 20 x 3, half blocked".to_string(),
        cleared: BONDS_KEPT,
        inputs: JOBS,
        rust: Box::new(move || {
            for state in &states {
                black_box(rust_side.rust.borrow().p_g_system(black_box(state)));
            }
        }),
        port: Box::new(move || sheet.ask(black_box(both.port()))),
    }
}

/// State energies at ranks, searches and counts in turn. There are more states than have ranks, so
/// that only the searches are answered.
fn mixed(positions: usize, strands: usize, friends: usize) -> Row {
    let both = Rc::new(settling(positions, strands, friends));
    let jobs: Vec<u32> = (0..JOBS as u32)
        .map(|job| [8 << 28 | job, 9 << 28, 10 << 28][job as usize % 3])
        .collect();
    let mut sheet = Sheet::new(jobs.clone(), positions);
    let direct = both.clone();
    let mut entries = vec![0; positions];
    Row {
        label: format!("sheet of 64 jobs, {positions} x {friends} of {strands}"),
        cleared: BESIDE,
        inputs: JOBS,
        rust: Box::new(move || {
            for job in &jobs {
                black_box(direct_call(direct.port(), black_box(*job), &mut entries));
            }
        }),
        port: Box::new(move || sheet.ask(black_box(both.port()))),
    }
}

fn direct_call(design: mj::Design, job: u32, entries: &mut [u8]) -> (u32, f64, u64) {
    let (mut place, mut energy, mut count) = (0, 0.0, 0);
    let number = match job >> 28 {
        8 => match mj::state(design, u64::from(job & 0x0fff_ffff), entries, &mut place) {
            0 => mj::state_energy(design, entries, &mut place, &mut energy),
            number => number,
        },
        9 => mj::search(design, entries, &mut place, &mut energy),
        _ => mj::states(design, &mut place, &mut count),
    };
    (number, energy, count)
}

/// 20 positions of one friend, and a ceiling under every state.
fn none_under() -> Row {
    let at = ambient();
    let mut lent = Lent {
        scaffold: vec![1; 20],
        marks: vec![0; 20],
        glues: vec![0, 0, 0, 2, 1, 3],
        dg: vec![0.0; CELLS],
        ds: vec![0.0; CELLS],
        potentials: vec![0.0, -16.0],
        rt: at.rt,
        strand_excess: at.strand_excess,
        scaffold_excess: at.scaffold_excess,
        ..Lent::default()
    };
    (lent.dg[65], lent.dg[3 * 64 + 2]) = (-8.0, -0.5);
    let both = Rc::new(Both::new(lent));
    let rust_side = both.clone();
    let mut entries = [0; 20];
    let ceiling = f64::MIN;
    Row {
        label: "no state under a ceiling, of 1,048,576".to_string(),
        cleared: LISTED,
        inputs: 1,
        rust: Box::new(move || {
            let rust = rust_side.rust.borrow();
            let under = |state: &Vec<u32>| rust.p_g_system(state) <= black_box(ceiling);
            assert!(!rust.system_states().iter().any(under));
        }),
        port: Box::new(move || {
            let (mut place, mut energy) = (0, 0.0);
            let design = black_box(both.port());
            let at = (&mut place, &mut energy);
            let number = mj::first_state_under(design, ceiling, &mut entries, at.0, at.1);
            assert_eq!(number, 23);
        }),
    }
}
