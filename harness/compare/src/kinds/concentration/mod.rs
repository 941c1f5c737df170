//! Designs with concentrations. The Rust knows potentials alone: it is asked with the port's own
//! logarithms of the concentrations, and must give the same bits. Every call is asked, with faults too,
//! and held against the judge; and the port's logarithms against the judge's.

mod fixed;

use super::ceiling::ask_under;
use super::design::{ask_about, WALKED};
use super::energies::Energies;
use super::raw::{ask_every_call, damage, Arguments};
use super::ring::Rings;
use super::sheet::Sheets;
use super::sums::Sums;
use super::tables::{ask_to_fill, BondTables, Lending};
use super::{Ask, AskOracle, AskPort, Kind};
use crate::ambients::{self, Ambients, ROUND_RTS};
use crate::designs::{blocks, marked, Ambient, Shape, Sort, SORTS};
use crate::judge::design::{Lent, CONCENTRATIONS, MOST_STATES};
use crate::judge::search::Reading;
use crate::judge::tables::Tables;
use crate::logarithms::{out_of_range, Pool, Seen};
use crate::random::Random;
use std::cell::{Cell, RefCell};
use std::rc::Rc;

#[derive(Default)]
pub struct Concentrations {
    ambients: RefCell<Ambients>,
    pool: RefCell<Pool>,
    seen: Rc<Seen>,
    tables: BondTables,
    rings: Rings,
    sheets: Sheets,
    sums: Sums,
    energies: Energies,
    designs: Cell<u64>,
    /// Those with a concentration out of range that is not looked at.
    unread: Cell<u64>,
    /// Those that settle otherwise where the concentrations are read as potentials.
    moved: Cell<u64>,
}

/// Designs of each size in one round that both programs are given.
const SMALL: usize = 600;
const MIDDLING: usize = 10;
const FULL: usize = 1;

/// Designs in one round that the port is asked for every call, up to two faults in each.
const OF_EVERY_CALL: usize = 200;

impl Kind for Concentrations {
    fn name(&self) -> &'static str {
        "concentration"
    }

    fn replies(&self) -> &'static [u32] {
        &[0, 1, 9, 10, 11, 12, 13, 15, 16, 18, 19, 20, 23]
    }

    fn prepare(&self, oracle: &mut AskOracle) -> Result<(), String> {
        *self.ambients.borrow_mut() = ambients::ask(oracle)?;
        Ok(())
    }

    fn prepare_by_port(&self, port: &mut AskPort) -> Result<(), String> {
        *self.pool.borrow_mut() = Pool::ask(port, &self.seen)?;
        Ok(())
    }

    /// One design of each number of positions, then what is just in and just out.
    fn fixed(&self, ask: &mut Ask) {
        let random = &mut Random::new(15);
        for positions in 0..=128 {
            let shape = Shape {
                positions,
                strands: 4,
                glues: 4,
                cells: 2,
            };
            self.of_both(random, &shape, ask);
        }
        fixed::all(self, ask);
    }

    fn random(&self, random: &mut Random, ask: &mut Ask) {
        for number in 0..SMALL + MIDDLING + FULL {
            let shape = match number {
                ..SMALL => Shape::small(random),
                number if number < SMALL + MIDDLING => Shape::middling(random),
                _ => Shape::full(random),
            };
            self.of_both(random, &shape, ask);
        }
        for _ in 0..OF_EVERY_CALL {
            let shape = match random.once_in(10) {
                true => Shape::middling(random),
                false => Shape::small(random),
            };
            let (sort, ambient) = (random.pick(&SORTS), Ambient::any(random));
            let mut lent = self.drawn(random, sort, &shape, ambient);
            for _ in 0..random.below(3) {
                spoil(random, &mut lent);
            }
            let usual = Arguments::usual(&lent);
            ask_every_call(&lent, &usual, ask);
            self.ask_further(random, &lent, usual.configuration, ask);
        }
    }

    fn made(&self) -> Vec<(&'static str, u64)> {
        vec![
            ("designs with concentrations", self.designs.get()),
            ("with one that is not looked at", self.unread.get()),
            ("that settle otherwise by potentials", self.moved.get()),
        ]
    }

    fn watched(&self) -> Option<Result<String, String>> {
        Some(self.seen.said())
    }
}

fn add(count: &Cell<u64>, one: bool) {
    count.set(count.get() + u64::from(one));
}

impl Concentrations {
    /// A design that is admitted, and tables that are filled from it.
    fn of_both(&self, random: &mut Random, shape: &Shape, ask: &mut Ask) {
        let sort = random.pick(&SORTS);
        let mut ambients = self.ambients.borrow().clone();
        if sort == Sort::Dyadic {
            ambients.retain(|(_, ambient)| ROUND_RTS.contains(&ambient.rt));
        }
        let (kelvin, ambient) = random.pick(&ambients);
        let lent = self.drawn(random, sort, shape, ambient);
        self.count(&lent);
        let tables = &self.tables;
        tables.over_filled_tables(random, kelvin, lent.clone(), shape.glues, ask);
        ask_about(random, kelvin, lent, shape.glues, ask);
    }

    /// Some have blocked positions. What is not looked at is out of range as often as not.
    fn drawn(&self, random: &mut Random, sort: Sort, shape: &Shape, ambient: Ambient) -> Lent {
        let marks = match random.once_in(4) {
            true => blocks(random, shape.positions),
            false => vec![0; shape.positions],
        };
        let mut lent = marked(random, sort, shape, ambient, marks);
        let pool = self.pool.borrow();
        let one = |strand: usize| {
            let read = lent.is_somewhere_friend(strand);
            match (read || random.once_in(2), sort) {
                (false, _) => (random.pick(&out_of_range()), f64::NAN),
                (true, Sort::Dyadic) => pool.of_few(random),
                (true, _) => pool.pick(random),
            }
        };
        let pairs: Vec<(f64, f64)> = (0..shape.strands).map(one).collect();
        (lent.concentrations, lent.potentials) = pairs.into_iter().unzip();
        lent.given = CONCENTRATIONS;
        lent
    }

    fn count(&self, lent: &Lent) {
        add(&self.designs, true);
        let unread = lent.potentials.iter().any(|x| x.is_nan());
        add(&self.unread, unread);
        let mut turned = lent.clone();
        turned.potentials = turned.concentrations.clone();
        let settled = |lent: &Lent| lent.search(Reading::Document).1;
        add(&self.moved, settled(lent) != settled(&turned));
    }

    /// The calls over tables, for rings, of a job sheet, under a ceiling, both sums, and those of
    /// energies.
    fn ask_further(&self, random: &mut Random, lent: &Lent, state: Vec<u8>, ask: &mut Ask) {
        let (positions, strands) = (lent.positions(), lent.strands());
        let tables = Tables {
            strands: vec![0.25; strands * strands],
            scaffold: vec![-0.75; positions * strands],
        };
        ask_to_fill(lent, strands * strands, positions * strands, ask);
        Lending::new(lent.clone(), tables, Some(state)).ask_all(ask);
        self.rings.about(random, lent.clone(), ask);
        self.sheets.ask_worked(lent, ask);
        let is_sized = lent.count_verdict().number() != 1;
        if is_sized {
            self.sums.all_of(random, lent, ask);
            self.energies.of_one(random, lent, ask);
        }
        if !is_sized || !(WALKED + 1..=MOST_STATES).contains(&lent.count()) {
            ask_under(lent, &[0.0, -1e300, f64::NAN], positions, ask);
        }
    }
}

/// A concentration that is out of range, another kind of amounts, or a fault of the rest: the potentials
/// are not lent.
fn spoil(random: &mut Random, lent: &mut Lent) {
    let strand = random.below(8);
    match (random.below(12), lent.concentrations.get_mut(strand)) {
        (0, _) => lent.given = random.pick(&[2, 3, 256, u32::MAX]),
        (1..=4, Some(concentration)) => *concentration = random.pick(&out_of_range()),
        _ => {
            let logarithms = lent.potentials.clone();
            damage::of_a_design(random, lent);
            lent.potentials = logarithms;
        }
    }
}
