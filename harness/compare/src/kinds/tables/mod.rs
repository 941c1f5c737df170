//! Tables of bonds beside a design. Filled ones hold the Rust's bonds, and over them every call answers
//! what the Rust answers of the design; over cells of any other content the judge has the answers.

mod fixed;
mod lending;

use super::{Ask, AskOracle, Kind};
use crate::ambients::{self, Ambients, ROUND_RTS};
use crate::designs::{blocks, lines_of_both, lines_of_port, marked, Ambient, Shape, Sort, SORTS};
use crate::doubles::{not_finite, of_any_size};
use crate::judge::design::{Lent, CELLS};
use crate::judge::search::Reading;
use crate::judge::tables::{Tabled, Tables};
use crate::judge::Verdict;
use crate::question::{Expected, Question};
use crate::random::Random;
pub(super) use lending::{ask_to_fill, Lending};
use protocol::{bits, joined};
use std::cell::{Cell, RefCell};
use std::rc::Rc;

#[derive(Default)]
pub struct BondTables {
    ambients: RefCell<Ambients>,
    filled: Cell<u64>,
    others: Cell<u64>,
    /// Those that settle otherwise over lent cells than over the design's own bonds.
    moved: Cell<u64>,
    /// Those whose energy hangs on a bond with an empty place.
    with_nobody: Cell<u64>,
}

/// Designs of each size in one round, of filled tables and of others.
const SMALL: usize = 2490;
const MIDDLING: usize = 15;
const FULL: usize = 2;

/// The Rust lists all states for a question about them.
const LISTED_BY_THE_RUST: u128 = 4096;

/// The most that a lent bond may be in size.
const MOST_BOND: f64 = 80_000.0;

impl Kind for BondTables {
    fn name(&self) -> &'static str {
        "tables"
    }

    fn replies(&self) -> &'static [u32] {
        &[0, 1, 9, 10, 11, 12, 13, 16, 17]
    }

    fn prepare(&self, oracle: &mut AskOracle) -> Result<(), String> {
        *self.ambients.borrow_mut() = ambients::ask(oracle)?;
        Ok(())
    }

    fn fixed(&self, ask: &mut Ask) {
        fixed::all(ask);
    }

    fn random(&self, random: &mut Random, ask: &mut Ask) {
        for number in 0..SMALL + MIDDLING + FULL {
            let shape = match number {
                ..SMALL => Shape::small(random),
                number if number < SMALL + MIDDLING => Shape::middling(random),
                _ => Shape::full(random),
            };
            let sort = random.pick(&SORTS);
            let (kelvin, ambient) = self.ambient(random, sort);
            let marks = match random.once_in(4) {
                true => blocks(random, shape.positions),
                false => vec![0; shape.positions],
            };
            let lent = marked(random, sort, &shape, ambient, marks);
            self.over_other_cells(random, &lent, sort, ask);
            self.over_filled_tables(random, kelvin, lent, shape.glues, ask);
        }
    }

    fn made(&self) -> Vec<(&'static str, u64)> {
        vec![
            ("designs over filled tables", self.filled.get()),
            ("designs over other cells", self.others.get()),
            ("that settle otherwise there", self.moved.get()),
            ("with a bond of an empty place", self.with_nobody.get()),
        ]
    }
}

fn add(count: &Cell<u64>, one: bool) {
    count.set(count.get() + u64::from(one));
}

impl BondTables {
    /// Dyadic designs tie at round RTs alone.
    fn ambient(&self, random: &mut Random, sort: Sort) -> (f64, Ambient) {
        let mut ambients = self.ambients.borrow().clone();
        if sort == Sort::Dyadic {
            ambients.retain(|(_, ambient)| ROUND_RTS.contains(&ambient.rt));
        }
        random.pick(&ambients)
    }

    /// The design is sent to both; the Rust, which knows no marks, is asked for its bonds, and for all
    /// else where every position is open.
    pub(super) fn over_filled_tables(
        &self,
        random: &mut Random,
        kelvin: f64,
        lent: Lent,
        glues: usize,
        ask: &mut Ask,
    ) {
        add(&self.filled, true);
        let lines = lines_of_both(&lent, glues);
        let sent: Rc<str> = lines_of_port(&lent, glues).into();
        ask(Question {
            port: format!("{sent}d.build"),
            oracle: Some(format!("{lines}d.temp K {}\nd.build", bits(kelvin))),
            expected: Expected::Judged(Verdict::Admitted),
            about: None,
        });
        let both = |port: String, oracle: String| Question {
            port,
            oracle: Some(oracle),
            expected: Expected::Judged(Verdict::Admitted),
            about: Some(sent.clone()),
        };
        ask(both("t.fill strands".into(), "sbonds".into()));
        ask(both("t.fill scaffold".into(), "cbonds".into()));
        let state = any_state(random, &lent);
        if lent.has_blocked() {
            let tables = lent.filled();
            Lending {
                sent,
                lent,
                tables,
                state,
            }
            .ask_all(ask);
            return;
        }
        let word = joined(&state, ",");
        ask(both(format!("t.gsys {word}"), format!("gsys {word}")));
        ask(both("t.mfe".into(), "mfe".into()));
        let count = lent.count();
        if count <= LISTED_BY_THE_RUST {
            ask(both("t.nstates".into(), "nstates".into()));
            let rank = random.below(count as usize);
            ask(both(format!("t.state {rank}"), format!("state {rank}")));
        }
    }

    fn over_other_cells(&self, random: &mut Random, lent: &Lent, sort: Sort, ask: &mut Ask) {
        let mut lent = lent.clone();
        let own = lent.filled();
        let mut tables = Tables {
            strands: cells(random, sort, &own.strands),
            scaffold: cells(random, sort, &own.scaffold),
        };
        if random.once_in(8) {
            spoil(random, &mut lent, &mut tables);
        }
        let state = match random.once_in(8) || lent.strands() == 0 {
            true => vec![1; lent.positions()],
            false => any_state(random, &lent),
        };
        let lending = Lending::new(lent, tables, Some(state));
        self.count(&lending);
        lending.ask_all(ask);
    }

    fn count(&self, lending: &Lending) {
        let over = lending.over();
        add(&self.others, true);
        if over.search_verdict(lending.lent.positions()) != Verdict::Admitted {
            return;
        }
        let (energy, settled) = over.search();
        let own = lending.lent.search(Reading::Document).1;
        add(&self.moved, own != settled);
        let mut without = lending.tables.clone();
        let strands = lending.lent.strands();
        for strand in 0..strands {
            without.strands[strand] = 0.0;
            without.strands[strand * strands] = 0.0;
        }
        let bare = Tabled {
            lent: &lending.lent,
            tables: &without,
        };
        add(&self.with_nobody, bare.search() != (energy, settled));
    }
}

/// Cells of the design's own sort, its own bonds among them, the ends of the range, and zeros.
fn cells(random: &mut Random, sort: Sort, own: &[f64]) -> Vec<f64> {
    let one = |own: &f64| match random.below(8) {
        0 => *own,
        1 => random.pick(&[0.0, -0.0]),
        2 => random.pick(&[MOST_BOND, -MOST_BOND]),
        3 => of_any_size(random),
        _ if sort == Sort::Dyadic => (random.within(0..=32) as f64 - 16.0) / 4.0,
        _ => random.double(-40.0, 10.0),
    };
    own.iter().map(one).collect()
}

/// One fault of the tables, of the design, or of both.
fn spoil(random: &mut Random, lent: &mut Lent, tables: &mut Tables) {
    let which = random.below(8);
    if which < 4 || which == 7 {
        let mut odd = not_finite();
        odd.extend([MOST_BOND.next_up(), -MOST_BOND.next_up(), 1e300]);
        let odd = random.pick(&odd);
        let cells = match random.once_in(2) || tables.scaffold.is_empty() {
            true => &mut tables.strands,
            false => &mut tables.scaffold,
        };
        let cell = random.below(cells.len());
        cells[cell] = odd;
    }
    match which {
        4 => drop(tables.strands.pop()),
        5 => tables.scaffold.push(0.0),
        6 => lent.ds[random.below(CELLS)] = -9.0,
        7 => lent.rt = random.pick(&[0.0, 9.0, f64::NAN]),
        _ => (),
    }
}

/// Mostly occupied, so that sums are long.
fn any_state(random: &mut Random, lent: &Lent) -> Vec<u8> {
    let one = |position| {
        let mut options = lent.friends(position);
        if options.is_empty() || random.once_in(4) {
            options.push(0);
        }
        random.pick(&options)
    };
    (0..lent.positions()).map(one).collect()
}
