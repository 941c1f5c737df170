//! Calls over tables of bonds: the port reads its bonds as the Rust does that has them at hand.
//!
//! The port's functions check their whole design and every lent cell at every call; what that costs is
//! a row of its own, the same call where only the last check fails.

use crate::both::Both;
use crate::measure::{measure, Row, Times};
use crate::{designs, searches};
use mujplesten as mj;
use std::hint::black_box;
use std::rc::Rc;

const BONDS_KEPT: &str = "nothing; the Rust has all its bonds at hand, the port its tables";
const BESIDE: &str = "nothing; on the left the port over the design, on the right over tables";
const CHECKS: &str = "nothing; the port on both sides: the checks over tables, and the call";

/// Tables that were filled with a design's bonds.
pub struct Tables {
    strands: Vec<f64>,
    scaffold: Vec<f64>,
}

impl Tables {
    fn of(both: &Both) -> Self {
        let (positions, strands) = (both.lent.positions(), both.lent.strands());
        let mut tables = Tables {
            strands: vec![0.0; strands * strands],
            scaffold: vec![0.0; positions * strands],
        };
        let mut place = 0;
        let (pairs, sites) = (&mut tables.strands, &mut tables.scaffold);
        let number = mj::bond_tables(both.port(), pairs, sites, &mut place);
        assert_eq!(number, 0);
        tables
    }

    fn lent(&self) -> mj::Bonds<'_> {
        mj::Bonds {
            strands: &self.strands,
            scaffold: &self.scaffold,
        }
    }
}

pub fn rows() -> Vec<Row> {
    let stated = Rc::new(designs::largest());
    let mut rows = vec![state_energies(&stated), checks(&stated)];
    rows.extend(searches::beside().into_iter().map(search));
    rows
}

/// The state energy over tables, beside the Rust with its bonds at hand.
fn state_energies(stated: &Rc<designs::Stated>) -> Row {
    let lent = &stated.both.lent;
    let (positions, strands) = (lent.positions(), lent.strands());
    let (rust_side, port_side) = (stated.clone(), stated.clone());
    let states: Vec<Vec<u32>> = stated.states.iter().map(|s| designs::tiles(s)).collect();
    let tables = Tables::of(&stated.both);
    Row {
        label: format!("state energy over tables, {positions} x {strands}"),
        cleared: BONDS_KEPT,
        inputs: states.len(),
        rust: Box::new(move || {
            for state in &states {
                black_box(rust_side.both.rust.borrow().p_g_system(black_box(state)));
            }
        }),
        port: Box::new(move || {
            for state in &port_side.states {
                black_box(energy_over(port_side.both.port(), &tables, state));
            }
        }),
    }
}

fn energy_over(design: mj::Design, tables: &Tables, state: &[u8]) -> (u32, f64) {
    let (mut place, mut energy) = (0, 0.0);
    let (design, state) = (black_box(design), black_box(state));
    let number = mj::state_energy_over(design, tables.lent(), state, &mut place, &mut energy);
    (number, energy)
}

/// What the checks of design and tables are of it: of a potential that is out of its range, which is
/// looked at last, the call is refused with nothing else done.
fn checks(stated: &Rc<designs::Stated>) -> Row {
    let tables = Rc::new(Tables::of(&stated.both));
    let lent = &stated.both.lent;
    let (positions, strands) = (lent.positions(), lent.strands());
    let friend = (0..positions)
        .flat_map(|position| lent.friends(position))
        .max();
    let mut unfit = lent.potentials.clone();
    unfit[usize::from(friend.expect("a friend somewhere"))] = 1025.0;
    let (left, right) = ((stated.clone(), tables.clone()), (stated.clone(), tables));
    Row {
        label: format!("the checks, and state energy, {positions} x {strands}"),
        cleared: CHECKS,
        inputs: stated.states.len(),
        rust: Box::new(move || {
            for state in &left.0.states {
                let design = mj::Design {
                    amounts: &unfit,
                    ..left.0.both.port()
                };
                let told = energy_over(design, &left.1, state);
                assert_eq!(black_box(told).0, 17);
            }
        }),
        port: Box::new(move || {
            for state in &right.0.states {
                black_box(energy_over(right.0.both.port(), &right.1, state));
            }
        }),
    }
}

/// The state energy over tables without its checks, beside the Rust.
pub fn remarks() -> Vec<String> {
    let stated = Rc::new(designs::largest());
    let Times { rust, .. } = measure(&mut state_energies(&stated)).least;
    let Times {
        rust: checks,
        port: whole,
    } = measure(&mut checks(&stated)).least;
    let rest = whole - checks;
    vec![format!(
        "port, state energy over tables, {whole:.1} ns; its checks {checks:.1}; the rest {rest:.1}, over the Rust's {rust:.1}: {:.2}",
        rest / rust
    )]
}

/// The port's search over the design, and over tables.
fn search((label, both): (String, Rc<Both>)) -> Row {
    let tables = Tables::of(&both);
    let mut configuration = vec![0; both.lent.positions()];
    let over = both.clone();
    Row {
        label: format!("{label}, over tables"),
        cleared: BESIDE,
        inputs: 1,
        rust: searches::search_of_port(&both),
        port: Box::new(move || {
            let (mut place, mut energy) = (0, 0.0);
            let design = black_box(over.port());
            let entries = &mut configuration;
            let number = mj::search_over(design, tables.lent(), entries, &mut place, &mut energy);
            black_box((number, energy));
        }),
    }
}
