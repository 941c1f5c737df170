//! State energies and counts of designs.
//!
//! The port's function checks its whole design at every call, both tables included, and keeps
//! nothing; the Rust checks nothing and keeps each bond that it has worked out.

use crate::both::{ambient, Both};
use crate::measure::Row;
use compare::designs::{design, Shape, Sort};
use compare::judge::design::{Lent, CELLS};
use compare::random::Random;
use mujplesten as mj;
use std::hint::black_box;
use std::rc::Rc;

/// States that a run goes through in turn.
const STATES: usize = 64;

const BONDS_CLEARED: &str = "the Rust's bonds, by empty_cache, timed with the call";
const BONDS_KEPT: &str = "nothing; the Rust has all its bonds at hand";
const LISTED: &str = "nothing; the Rust lists all states to count them, the port counts";

pub fn rows() -> Vec<Row> {
    let mut random = Random::new(5);
    let designs = [(8, 9), (32, 24), (128, 64)];
    let designs =
        designs.map(|(positions, strands)| Rc::new(real(&mut random, positions, strands)));
    let mut rows = vec![];
    for cleared in [BONDS_CLEARED, BONDS_KEPT] {
        rows.extend(designs.iter().map(|stated| state_energies(stated, cleared)));
    }
    rows.extend([4, 10, 16].map(count));
    rows
}

/// A design, and states of it.
pub struct Stated {
    pub both: Both,
    pub states: Vec<Vec<u8>>,
}

/// One of 128 positions and 64 strands.
pub fn largest() -> Stated {
    real(&mut Random::new(6), 128, 64)
}

/// A design with real energies, and states that are occupied wherever there is a friend.
fn real(random: &mut Random, positions: usize, strands: usize) -> Stated {
    let shape = Shape {
        positions,
        strands,
        glues: 64.min(2 * strands),
        cells: 24 * strands,
    };
    let both = Both::new(design(random, Sort::Real, &shape, ambient()));
    let mut states = vec![];
    for _ in 0..STATES {
        let occupant = |position| match both.lent.friends(position) {
            friends if friends.is_empty() => 0,
            friends => random.pick(&friends),
        };
        let state: Vec<u8> = (0..positions).map(occupant).collect();
        let energy = both.rust.borrow().p_g_system(&tiles(&state));
        // Times of different answers would say nothing.
        let (mut place, mut told) = (0, 0.0);
        let number = mj::state_energy(both.port(), &state, &mut place, &mut told);
        assert_eq!((number, told.to_bits()), (0, energy.to_bits()));
        states.push(state);
    }
    Stated { both, states }
}

pub fn tiles(state: &[u8]) -> Vec<u32> {
    state.iter().map(|strand| u32::from(*strand)).collect()
}

fn state_energies(stated: &Rc<Stated>, cleared: &'static str) -> Row {
    let lent = &stated.both.lent;
    let (positions, strands) = (lent.positions(), lent.strands());
    let states: Vec<Vec<u32>> = stated.states.iter().map(|state| tiles(state)).collect();
    let (rust_side, port_side) = (stated.clone(), stated.clone());
    Row {
        label: format!("state energy, {positions} positions, {strands} strands"),
        cleared,
        inputs: STATES,
        rust: Box::new(move || {
            for state in &states {
                if cleared == BONDS_CLEARED {
                    rust_side.both.rust.borrow_mut().p_empty_cache();
                }
                black_box(rust_side.both.rust.borrow().p_g_system(black_box(state)));
            }
        }),
        port: Box::new(move || {
            for state in &port_side.states {
                let (mut place, mut energy) = (0, 0.0);
                let design = port_side.both.port();
                let number = mj::state_energy(design, black_box(state), &mut place, &mut energy);
                black_box((number, energy));
            }
        }),
    }
}

/// So many positions of one friend.
fn count(positions: usize) -> Row {
    let ambient = ambient();
    let mut lent = Lent {
        scaffold: vec![1; positions],
        marks: vec![0; positions],
        glues: vec![0, 0, 0, 0, 1, 0],
        dg: vec![0.0; CELLS],
        ds: vec![0.0; CELLS],
        potentials: vec![0.0, -16.0],
        rt: ambient.rt,
        strand_excess: ambient.strand_excess,
        scaffold_excess: ambient.scaffold_excess,
        ..Lent::default()
    };
    lent.dg[65] = -8.0;
    let both = Rc::new(Both::new(lent));
    let listed = both.rust.borrow().system_states().len();
    let (mut place, mut count) = (0, 0);
    let number = mj::states(both.port(), &mut place, &mut count);
    assert_eq!((number, count), (0, listed as u64));
    let (rust_side, port_side) = (both.clone(), both);
    Row {
        label: format!("count of {listed} states"),
        cleared: LISTED,
        inputs: 1,
        rust: Box::new(move || {
            black_box(rust_side.rust.borrow().system_states().len());
        }),
        port: Box::new(move || {
            let (mut place, mut count) = (0, 0);
            let design = black_box(port_side.port());
            black_box((mj::states(design, &mut place, &mut count), count));
        }),
    }
}
