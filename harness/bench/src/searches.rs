//! The search: the Rust with its caches at hand, and after `update_system`, which empties them.
//!
//! One C function stands beside one call of the Rust: it works out its whole call, writes the
//! configuration and answers the energy. It checks its whole design and keeps nothing, so it has one
//! time; the Rust checks nothing.

use crate::both::{ambient, Both};
use crate::measure::{measure, Row, Times};
use compare::judge::design::{Lent, CELLS};
use compare::random::Random;
use mujplesten as mj;
use std::hint::black_box;
use std::rc::Rc;

const WARM: &str = "nothing; the Rust has friends and bonds at hand";
const COLD: &str = "the Rust's friends and bonds, by update_system, timed with the call";

/// Positions, user strands, and friends of each position.
const DESIGNS: [(usize, usize, usize); 4] = [(128, 61, 61), (128, 60, 4), (20, 60, 3), (20, 3, 3)];

/// All of 61 friends: the time for a position is to be the same.
const LENGTHS: [usize; 4] = [16, 32, 64, 128];

pub fn rows() -> Vec<Row> {
    let mut rows = vec![];
    for cleared in [WARM, COLD] {
        for (positions, strands, friends) in DESIGNS {
            let label = format!("search, {positions} x {friends} friends of {strands} strands");
            let both = Rc::new(settling(positions, strands, friends));
            rows.push(row(label, &both, cleared));
        }
    }
    for positions in LENGTHS {
        let label = format!("search, {positions} x 61 friends");
        rows.push(row(label, &Rc::new(settling(positions, 61, 61)), COLD));
    }
    rows
}

/// The designs whose search is timed over tables too, each with its label.
pub fn beside() -> Vec<(String, Rc<Both>)> {
    let one = |(positions, strands, friends)| {
        let label = format!("search, {positions} x {friends} of {strands}");
        (label, Rc::new(settling(positions, strands, friends)))
    };
    DESIGNS.into_iter().map(one).collect()
}

/// What the rows do not show: times for a position, and how much of the smallest is the check.
pub fn remarks() -> Vec<String> {
    let mut remarks = vec!["port, search of 61 friends, ns for a position:".to_string()];
    for positions in LENGTHS {
        let both = Rc::new(settling(positions, 61, 61));
        let least = measure(&mut row(String::new(), &both, WARM)).least;
        let for_one = least.port / positions as f64;
        remarks.push(format!("{positions:44} {for_one:9.1}"));
    }
    let smallest = Rc::new(settling(20, 3, 3));
    let check = count_of_no_position(&smallest);
    let Times {
        rust: check,
        port: whole,
    } = measure(&mut beside_the_search(&smallest, check)).least;
    let share = |part: f64, whole: f64| format!("{part:.1}, or {:.0} %", 100.0 * part / whole);
    remarks.push(format!("port, 20 x 3 friends of 3 strands: {whole:.1} ns"));
    let checked = share(check, whole);
    remarks.push(format!("  the check of {} cells: {checked}", 2 * CELLS));
    let fixed = search_of_no_position(&smallest);
    let Times {
        rust: fixed,
        port: whole,
    } = measure(&mut beside_the_search(&smallest, fixed)).least;
    let fixed = share(fixed, whole);
    remarks.push(format!("  all that hangs on no position: {fixed}"));
    remarks
}

/// As rgrow's own designs are: strands in groups that share a bottom glue, a scaffold that goes
/// through the groups in turn, and side glues of which each binds each.
pub fn settling(positions: usize, strands: usize, friends: usize) -> Both {
    let random = &mut Random::new(61);
    let groups = strands / friends;
    let sides = 62 - groups;
    let mut glues = vec![0; 3];
    for strand in 0..strands {
        let [west, bottom, east] = [
            groups + 1 + (2 * strand) % sides,
            1 + strand % groups,
            groups + 1 + (2 * strand + 1) % sides,
        ];
        glues.extend([west, bottom, east].map(|glue| glue as u8));
    }
    let at = ambient();
    let mut lent = Lent {
        scaffold: (0..positions)
            .map(|position| (1 + position % groups) as u8)
            .collect(),
        marks: vec![0; positions],
        glues,
        dg: vec![0.0; CELLS],
        ds: vec![0.0; CELLS],
        potentials: (0..=strands)
            .map(|_| (1e-7 * random.double(0.5, 1.5)).ln())
            .collect(),
        rt: at.rt,
        strand_excess: at.strand_excess,
        scaffold_excess: at.scaffold_excess,
        ..Lent::default()
    };
    for group in 1..=groups {
        lent.dg[65 * group] = random.double(-12.0, -11.0);
        lent.ds[65 * group] = random.double(-0.1, 0.0);
    }
    for row in groups + 1..63 {
        for column in groups + 1..63 {
            lent.dg[64 * row + column] = random.double(-3.0, 0.0);
            lent.ds[64 * row + column] = random.double(-0.05, 0.0);
        }
    }
    let both = Both::new(lent);
    check(&both, friends);
    both
}

/// Times of different answers would say nothing.
fn check(both: &Both, friends: usize) {
    for position in 0..both.lent.positions() {
        assert_eq!(both.lent.friends(position).len(), friends);
    }
    let (settled, energy) = both.rust.borrow().mfe_configuration();
    let mut configuration = vec![0; both.lent.positions()];
    let (mut place, mut told) = (0, 0.0);
    let number = mj::search(both.port(), &mut configuration, &mut place, &mut told);
    assert_eq!((number, told.to_bits()), (0, energy.to_bits()));
    let configuration: Vec<u32> = configuration.into_iter().map(u32::from).collect();
    assert_eq!(configuration, settled);
}

fn row(label: String, both: &Rc<Both>, cleared: &'static str) -> Row {
    let rust_side = both.clone();
    Row {
        label,
        cleared,
        inputs: 1,
        rust: Box::new(move || {
            if cleared == COLD {
                rust_side.rust.borrow_mut().p_update_system();
            }
            black_box(black_box(&rust_side).rust.borrow().mfe_configuration());
        }),
        port: search_of_port(both),
    }
}

pub fn search_of_port(both: &Rc<Both>) -> Box<dyn FnMut()> {
    let both = both.clone();
    let mut configuration = vec![0; both.lent.positions()];
    Box::new(move || {
        let (mut place, mut energy) = (0, 0.0);
        let design = black_box(both.port());
        let number = mj::search(design, &mut configuration, &mut place, &mut energy);
        black_box((number, energy));
    })
}

/// The same tables without a position.
fn without_positions(both: &Both) -> mj::Design<'_> {
    mj::Design {
        scaffold: &[],
        marks: &[],
        ..both.port()
    }
}

/// Of which nothing is left to do after the check.
fn count_of_no_position(both: &Rc<Both>) -> Box<dyn FnMut()> {
    let both = both.clone();
    Box::new(move || {
        let (mut place, mut count) = (0, 0);
        let design = black_box(without_positions(&both));
        black_box((mj::states(design, &mut place, &mut count), count));
    })
}

/// The check, and what the search sets up before it comes to a position.
fn search_of_no_position(both: &Rc<Both>) -> Box<dyn FnMut()> {
    let both = both.clone();
    Box::new(move || {
        let (mut place, mut energy) = (0, 0.0);
        let design = black_box(without_positions(&both));
        let number = mj::search(design, &mut [], &mut place, &mut energy);
        black_box((number, energy));
    })
}

/// The port on both sides: a part of its work, and the whole search.
fn beside_the_search(both: &Rc<Both>, part: Box<dyn FnMut()>) -> Row {
    Row {
        label: String::new(),
        cleared: WARM,
        inputs: 1,
        rust: part,
        port: search_of_port(both),
    }
}
