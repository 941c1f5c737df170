//! Which number refuses a design, and the place that comes with it: places that were worked out by
//! hand, two faults at once, and blocked positions.

use crate::{Checks, DOUBLE, WHOLE};
use mujplesten as mj;

/// A design whose numbers can be changed.
#[derive(Clone)]
struct Design {
    scaffold: Vec<u8>,
    marks: Vec<u8>,
    glues: Vec<u8>,
    dg: Vec<f64>,
    ds: Vec<f64>,
    potentials: Vec<f64>,
    rt: f64,
    strand_excess: f64,
    scaffold_excess: f64,
}

impl Design {
    /// Positions of these glues, seven strands, of which strand k binds glue k with dG −2, potentials
    /// −1, RT 0.5.
    fn of(scaffold: &[u8]) -> Self {
        let mut design = Design {
            scaffold: scaffold.to_vec(),
            marks: vec![0; scaffold.len()],
            glues: vec![0; 3],
            dg: vec![0.0; 4096],
            ds: vec![0.0; 4096],
            potentials: vec![f64::NAN],
            rt: 0.5,
            strand_excess: 0.0,
            scaffold_excess: 0.0,
        };
        for strand in 1..8 {
            design.glues.extend([0, strand as u8, 0]);
            design.dg[65 * strand] = -2.0;
            design.potentials.push(-1.0);
        }
        design
    }

    fn with(&self, change: impl Fn(&mut Design)) -> Self {
        let mut changed = self.clone();
        change(&mut changed);
        changed
    }

    fn lent(&self) -> mj::Design<'_> {
        mj::Design {
            scaffold: &self.scaffold,
            marks: &self.marks,
            glues: &self.glues,
            dg: &self.dg,
            ds: &self.ds,
            amounts: &self.potentials,
            given: 0,
            rt: self.rt,
            strand_excess: self.strand_excess,
            scaffold_excess: self.scaffold_excess,
        }
    }
}

/// Number and place.
type Told = (u32, u64);

const ADMITTED: Told = (0, mj::NOWHERE);

/// A refusal without a place.
fn bare(number: u32) -> Told {
    (number, mj::NOWHERE)
}

/// What each call tells of a design: those that have no number of their own, the count, the state at
/// the rank, and both energies of the configuration.
struct Expected {
    others: Told,
    count: Told,
    state: Told,
    energies: Told,
}

impl Expected {
    fn all(told: Told) -> Self {
        Expected {
            others: told,
            count: told,
            state: told,
            energies: told,
        }
    }
}

/// Asks all eight calls.
fn ask(
    checks: &mut Checks,
    what: &str,
    of: &Design,
    rank: u64,
    configuration: &[u8],
    expected: &Expected,
) {
    let design = of.lent();
    let mut see = |call: &str, number: u32, place: u64, expected: Told| {
        checks.reply(&format!("{what}, {call}"), number, expected.0);
        checks.place(&format!("{what}, place of {call}"), place, expected.1);
    };
    let mut entries = vec![0; of.scaffold.len()];
    let (mut place, mut bond, mut energy) = (WHOLE, DOUBLE, DOUBLE);
    let number = mj::strand_bond(design, 1, 2, &mut place, &mut bond);
    see("strand bond", number, place, expected.others);
    if !of.scaffold.is_empty() {
        place = WHOLE;
        let number = mj::scaffold_bond(design, 0, 1, &mut place, &mut bond);
        see("scaffold bond", number, place, expected.others);
        let (mut friends, mut count) = ([0; 64], WHOLE);
        place = WHOLE;
        let number = mj::friends(design, 0, &mut friends, &mut place, &mut count);
        see("friends", number, place, expected.others);
    }
    let mut count = WHOLE;
    place = WHOLE;
    let number = mj::states(design, &mut place, &mut count);
    see("states", number, place, expected.count);
    place = WHOLE;
    let number = mj::state(design, rank, &mut entries, &mut place);
    see("state", number, place, expected.state);
    place = WHOLE;
    let number = mj::state_energy(design, configuration, &mut place, &mut energy);
    see("state energy", number, place, expected.energies);
    place = WHOLE;
    let number = mj::chain_energy(design, configuration, &mut place, &mut bond, &mut energy);
    see("chain energy", number, place, expected.energies);
    place = WHOLE;
    let number = mj::search(design, &mut entries, &mut place, &mut energy);
    see("search", number, place, expected.others);
}

/// As usual: the first state, and nobody anywhere.
fn ask_all(checks: &mut Checks, what: &str, design: &Design, told: Told) {
    let empty = vec![0; design.scaffold.len()];
    ask(checks, what, design, 0, &empty, &Expected::all(told));
}

pub fn places(checks: &mut Checks) {
    worked_out(checks);
    with_an_unfit(checks, "RT", (16, 0), |d| d.rt = 0.0);
    with_an_unfit(checks, "excess", (16, 1), |d| d.strand_excess = f64::NAN);
    with_an_unfit(checks, "potential", (17, 1), |d| d.potentials[1] = 1025.0);
    ends(checks);
    blocked(checks);
}

fn worked_out(checks: &mut Checks) {
    let base = Design::of(&[1, 7]);
    let mut see = |what: &str, told: Told, change: fn(&mut Design)| {
        ask_all(checks, what, &base.with(change), told);
    };
    see("as it is", ADMITTED, |_| {});
    see("row 1, column 1", (9, 65), |d| d.dg[65] = f64::NAN);
    see("row 2, column 1", (9, 129), |d| d.dg[129] = 1025.0);
    see("the first of dS", (9, 4096), |d| d.ds[0] = 9.0);
    see("the last of dS", (9, 8191), |d| d.ds[4095] = -9.0);
    see("dG before dS", (9, 4095), |d| {
        (d.dg[4095], d.ds[0]) = (f64::INFINITY, f64::NAN);
    });
    see("the lower of two", (9, 4100), |d| {
        (d.ds[4], d.ds[64]) = (9.0, f64::NAN);
    });
    see("a cell of row 0", (9, 0), |d| d.dg[0] = f64::NAN);
    see("RT and an excess", (16, 0), |d| {
        (d.rt, d.strand_excess) = (0.0, 2000.0);
    });
    see("both excesses", (16, 1), |d| {
        (d.strand_excess, d.scaffold_excess) = (-1025.0, f64::NAN);
    });
    see("the scaffold's excess", (16, 2), |d| {
        d.scaffold_excess = 1024.0f64.next_up();
    });
    see("a friend's potential", (17, 7), |d| {
        (d.potentials[3], d.potentials[7]) = (f64::NAN, 1025.0);
    });
    see("two friends' potentials", (17, 1), |d| {
        (d.potentials[1], d.potentials[7]) = (f64::NAN, f64::NAN);
    });
    see("potentials of no friend", ADMITTED, |d| {
        (d.potentials[3], d.potentials[6]) = (f64::NAN, f64::INFINITY);
    });
}

/// An ambient or a potential that is out, by itself and with each other fault.
fn with_an_unfit(checks: &mut Checks, what: &str, told: Told, unfit: fn(&mut Design)) {
    let base = Design::of(&[1, 7]).with(unfit);
    let named = |other: &str| format!("{what} and {other}");
    ask_all(checks, what, &base, told);
    ask_all(
        checks,
        &named("a glue of strand 0"),
        &base.with(|d| d.glues[2] = 5),
        bare(10),
    );
    let null = base.with(|d| d.ds[64 * 63] = 5e-324);
    ask_all(checks, &named("a cell of column 0"), &null, bare(10));
    let cell = base.with(|d| (d.ds[65], d.glues[2]) = (f64::NAN, 5));
    ask_all(checks, &named("a cell, and null"), &cell, (9, 4161));
    let stranger = Expected {
        energies: bare(11),
        ..Expected::all(told)
    };
    ask(checks, &named("a stranger"), &base, 0, &[7, 7], &stranger);
    let high = Expected {
        state: bare(13),
        ..Expected::all(told)
    };
    ask(checks, &named("a high rank"), &base, 4, &[1, 7], &high);
    let many = Expected {
        count: bare(12),
        state: bare(12),
        ..Expected::all(told)
    };
    let long = Design::of(&[1; 21]).with(unfit);
    ask(checks, &named("many states"), &long, 4, &[1; 21], &many);
    let with_cell = base.with(|d| d.dg[4095] = f64::NAN);
    let first = Expected::all((9, 4095));
    ask(checks, &named("a cell"), &with_cell, 9, &[7, 7], &first);
}

/// Where nothing else is to be looked at.
fn ends(checks: &mut Checks) {
    let both = |d: &mut Design| (d.scaffold_excess, d.potentials[1]) = (1025.0, f64::NAN);
    let ambient_first = Design::of(&[1]).with(both);
    ask_all(checks, "ambient and potential", &ambient_first, (16, 2));
    let empty = Design::of(&[]).with(both);
    ask_all(checks, "no positions, ambient", &empty, (16, 2));
    let unread = empty.with(|d| d.scaffold_excess = 0.0);
    ask_all(checks, "no positions, potential", &unread, ADMITTED);
    let strand_0 = Design::of(&[1]).with(|d| d.glues[1] = 1);
    ask_all(
        checks,
        "strand 0 a friend, its potential unfit",
        &strand_0,
        bare(10),
    );
    let cell = Design::of(&[1]).with(|d| d.dg[64] = 1.0);
    ask_all(checks, "strand 0 a friend by a cell", &cell, bare(10));
}

/// Marks that are none, and what a blocked place keeps from being looked at.
fn blocked(checks: &mut Checks) {
    let base = Design::of(&[1, 7]).with(|d| (d.rt, d.glues[2]) = (0.0, 5));
    for marks in [vec![], vec![0], vec![0, 0, 0], vec![0, 2], vec![255, 0]] {
        let unfit = base.with(|d| d.marks = marks.clone());
        ask_all(checks, "marks", &unfit, bare(1));
    }
    let first = Design::of(&[1, 7]).with(|d| d.marks = vec![1, 0]);
    let unread = first.with(|d| d.potentials[1] = f64::NAN);
    ask_all(checks, "a potential of a blocked place", &unread, ADMITTED);
    let read = unread.with(|d| d.potentials[7] = f64::NAN);
    ask_all(checks, "and one of an open place", &read, (17, 7));
    let null = first.with(|d| d.dg[1] = 1.0);
    ask_all(checks, "null at a blocked place", &null, bare(10));
    let stranger = Expected {
        energies: bare(11),
        ..Expected::all(ADMITTED)
    };
    ask(
        checks,
        "a strand on a blocked place",
        &first,
        0,
        &[1, 0],
        &stranger,
    );
    let rank = Expected {
        state: bare(13),
        ..Expected::all(ADMITTED)
    };
    ask(checks, "two states are left", &first, 2, &[0, 7], &rank);
    let long = Design::of(&[1; 21]).with(|d| d.marks[20] = 1);
    ask_all(checks, "a blocked position counts 1", &long, ADMITTED);
}
