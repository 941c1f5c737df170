//! Calls on rings: the worked cases on which two readings of document 02 part.

use crate::{Checks, DOUBLE, WHOLE};
use mujplesten as mj;

/// Three positions of glues 1, 2, 3.
struct Ring {
    glues: Vec<u8>,
    dg: Vec<f64>,
    potentials: Vec<f64>,
    rt: f64,
}

const SCAFFOLD: [u8; 3] = [1, 2, 3];
const OPEN: [u8; 3] = [0; 3];
const NO_DS: [f64; 4096] = [0.0; 4096];

impl Ring {
    /// One strand with these dGs at the positions, and one for its bond with itself; RT 0.5.
    fn of_one(potential: f64, dg: [f64; 3], pair: f64) -> Self {
        let mut ring = Ring {
            glues: vec![0, 0, 0, 5, 4, 5],
            dg: vec![0.0; 4096],
            potentials: vec![f64::NAN, potential],
            rt: 0.5,
        };
        for (position, energy) in dg.into_iter().enumerate() {
            ring.dg[64 * (position + 1) + 4] = energy;
        }
        ring.dg[64 * 5 + 5] = pair;
        ring
    }

    fn lent(&self, positions: usize) -> mj::Design<'_> {
        mj::Design {
            scaffold: &SCAFFOLD[..positions],
            marks: &OPEN[..positions],
            glues: &self.glues,
            dg: &self.dg,
            ds: &NO_DS,
            amounts: &self.potentials,
            given: 0,
            rt: self.rt,
            strand_excess: 0.0,
            scaffold_excess: 0.0,
        }
    }

    fn settles(&self, checks: &mut Checks, what: &str, expected: [u8; 3], energy: f64) {
        let (mut entries, mut place, mut told) = ([9; 3], WHOLE, DOUBLE);
        let number = mj::ring_search(self.lent(3), &mut entries, &mut place, &mut told);
        checks.reply(what, number, 0);
        checks.place("its place", place, mj::NOWHERE);
        let said = format!("{entries:?}, not {expected:?}");
        checks.count(what, entries == expected, said);
        checks.figure(what, told, energy);
        self.has(checks, what, expected, energy);
    }

    fn has(&self, checks: &mut Checks, what: &str, configuration: [u8; 3], energy: f64) {
        let (mut place, mut told) = (WHOLE, DOUBLE);
        let number = mj::ring_energy(self.lent(3), &configuration, &mut place, &mut told);
        checks.reply(what, number, 0);
        checks.figure(what, told, energy);
    }
}

pub fn rings(checks: &mut Checks) {
    let tied = Ring::of_one(-1.0, [-0.5, -1.0, -0.5], 0.0);
    tied.settles(checks, "the first smallest occupant", [1, 1, 1], -0.5);
    let attracting = Ring::of_one(0.0, [0.25, -0.25, -0.5], -0.25);
    attracting.settles(checks, "a bond that closes", [1, 1, 1], -1.25);
    attracting.has(checks, "the chain's, closed", [0, 1, 1], -1.0);
    let repelling = Ring::of_one(-1.0, [-1.0, -0.75, -0.5], 0.5);
    repelling.settles(checks, "a bond that keeps apart", [1, 0, 0], -0.5);
    repelling.has(checks, "the chain's, closed", [1, 0, 1], 0.0);
    let level = Ring::of_one(-1.0, [-0.75, -0.5, -1.0], 0.0);
    level.settles(checks, "the chain's ties", [1, 0, 1], -0.75);
    let ends = Ring::of_one(0.0, [-0.25, 0.5, -0.25], 0.5);
    ends.settles(checks, "the first position outside", [1, 0, 0], -0.25);
    let mut rounded = Ring::of_one(0.0, [0.0; 3], 0.0);
    rounded.glues = vec![0, 0, 0, 0, 6, 0, 0, 6, 0];
    rounded.dg[64 + 6] = -2.0;
    rounded.potentials = vec![0.0, -1.0, -0.9999999999999998];
    rounded.rt = 0.7;
    rounded.settles(checks, "products compared", [1, 0, 0], -1.3);
    let mut unlike = Ring::of_one(0.0, [0.0; 3], 0.0);
    unlike.glues = vec![0, 0, 0, 13, 4, 10, 11, 5, 12, 14, 6, 15];
    unlike.potentials = vec![0.0; 4];
    unlike.rt = 1.0;
    for (row, column) in [(1, 4), (2, 5), (3, 6), (10, 11), (12, 14)] {
        unlike.dg[64 * row + column] = 0.1;
    }
    unlike.dg[64 * 15 + 13] = 0.3;
    unlike.has(checks, "closed at the end", [1, 2, 3], 0.8);
    refused(checks, &tied);
}

/// Two positions are no ring, after all else.
fn refused(checks: &mut Checks, ring: &Ring) {
    let (mut entries, mut place, mut energy) = ([9; 2], WHOLE, DOUBLE);
    let design = ring.lent(2);
    let number = mj::ring_search(design, &mut entries, &mut place, &mut energy);
    checks.reply("two positions", number, 20);
    checks.place("their place", place, mj::NOWHERE);
    checks.figure("no energy", energy, 0.0);
    checks.count("entries kept", entries == [9; 2], format!("{entries:?}"));
    let number = mj::ring_energy(design, &[1, 1], &mut place, &mut energy);
    checks.reply("two places", number, 20);
    let number = mj::ring_energy(design, &[1, 2], &mut place, &mut energy);
    checks.reply("a stranger before", number, 11);
    let cold = mj::Design { rt: 0.0, ..design };
    let number = mj::ring_energy(cold, &[1, 1], &mut place, &mut energy);
    checks.reply("an ambient before", number, 16);
    checks.place("its place", place, 0);
    let number = mj::ring_energy(design, &[1, 1, 1], &mut place, &mut energy);
    checks.reply("a place more", number, 1);
    let number = mj::ring_search(ring.lent(3), &mut entries, &mut place, &mut energy);
    checks.reply("an entry less", number, 1);
    checks.count("entries kept", entries == [9; 2], format!("{entries:?}"));
}
