//! The logarithm, and designs whose strands' amounts are concentrations.

use crate::{Checks, DOUBLE, WHOLE};
use mujplesten as mj;
use std::f64::consts::LN_2;

pub fn logarithms(checks: &mut Checks) {
    let (least, most) = ((-60f64).exp2(), 1024.0f64);
    let worked = [
        (1.0, 0.0),
        (2.0, LN_2),
        (1e-9, -20.72326583694641),
        (least, -41.58883083359672),
        (most, 6.931471805599453),
    ];
    for (x, expected) in worked {
        let mut logarithm = DOUBLE;
        checks.reply("a logarithm", mj::ln(x, &mut logarithm), 0);
        let near = (logarithm - expected).abs() <= (-40f64).exp2();
        checks.count("it", near, format!("{logarithm}, not {expected}"));
    }
    let outside = [0.0, -0.0, -1.0, f64::NAN, f64::INFINITY, f64::NEG_INFINITY];
    for x in outside
        .into_iter()
        .chain([least.next_down(), most.next_up()])
    {
        let mut logarithm = DOUBLE;
        checks.reply("none", mj::ln(x, &mut logarithm), 15);
        checks.figure("its figure", logarithm, 0.0);
    }
    let mut logarithm = DOUBLE;
    checks.reply("of 1", mj::ln(1.0, &mut logarithm), 0);
    checks.figure("none at all", logarithm, 0.0);
}

/// The bench table's two positions, with these for the amounts of strands 1 and 2; strand 0's is no
/// number.
fn with<R>(amounts: [f64; 2], given: u32, ask: impl FnOnce(mj::Design) -> R) -> R {
    let mut dg = [0.0; 4096];
    (dg[65], dg[130]) = (-0.5, -2.0);
    ask(mj::Design {
        scaffold: &[1, 2],
        marks: &[0, 0],
        glues: &[0, 0, 0, 0, 1, 0, 0, 2, 0],
        dg: &dg,
        ds: &[0.0; 4096],
        amounts: &[f64::NAN, amounts[0], amounts[1]],
        given,
        rt: 0.5,
        strand_excess: 0.0,
        scaffold_excess: 0.0,
    })
}

fn settled(design: mj::Design) -> (u32, u64, u64, [u8; 2]) {
    let (mut entries, mut place, mut energy) = ([9; 2], WHOLE, DOUBLE);
    let number = mj::search(design, &mut entries, &mut place, &mut energy);
    (number, place, energy.to_bits(), entries)
}

fn energy(design: mj::Design, configuration: &[u8]) -> (u32, f64) {
    let (mut place, mut energy) = (WHOLE, DOUBLE);
    let number = mj::state_energy(design, configuration, &mut place, &mut energy);
    (number, energy)
}

/// As with the logarithms of the concentrations for potentials; 15 for a friend's that is out.
pub fn concentrations(checks: &mut Checks) {
    let amounts = [0.125, 1.0];
    let logarithms = amounts.map(|x| {
        let mut logarithm = DOUBLE;
        mj::ln(x, &mut logarithm);
        logarithm
    });
    let found = with(amounts, 1, settled);
    let by_logarithms = with(logarithms, 0, settled);
    let told = format!("{found:?}, not {by_logarithms:?}");
    checks.count("a search", found == by_logarithms && found.0 == 0, told);
    let (number, given) = with(amounts, 1, |design| energy(design, &[1, 2]));
    let (_, expected) = with(logarithms, 0, |design| energy(design, &[1, 2]));
    checks.reply("an energy", number, 0);
    checks.figure("it", given, expected);
    let near = (given - (3.0 * LN_2 - 5.0) * 0.5).abs() <= (-39f64).exp2();
    checks.count("it", near, format!("{given}"));
    checks.reply("no kind of amounts", with(amounts, 2, settled).0, 1);
    for out in [(-61f64).exp2(), 0.0, -1.0, f64::NAN, 1024.0f64.next_up()] {
        let told = with([1.0, out], 1, settled);
        let refused = (15, mj::NOWHERE, 0, [9; 2]);
        checks.count("a dilute strand", told == refused, format!("{told:?}"));
        let stranger = with([1.0, out], 1, |design| energy(design, &[2, 2]).0);
        checks.reply("a stranger before it", stranger, 11);
        let told = with([1.0, out], 1, |design| {
            let marks = &[0, 1];
            settled(mj::Design { marks, ..design }).0
        });
        checks.reply("nowhere a friend", told, 0);
    }
}
