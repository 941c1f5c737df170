//! Tables of bonds beside a design: filled, and then lent with other cells.

use crate::{Checks, DOUBLE, WHOLE};
use mujplesten as mj;

/// The bench table's two positions; then a bond of nobody with strand 2, and one out of range.
pub fn tables(checks: &mut Checks) {
    let mut dg = [0.0; 4096];
    (dg[65], dg[130]) = (-0.5, -2.0);
    let design = mj::Design {
        scaffold: &[1, 2],
        marks: &[0, 0],
        glues: &[0, 0, 0, 0, 1, 0, 0, 2, 0],
        dg: &dg,
        ds: &[0.0; 4096],
        amounts: &[0.0, -1.0, -1.0],
        given: 0,
        rt: 0.5,
        strand_excess: 0.0,
        scaffold_excess: 0.0,
    };
    let (mut pairs, mut sites) = ([DOUBLE; 9], [DOUBLE; 6]);
    let mut place = WHOLE;
    let number = mj::bond_tables(design, &mut pairs, &mut sites[..5], &mut place);
    checks.reply("a short table", number, 1);
    let kept = pairs == [DOUBLE; 9] && sites == [DOUBLE; 6];
    checks.count("both kept", kept, format!("{pairs:?} {sites:?}"));
    let number = mj::bond_tables(design, &mut pairs, &mut sites, &mut place);
    checks.reply("both tables", number, 0);
    checks.place("its place", place, mj::NOWHERE);
    checks.figure("a strand bond", pairs[8], 0.0);
    checks.figure("a scaffold bond", sites[5], -4.0);
    over(checks, design, &pairs, &sites, -1.5);
    pairs[2] = -3.0;
    over(checks, design, &pairs, &sites, -3.0);
    pairs[0] = 80_001.0;
    let bonds = mj::Bonds {
        strands: &pairs,
        scaffold: &sites,
    };
    let mut count = WHOLE;
    let number = mj::states_over(design, bonds, &mut place, &mut count);
    checks.reply("a bond out of range", number, 9);
    checks.place("its place", place, mj::NOWHERE);
    checks.count("its count", count == 0, format!("{count}, not 0"));
}

/// Strand 2 alone is shown, with this energy.
fn over(checks: &mut Checks, design: mj::Design, pairs: &[f64], sites: &[f64], lowest: f64) {
    let bonds = mj::Bonds {
        strands: pairs,
        scaffold: sites,
    };
    let (mut place, mut energy, mut count) = (WHOLE, DOUBLE, WHOLE);
    let mut state = [9, 9];
    let number = mj::search_over(design, bonds, &mut state, &mut place, &mut energy);
    checks.reply("a search over tables", number, 0);
    checks.figure("its energy", energy, lowest);
    checks.count("its state", state == [0, 2], format!("{state:?}"));
    let number = mj::state_energy_over(design, bonds, &[1, 2], &mut place, &mut energy);
    checks.reply("a state energy over tables", number, 0);
    checks.figure("it", energy, -1.5);
    let number = mj::states_over(design, bonds, &mut place, &mut count);
    checks.reply("states over tables", number, 0);
    checks.count("their count", count == 4, format!("{count}, not 4"));
    let number = mj::state_over(design, bonds, 3, &mut state, &mut place);
    checks.reply("rank 3 over tables", number, 0);
    checks.count("nobody", state == [0, 0], format!("{state:?}"));
}

/// A quarter of the stack that the header asks for is enough for the largest search over tables, of 128
/// positions with 63 friends each.
pub fn stack(checks: &mut Checks) {
    let mut dg = vec![0.0; 4096];
    dg[65] = -1.0;
    let searched = std::thread::Builder::new()
        .stack_size(64 * 1024)
        .spawn(move || {
            let mut glues = vec![0; 3];
            glues.extend([2, 1, 2].repeat(63));
            let (pairs, mut sites) = (vec![0.0; 64 * 64], vec![-2.0; 128 * 64]);
            sites[1] = -3.0;
            let design = mj::Design {
                scaffold: &[1; 128],
                marks: &[0; 128],
                glues: &glues,
                dg: &dg,
                ds: &vec![0.0; 4096],
                amounts: &[0.0; 64],
                given: 0,
                rt: 0.5,
                strand_excess: 0.0,
                scaffold_excess: 0.0,
            };
            let bonds = mj::Bonds {
                strands: &pairs,
                scaffold: &sites,
            };
            let (mut entries, mut place, mut energy) = ([0; 128], WHOLE, DOUBLE);
            let number = mj::search_over(design, bonds, &mut entries, &mut place, &mut energy);
            (number, energy)
        });
    let (number, energy) = searched.expect("a thread").join().expect("an answer");
    checks.reply("a search over tables on 64 KiB", number, 0);
    checks.figure("its energy", energy, -128.5);
}
