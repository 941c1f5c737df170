//! Calls on designs: what they answer, and the stack that they need.

use crate::{Checks, DOUBLE, WHOLE};
use mujplesten as mj;

/// The bench table's two positions: strand 1 with dG −0.5, then strand 2 with dG −2, potentials −1,
/// RT 0.5, strand bonds 0.
pub fn designs(checks: &mut Checks) {
    let mut dg = [0.0; 4096];
    (dg[65], dg[130]) = (-0.5, -2.0);
    let design = mj::Design {
        scaffold: &[1, 2],
        marks: &[0, 0],
        glues: &[0, 0, 0, 0, 1, 0, 0, 2, 0],
        dg: &dg,
        ds: &[0.0; 4096],
        amounts: &[0.0, -1.0, -1.0],
        given: 0,
        rt: 0.5,
        strand_excess: 0.0,
        scaffold_excess: 0.0,
    };
    bonds_and_friends(checks, design);
    states_and_energies(checks, design);
    let potentials = [0.0, -1.0, f64::NAN];
    let unfit = mj::Design {
        amounts: &potentials,
        ..design
    };
    let (mut place, mut count) = (WHOLE, WHOLE);
    let number = mj::states(unfit, &mut place, &mut count);
    checks.reply("a potential", number, 17);
    checks.place("its place", place, 2);
    checks.count("its count", count == 0, format!("{count}, not 0"));
    let glues = [0, 0, 7, 0, 1, 0, 0, 2, 0];
    let glued = mj::Design {
        glues: &glues,
        ..design
    };
    let number = mj::states(glued, &mut place, &mut count);
    checks.reply("strand 0 with a glue", number, 10);
    checks.place("its place", place, mj::NOWHERE);
}

fn bonds_and_friends(checks: &mut Checks, design: mj::Design) {
    let (mut place, mut bond) = (WHOLE, DOUBLE);
    let number = mj::strand_bond(design, 1, 2, &mut place, &mut bond);
    checks.reply("a strand bond", number, 0);
    checks.place("its place", place, mj::NOWHERE);
    checks.figure("it", bond, 0.0);
    bond = DOUBLE;
    let number = mj::strand_bond(design, 1, 3, &mut place, &mut bond);
    checks.reply("no such strand", number, 1);
    checks.figure("no bond", bond, 0.0);
    let number = mj::scaffold_bond(design, 1, 2, &mut place, &mut bond);
    checks.reply("a scaffold bond", number, 0);
    checks.figure("it", bond, -4.0);
    let (mut entries, mut count) = ([0xa5; 64], WHOLE);
    let number = mj::friends(design, 2, &mut entries, &mut place, &mut count);
    checks.reply("no such position", number, 1);
    checks.count("their count", count == 0, format!("{count}, not 0"));
    checks.count("entries", entries == [0xa5; 64], "not kept".to_string());
    let number = mj::friends(design, 1, &mut entries, &mut place, &mut count);
    checks.reply("friends", number, 0);
    checks.count("their count", count == 1, format!("{count}, not 1"));
    let written = entries[..2] == [2, 0xa5];
    checks.count("friends", written, format!("{:?}", &entries[..2]));
}

fn states_and_energies(checks: &mut Checks, design: mj::Design) {
    let (mut place, mut count) = (WHOLE, WHOLE);
    let number = mj::states(design, &mut place, &mut count);
    checks.reply("states", number, 0);
    checks.place("their place", place, mj::NOWHERE);
    checks.count("their count", count == 4, format!("{count}, not 4"));
    let mut state = [9; 2];
    place = WHOLE;
    let number = mj::state(design, 4, &mut state, &mut place);
    checks.reply("rank 4", number, 13);
    checks.place("its place", place, mj::NOWHERE);
    checks.count("entries", state == [9; 2], "not kept".to_string());
    let number = mj::state(design, 2, &mut state, &mut place);
    checks.reply("rank 2", number, 0);
    checks.count("its state", state == [0, 2], format!("{state:?}"));
    let (mut sum, mut energy) = (DOUBLE, DOUBLE);
    let number = mj::state_energy(design, &[1, 2], &mut place, &mut energy);
    checks.reply("a state energy", number, 0);
    checks.figure("it", energy, -1.5);
    let number = mj::state_energy(design, &[2, 2], &mut place, &mut energy);
    checks.reply("a stranger", number, 11);
    checks.figure("its energy", energy, 0.0);
    let number = mj::chain_energy(design, &[1, 2], &mut place, &mut sum, &mut energy);
    checks.reply("a chain energy", number, 0);
    checks.figure("it", energy, -1.5);
    checks.figure("its sum", sum, -3.0);
    let number = mj::chain_energy(design, &[2, 2], &mut place, &mut sum, &mut energy);
    checks.reply("a stranger", number, 11);
    checks.figure("its energy", energy, 0.0);
    checks.figure("its sum", sum, 0.0);
    let mut settled = [9; 2];
    (place, energy) = (WHOLE, DOUBLE);
    let number = mj::search(design, &mut settled[..1], &mut place, &mut energy);
    checks.reply("too few entries", number, 1);
    checks.place("its place", place, mj::NOWHERE);
    checks.figure("its energy", energy, 0.0);
    checks.count("entries", settled == [9; 2], "not kept".to_string());
    let number = mj::search(design, &mut settled, &mut place, &mut energy);
    checks.reply("a search", number, 0);
    checks.count("its state", settled == [0, 2], format!("{settled:?}"));
    checks.figure("its energy", energy, -1.5);
}

/// The same two positions, with each choice of marks: states in order, and what the search settles.
pub fn blocked(checks: &mut Checks) {
    let mut dg = [0.0; 4096];
    (dg[65], dg[130]) = (-0.5, -2.0);
    let cases: [([u8; 2], &[[u8; 2]], [u8; 2], f64); 4] = [
        ([0, 0], &[[1, 2], [1, 0], [0, 2], [0, 0]], [0, 2], -1.5),
        ([1, 0], &[[0, 2], [0, 0]], [0, 2], -1.5),
        ([0, 1], &[[1, 0], [0, 0]], [0, 0], 0.0),
        ([1, 1], &[[0, 0]], [0, 0], 0.0),
    ];
    for (marks, states, lowest, energy) in cases {
        let design = mj::Design {
            scaffold: &[1, 2],
            marks: &marks,
            glues: &[0, 0, 0, 0, 1, 0, 0, 2, 0],
            dg: &dg,
            ds: &[0.0; 4096],
            amounts: &[0.0, -1.0, -1.0],
            given: 0,
            rt: 0.5,
            strand_excess: 0.0,
            scaffold_excess: 0.0,
        };
        let (mut place, mut count, mut told) = (WHOLE, WHOLE, DOUBLE);
        checks.reply("states", mj::states(design, &mut place, &mut count), 0);
        checks.place("their count", count, states.len() as u64);
        for (rank, state) in states.iter().enumerate() {
            let mut entries = [9; 2];
            let number = mj::state(design, rank as u64, &mut entries, &mut place);
            checks.reply("a state", number, 0);
            checks.count("its places", entries == *state, format!("{entries:?}"));
        }
        let mut settled = [9; 2];
        let number = mj::search(design, &mut settled, &mut place, &mut told);
        checks.reply("a search", number, 0);
        checks.count("its state", settled == lowest, format!("{settled:?}"));
        checks.figure("its energy", told, energy);
        for (position, bond) in [(0, -1.0), (1, -4.0)] {
            let mut figure = DOUBLE;
            let strand = position as u8 + 1;
            let number = mj::scaffold_bond(design, position, strand, &mut place, &mut figure);
            checks.reply("a scaffold bond", number, 0);
            checks.figure("it", figure, bond);
            let (mut entries, mut count) = ([0xa5; 64], WHOLE);
            let number = mj::friends(design, position, &mut entries, &mut place, &mut count);
            checks.reply("friends", number, 0);
            let open = marks[position] == 0;
            checks.place("their count", count, u64::from(open));
            let first = if open { strand } else { 0xa5 };
            checks.count("friends", entries[0] == first, format!("{}", entries[0]));
        }
        let number = mj::state_energy(design, &[1, 2], &mut place, &mut told);
        let expected = if marks == [0, 0] { 0 } else { 11 };
        checks.reply("both strands", number, expected);
    }
}

/// The stack that the header asks for is enough for the largest search, of 128 positions with 63
/// friends each.
pub fn stack(checks: &mut Checks) {
    let searched = std::thread::Builder::new()
        .stack_size(256 * 1024)
        .spawn(|| {
            let mut dg = vec![0.0; 4096];
            dg[65] = -1.0;
            let glues: Vec<u8> = [[0, 0, 0]]
                .into_iter()
                .chain([[2, 1, 2]; 63])
                .flatten()
                .collect();
            let design = mj::Design {
                scaffold: &[1; 128],
                marks: &[0; 128],
                glues: &glues,
                dg: &dg,
                ds: &vec![0.0; 4096],
                amounts: &[0.0; 64],
                given: 0,
                rt: 0.5,
                strand_excess: 0.0,
                scaffold_excess: 0.0,
            };
            [mj::search, mj::ring_search].map(|search| {
                let (mut entries, mut place, mut energy) = ([0; 128], WHOLE, DOUBLE);
                let number = search(design, &mut entries, &mut place, &mut energy);
                (number, energy)
            })
        });
    for (number, energy) in searched.expect("a thread").join().expect("an answer") {
        checks.reply("a search on 256 KiB", number, 0);
        checks.figure("its energy", energy, -128.0);
    }
}
