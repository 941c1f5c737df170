//! Calls on the bench table's two positions: the worked ceilings and the worked sheet of jobs.

use crate::{Checks, DOUBLE, WHOLE};
use mujplesten as mj;

const NO_DS: [f64; 4096] = [0.0; 4096];

/// Strand 1 with this dG, then strand 2 with dG −2, potentials −1, RT 0.5: of the four states [1, 2] and
/// [0, 2] have −1.5 if the dG is −0.5, and the others 0.
fn two(dg: &mut [f64; 4096], of_strand_1: f64) -> mj::Design<'_> {
    (dg[65], dg[130]) = (of_strand_1, -2.0);
    mj::Design {
        scaffold: &[1, 2],
        marks: &[0, 0],
        glues: &[0, 0, 0, 0, 1, 0, 0, 2, 0],
        dg,
        ds: &NO_DS,
        amounts: &[0.0, -1.0, -1.0],
        given: 0,
        rt: 0.5,
        strand_excess: 0.0,
        scaffold_excess: 0.0,
    }
}

pub fn ceilings(checks: &mut Checks) {
    let mut dg = [0.0; 4096];
    let design = two(&mut dg, -0.5);
    let (mut state, mut place, mut energy) = ([9; 2], WHOLE, DOUBLE);
    for (ceiling, number) in [(-1.6, 23), (f64::INFINITY, 9), (f64::NAN, 9)] {
        (place, energy) = (WHOLE, DOUBLE);
        let given = mj::first_state_under(design, ceiling, &mut state, &mut place, &mut energy);
        checks.reply("a ceiling", given, number);
        checks.place("its place", place, mj::NOWHERE);
        checks.figure("no energy", energy, 0.0);
        checks.count("entries", state == [9; 2], "not kept".to_string());
    }
    let number = mj::first_state_under(design, 0.0, &mut state[..1], &mut place, &mut energy);
    checks.reply("too few entries", number, 1);
    for ceiling in [-1.5, 0.0, -0.0] {
        state = [9; 2];
        let number = mj::first_state_under(design, ceiling, &mut state, &mut place, &mut energy);
        checks.reply("a ceiling", number, 0);
        checks.place("its place", place, mj::NOWHERE);
        checks.count("the first under it", state == [1, 2], format!("{state:?}"));
        checks.figure("its energy", energy, -1.5);
    }
}

/// The state energy at ranks 0 and 4, the search, the count, and two words that are no jobs.
const WORKED: [u32; 6] = [
    0x8000_0000,
    0x8000_0004,
    0x9000_0000,
    0xa000_0000,
    0x9000_0001,
    0x3000_0001,
];

/// What a sheet of six jobs leaves behind.
struct Told {
    numbers: [u32; 6],
    energies: [f64; 6],
    counts: [u64; 6],
    stretches: [u8; 12],
}

const KEPT: Told = Told {
    numbers: [99; 6],
    energies: [DOUBLE; 6],
    counts: [WHOLE; 6],
    stretches: [9; 12],
};

impl Told {
    /// The reply of the worked sheet, with so many entries for its stretches.
    fn of(design: mj::Design, stretches: usize) -> (u32, Told) {
        let mut told = KEPT;
        let sheet = mj::Sheet {
            jobs: &WORKED,
            numbers: &mut told.numbers,
            energies: &mut told.energies,
            counts: &mut told.counts,
            stretches: &mut told.stretches[..stretches],
        };
        (mj::job_sheet(design, sheet), told)
    }

    fn is(&self, checks: &mut Checks, what: &str, expected: &Told) {
        let numbers = self.numbers == expected.numbers;
        checks.count(what, numbers, format!("numbers {:?}", self.numbers));
        for (given, wanted) in self.energies.iter().zip(expected.energies) {
            checks.figure(what, *given, wanted);
        }
        let counts = self.counts == expected.counts;
        checks.count(what, counts, format!("counts {:?}", self.counts));
        let stretches = self.stretches == expected.stretches;
        checks.count(what, stretches, format!("stretches {:?}", self.stretches));
    }
}

pub fn sheets(checks: &mut Checks) {
    let mut dg = [0.0; 4096];
    let (number, told) = Told::of(two(&mut dg, -0.5), 12);
    checks.reply("a sheet", number, 0);
    let answered = Told {
        numbers: [0, 13, 0, 0, 22, 22],
        energies: [-1.5, 0.0, -1.5, 0.0, 0.0, 0.0],
        counts: [0, 0, 0, 4, 0, 0],
        stretches: [9, 9, 9, 9, 0, 2, 9, 9, 9, 9, 9, 9],
    };
    told.is(checks, "the worked sheet", &answered);
    let (number, told) = Told::of(two(&mut dg, -0.5), 11);
    checks.reply("a sheet without a last entry", number, 1);
    told.is(checks, "a refused sheet", &KEPT);
    let (number, told) = Told::of(two(&mut dg, f64::NAN), 12);
    checks.reply("a sheet on an unfit design", number, 0);
    let unfit = Told {
        numbers: [9, 9, 9, 9, 22, 22],
        energies: [0.0; 6],
        counts: [0; 6],
        stretches: [9; 12],
    };
    told.is(checks, "its jobs", &unfit);
    let none = mj::Sheet {
        jobs: &[],
        numbers: &mut [],
        energies: &mut [],
        counts: &mut [],
        stretches: &mut [],
    };
    let number = mj::job_sheet(two(&mut dg, -0.5), none);
    checks.reply("a sheet of no job", number, 0);
}

/// The stack that the header asks for is enough for a sheet of 64 searches over 128 positions with 63
/// friends each.
pub fn stack(checks: &mut Checks) {
    let asked = std::thread::Builder::new()
        .stack_size(256 * 1024)
        .spawn(|| {
            let mut dg = vec![0.0; 4096];
            dg[65] = -1.0;
            let glues: Vec<u8> = [[0, 0, 0]]
                .into_iter()
                .chain([[2, 1, 2]; 63])
                .flatten()
                .collect();
            let design = mj::Design {
                scaffold: &[1; 128],
                marks: &[0; 128],
                glues: &glues,
                dg: &dg,
                ds: &vec![0.0; 4096],
                amounts: &[0.0; 64],
                given: 0,
                rt: 0.5,
                strand_excess: 0.0,
                scaffold_excess: 0.0,
            };
            let (mut numbers, mut energies) = (vec![99; 64], vec![DOUBLE; 64]);
            let (mut counts, mut stretches) = (vec![WHOLE; 64], vec![0; 64 * 128]);
            let sheet = mj::Sheet {
                jobs: &[0x9000_0000; 64],
                numbers: &mut numbers,
                energies: &mut energies,
                counts: &mut counts,
                stretches: &mut stretches,
            };
            let number = mj::job_sheet(design, sheet);
            (number, numbers, energies)
        });
    let (number, numbers, energies) = asked.expect("a thread").join().expect("an answer");
    checks.reply("a sheet on 256 KiB", number, 0);
    checks.count("its jobs", numbers == [0; 64], format!("{numbers:?}"));
    checks.count("their energies", energies == [-128.0; 64], String::new());
}
