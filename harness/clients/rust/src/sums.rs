//! Sums over the states of the bench table's two positions.

use crate::{Checks, WHOLE};
use mujplesten as mj;

const ONE: u32 = 1 << 30;

/// Weights 1 and 2 for the friends, 4 for the two as neighbours: the states have the products 8, 1, 2
/// and 1. No other weight is looked at.
pub fn sums(checks: &mut Checks) {
    let mut dg = [0.0; 4096];
    (dg[65], dg[130]) = (-0.5, -2.0);
    let design = mj::Design {
        scaffold: &[1, 2],
        marks: &[0, 0],
        glues: &[0, 0, 0, 0, 1, 0, 0, 2, 0],
        dg: &dg,
        ds: &[0.0; 4096],
        amounts: &[0.0, -1.0, -1.0],
        given: 0,
        rt: 0.5,
        strand_excess: 0.0,
        scaffold_excess: 0.0,
    };
    let weights = mj::Weights {
        place_digits: &[0, ONE, 7, 0, 0, ONE],
        place_powers: &[0, -30, 0, i32::MAX, 0, -29],
        pair_digits: &[0, 0, 0, 0, 0, ONE, 0, 0, 0],
        pair_powers: &[0, 0, 0, 0, 0, -28, 0, 0, 0],
    };
    free(checks, design, weights);
    constrained(checks, design, weights);
    stack(checks);
    energies(checks, design);
    stack_of_energies(checks);
    stack_of_occupants(checks);
    exponentials(checks);
}

/// digits × 2^power as a double.
fn double(digits: u32, power: i32) -> f64 {
    f64::from(digits) * f64::from(power).exp2()
}

/// The friends weigh 1 and e^3, and as neighbours 1: the sum over the four states is 2 + 2 e^3, and both
/// stand there with the probability e^3 / (2 + 2 e^3).
fn energies(checks: &mut Checks, design: mj::Design) {
    let cube = 3f64.exp();
    let both = mj::Lists {
        numbers: &[1, 2],
        starts: &[0, 1],
        lengths: &[1, 1],
    };
    let none = mj::Lists {
        lengths: &[1, 0],
        starts: &[1, 1],
        ..both
    };
    let (mut place, mut digits, mut power) = (WHOLE, u32::MAX, i32::MIN);
    let number = mj::free_sum_of_energies(design, &mut place, &mut digits, &mut power);
    checks.reply("a sum of energies", number, 0);
    checks.place("its place", place, mj::NOWHERE);
    let near = (double(digits, power) / (2.0 + 2.0 * cube) - 1.0).abs() < 6e-5;
    checks.count("it", near, format!("{digits} {power}"));
    let number = mj::constrained_sum_of_energies(design, both, &mut place, &mut digits, &mut power);
    checks.reply("a sum of both friends", number, 0);
    let near = (double(digits, power) / cube - 1.0).abs() < 6e-5;
    checks.count("it", near, format!("{digits} {power}"));
    let number = mj::probability(design, both, &mut place, &mut digits, &mut power);
    checks.reply("a probability", number, 0);
    let near = (double(digits, power) * (2.0 + 2.0 * cube) / cube - 1.0).abs() < 2.5e-4;
    checks.count("it", near, format!("{digits} {power}"));
    let number = mj::probability(design, none, &mut place, &mut digits, &mut power);
    checks.reply("a probability of strangers", number, 0);
    checks.count("it", (digits, power) == (0, 0), format!("{digits} {power}"));
    let bare = mj::Design {
        scaffold: &[],
        marks: &[],
        ..design
    };
    let number = mj::free_sum_of_energies(bare, &mut place, &mut digits, &mut power);
    checks.reply("energies of no positions", number, 18);
    let number = mj::probability(bare, both, &mut place, &mut digits, &mut power);
    checks.reply("lists of another size", number, 1);
    occupants(checks, design);
}

/// At the first position friend and empty place are as probable, at the second the friend is with
/// e^3 / (1 + e^3).
fn occupants(checks: &mut Checks, design: mj::Design) {
    let (mut place, mut digits, mut powers) = (WHOLE, [9; 6], [9; 6]);
    let number = mj::occupants(design, &mut digits, &mut powers[..5], &mut place);
    checks.reply("a cell too few", number, 1);
    let kept = (digits, powers) == ([9; 6], [9; 6]);
    checks.count("all kept", kept, format!("{digits:?} {powers:?}"));
    let number = mj::occupants(design, &mut digits, &mut powers, &mut place);
    checks.reply("all occupants", number, 0);
    checks.place("their place", place, mj::NOWHERE);
    let cube = 3f64.exp();
    let exact = [0.5, 0.5, 0.0, 1.0 / (1.0 + cube), 0.0, cube / (1.0 + cube)];
    for (cell, exact) in exact.into_iter().enumerate() {
        let told = double(digits[cell], powers[cell]);
        let near = (told - exact).abs() <= 2.5e-4 * exact;
        checks.count("an occupant", near, format!("{cell}: {told}, not {exact}"));
    }
}

fn exponentials(checks: &mut Checks) {
    let (mut digits, mut power) = (u32::MAX, i32::MIN);
    checks.reply("an exponential", mj::exp(-0.0, &mut digits, &mut power), 0);
    let told = format!("{digits} {power}");
    checks.count("it", (digits, power) == (ONE, -30), told);
    checks.figure(
        "as a double",
        f64::from_bits(mj::weight(digits, power)),
        1.0,
    );
    checks.figure(
        "the least double",
        f64::from_bits(mj::weight(ONE, -400_000)),
        5e-324,
    );
    checks.reply("a large one", mj::exp(80_000.0, &mut digits, &mut power), 0);
    let told = format!("{digits} {power}");
    checks.count("it", (1 << 30..1 << 31).contains(&digits), told);
    let number = mj::exp(80_000.5, &mut digits, &mut power);
    checks.reply("a larger one", number, 9);
    checks.count("it", (digits, power) == (0, 0), format!("{digits} {power}"));
}

/// What is asked, in a thread of so much stack, of 128 positions with so many friends each: bonds are -2, and
/// potentials the amount.
fn of_128<T: Send + 'static>(
    kib: usize,
    friends: usize,
    amount: f64,
    ask: impl FnOnce(mj::Design) -> T + Send + 'static,
) -> T {
    let asked = std::thread::Builder::new()
        .stack_size(kib * 1024)
        .spawn(move || {
            let mut dg = vec![0.0; 4096];
            dg[65] = -1.0;
            ask(mj::Design {
                scaffold: &[1; 128],
                marks: &[0; 128],
                glues: &[vec![0; 3], [2, 1, 2].repeat(friends)].concat(),
                dg: &dg,
                ds: &vec![0.0; 4096],
                amounts: &vec![amount; friends + 1],
                given: 0,
                rt: 0.5,
                strand_excess: 0.0,
                scaffold_excess: 0.0,
            })
        });
    asked.expect("a thread").join().expect("an answer")
}

/// The stack that the header says is enough for sums of energies of 128 positions with 63 friends each. All
/// weights are 1: bond and potential are both -2.
fn stack_of_energies(checks: &mut Checks) {
    let of_two = of_128(160, 63, -2.0, |design| {
        let lists = mj::Lists {
            numbers: &[5, 63],
            starts: &[0; 128],
            lengths: &[2; 128],
        };
        let (mut place, mut digits, mut power) = (WHOLE, 0, 0);
        let number = mj::probability(design, lists, &mut place, &mut digits, &mut power);
        (number, digits, power)
    });
    checks.count(
        "the probability of two at each",
        of_two == (0, ONE, 128 - 6 * 128 - 30),
        format!("{of_two:?}"),
    );
}

/// The same stack for all occupants of 128 positions, of two friends each that weigh 1.
fn stack_of_occupants(checks: &mut Checks) {
    let told = of_128(160, 2, -2.0, |design| {
        let (mut place, mut digits, mut powers) = (WHOLE, vec![0; 384], vec![0; 384]);
        let number = mj::occupants(design, &mut digits, &mut powers, &mut place);
        let third = |cell: usize| (double(digits[cell], powers[cell]) * 3.0 - 1.0).abs() < 2.5e-4;
        (number, (0..384).all(third))
    });
    checks.count(
        "each of three as probable",
        told == (0, true),
        format!("{told:?}"),
    );
}

/// The stack that the header says is enough for sums of 128 positions with 63 friends each. All weights
/// are 1, so that each sum is a count of states: 64^128, and with each place constrained to two of its
/// friends 2^128.
fn stack(checks: &mut Checks) {
    let (of_all, of_two) = of_128(64, 63, 0.0, |design| {
        let (digits, powers) = (vec![ONE; 8192], vec![-30; 8192]);
        let weights = mj::Weights {
            place_digits: &digits,
            place_powers: &powers,
            pair_digits: &digits[..4096],
            pair_powers: &powers[..4096],
        };
        let lists = mj::Lists {
            numbers: &[5, 63],
            starts: &[0; 128],
            lengths: &[2; 128],
        };
        let (mut place, mut digits, mut power) = (WHOLE, 0, 0);
        let free = mj::free_sum(design, weights, &mut place, &mut digits, &mut power);
        let of_all = (free, digits, power);
        let some = mj::constrained_sum(design, weights, lists, &mut place, &mut digits, &mut power);
        (of_all, (some, digits, power))
    });
    checks.count(
        "all states",
        of_all == (0, ONE, 6 * 128 - 30),
        format!("{of_all:?}"),
    );
    checks.count(
        "two at each",
        of_two == (0, ONE, 128 - 30),
        format!("{of_two:?}"),
    );
}

fn free(checks: &mut Checks, design: mj::Design, weights: mj::Weights) {
    let mut sum = |what, design, weights, expected: (u32, u32, i32)| {
        let (mut place, mut digits, mut power) = (WHOLE, u32::MAX, i32::MIN);
        let number = mj::free_sum(design, weights, &mut place, &mut digits, &mut power);
        checks.reply(what, number, expected.0);
        checks.place("its place", place, mj::NOWHERE);
        let told = format!("{digits} {power}");
        checks.count("it", (digits, power) == (expected.1, expected.2), told);
    };
    sum("a free sum", design, weights, (0, 3 << 29, -27));
    let out = mj::Weights {
        place_powers: &[0, 400_001, 0, 0, 0, 0],
        ..weights
    };
    sum("a weight out of form", design, out, (19, 0, 0));
    let bare = mj::Design {
        scaffold: &[],
        marks: &[],
        ..design
    };
    sum("weights of another size", bare, weights, (1, 0, 0));
    let none = mj::Weights {
        place_digits: &[],
        place_powers: &[],
        ..weights
    };
    sum("no positions", bare, none, (18, 0, 0));
}

fn constrained(checks: &mut Checks, design: mj::Design, weights: mj::Weights) {
    let mut sum = |what, starts: [usize; 2], lengths: [usize; 2], expected: (u32, u32, i32)| {
        let lists = mj::Lists {
            numbers: &[1, 1, 2, 255],
            starts: &starts,
            lengths: &lengths,
        };
        let (mut place, mut digits, mut power) = (WHOLE, u32::MAX, i32::MIN);
        let number =
            mj::constrained_sum(design, weights, lists, &mut place, &mut digits, &mut power);
        checks.reply(what, number, expected.0);
        checks.place("its place", place, mj::NOWHERE);
        let told = format!("{digits} {power}");
        checks.count("it", (digits, power) == (expected.1, expected.2), told);
    };
    sum("no constraint", [0, 4], [0, 0], (0, 3 << 29, -27));
    sum("both friends", [0, 2], [2, 2], (0, ONE, -27));
    sum("strangers alone", [2, 2], [1, 1], (0, 0, 0));
    sum("a list past the numbers", [4, 4], [0, 1], (1, 0, 0));
    sum("a start past them", [5, 0], [0, 0], (1, 0, 0));
}
