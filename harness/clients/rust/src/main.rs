//! A Rust program over libexports.a: calls every function and checks what it answers.

mod concentrations;
mod designs;
mod places;
mod rings;
mod sheets;
mod sums;
mod tables;

use mujplesten as mj;
use std::process::ExitCode;

struct Checks {
    passed: u32,
    failed: u32,
}

impl Checks {
    fn reply(&mut self, what: &str, given: u32, expected: u32) {
        self.count(what, given == expected, format!("{given}, not {expected}"));
    }

    fn bits(&mut self, what: &str, given: u64, expected: f64) {
        let expected = expected.to_bits();
        let told = format!("{given:016x}, not {expected:016x}");
        self.count(what, given == expected, told);
    }

    /// The bits are compared: 0.0 is not −0.0.
    fn figure(&mut self, what: &str, given: f64, expected: f64) {
        self.bits(what, given.to_bits(), expected);
    }

    fn place(&mut self, what: &str, given: u64, expected: u64) {
        self.count(what, given == expected, format!("{given}, not {expected}"));
    }

    fn count(&mut self, what: &str, holds: bool, told: String) {
        if holds {
            self.passed += 1;
        } else {
            self.failed += 1;
            println!("{what}: {told}");
        }
    }
}

fn main() -> ExitCode {
    let mut checks = Checks {
        passed: 0,
        failed: 0,
    };
    one_sequence(&mut checks);
    two_sequences(&mut checks);
    loops(&mut checks);
    strengths(&mut checks);
    concentrations::logarithms(&mut checks);
    ambients(&mut checks);
    short_sequences(&mut checks);
    decks(&mut checks);
    decks_with_runs(&mut checks);
    designs::designs(&mut checks);
    designs::blocked(&mut checks);
    designs::stack(&mut checks);
    concentrations::concentrations(&mut checks);
    places::places(&mut checks);
    tables::tables(&mut checks);
    tables::stack(&mut checks);
    rings::rings(&mut checks);
    sheets::ceilings(&mut checks);
    sheets::sheets(&mut checks);
    sheets::stack(&mut checks);
    sums::sums(&mut checks);
    names(&mut checks);
    params(&mut checks);
    println!("client: {} passed, {} failed", checks.passed, checks.failed);
    if checks.failed == 0 {
        ExitCode::SUCCESS
    } else {
        ExitCode::FAILURE
    }
}

/// What a number that a call is to write holds before it: no call answers it.
const DOUBLE: f64 = -1.25e-77;
const WHOLE: u64 = 0xa5a5_a5a5_a5a5_a5a5;

fn one_sequence(checks: &mut Checks) {
    let (mut dg, mut ds) = (DOUBLE, DOUBLE);
    checks.reply("AC", mj::sequence(b"AC", &mut dg, &mut ds), 0);
    checks.figure("AC dG", dg, -1.44 + 1.96);
    checks.figure("AC dS", ds, -0.0224 + 0.0057);
    checks.reply("AC", mj::sequence_reply(b"AC"), 0);
    checks.bits("AC dG", mj::sequence_dg(b"AC"), -1.44 + 1.96);
    checks.bits("AC dS", mj::sequence_ds(b"AC"), -0.0224 + 0.0057);
    checks.bits("cga dG", mj::sequence_dg(b"cga"), (-2.17 + -1.30) + 1.96);
    checks.reply("256 bases", mj::sequence_reply(&[b'g'; 256]), 0);
    checks.bits(
        "AC published dG",
        mj::published_dg(b"AC"),
        -1.44 + 1.96 + 0.05,
    );
    checks.bits(
        "AC published dS",
        mj::published_ds(b"AC"),
        -0.0224 - 0.0057 + 0.0069,
    );
    checks.bits(
        "gC published dG",
        mj::published_dg(b"gC"),
        -2.24 + 1.96 + 0.43,
    );
    let refused: [(&[u8], u32); 5] = [
        (&[b'g'; 257], 1),
        (b"acxg", 2),
        (&[0xff], 2),
        (b"A", 3),
        (b"", 3),
    ];
    for (s, number) in refused {
        let (mut dg, mut ds) = (DOUBLE, DOUBLE);
        checks.reply("one call", mj::sequence(s, &mut dg, &mut ds), number);
        checks.figure("its dG", dg, 0.0);
        checks.figure("its dS", ds, 0.0);
        checks.reply("a refused sequence", mj::sequence_reply(s), number);
        checks.bits("its dG", mj::sequence_dg(s), 0.0);
        checks.bits("its dS", mj::sequence_ds(s), 0.0);
        checks.reply("refused as published", mj::published_reply(s), number);
        checks.bits("its published dG", mj::published_dg(s), 0.0);
        checks.bits("its published dS", mj::published_ds(s), 0.0);
    }
}

fn two_sequences(checks: &mut Checks) {
    let (mut dg, mut ds) = (DOUBLE, DOUBLE);
    let number = mj::pair(b"AAC", b"TAG", &mut dg, &mut ds);
    checks.reply("AAC TAG", number, 0);
    checks.figure("AAC TAG dG", dg, 0.61 + 0.17);
    checks.figure("AAC TAG dS", ds, 0.0);
    checks.reply("AAC TAG", mj::pair_reply(b"AAC", b"TAG"), 0);
    checks.bits("AAC TAG dG", mj::pair_dg(b"AAC", b"TAG"), 0.61 + 0.17);
    checks.bits("AAC TAG dS", mj::pair_ds(b"AAC", b"TAG"), 0.0);
    let (a, b) = (b"AAAAAA", b"TAAATT");
    checks.reply("a loop of 3", mj::pair_reply(a, b), 0);
    let dg = 0.61 + 0.69 - 1.0 + 3.2;
    checks.bits("a loop of 3, dG", mj::pair_dg(a, b), dg);
    checks.bits("a loop of 3, dS", mj::pair_ds(a, b), -0.0213);
    checks.reply("no bases", mj::pair_reply(b"", b""), 0);
    let refused: [(&[u8], &[u8], u32); 4] = [
        (&[b'a'; 257], b"t", 1),
        (b"ac", b"tn", 2),
        (b"ac", b"tga", 4),
        (b"AAAAA", b"TAATT", 5),
    ];
    for (a, b, number) in refused {
        let (mut dg, mut ds) = (DOUBLE, DOUBLE);
        checks.reply("one call", mj::pair(a, b, &mut dg, &mut ds), number);
        checks.figure("its dG", dg, 0.0);
        checks.figure("its dS", ds, 0.0);
        checks.reply("a refused pair", mj::pair_reply(a, b), number);
        checks.bits("its dG", mj::pair_dg(a, b), 0.0);
        checks.bits("its dS", mj::pair_ds(a, b), 0.0);
    }
}

fn loops(checks: &mut Checks) {
    let admitted = [(30, 0, 6.6), (3, 1, 3.1), (12, 2, 5.0)];
    for (length, kind, expected) in admitted {
        let mut dg = DOUBLE;
        let number = mj::loop_penalty(length, kind, &mut dg);
        checks.reply("a loop", number, 0);
        checks.figure("its dG", dg, expected);
    }
    // Between the table's lengths: 6.6 + 0.00198720425864083 x 310.15 x 2.44 x ln(31 / 30).
    let mut dg = DOUBLE;
    checks.reply("a loop of 31", mj::loop_penalty(31, 0, &mut dg), 0);
    let near = (dg - 6.649310929736642).abs() < f64::from_bits(0x3e20_0000_0000_0000);
    checks.count("its dG", near, format!("{dg}"));
    for (length, kind) in [(2, 1), (255, 0), (3, 3), (usize::MAX, 0)] {
        let mut dg = DOUBLE;
        let number = mj::loop_penalty(length, kind, &mut dg);
        checks.reply("a refused loop", number, 5);
        checks.figure("its dG", dg, 0.0);
    }
}

fn strengths(checks: &mut Checks) {
    let excess = 12.5;
    let mut strength = DOUBLE;
    let of_one = (-1.44 + 1.96) - excess * (-0.0224 + 0.0057);
    let number = mj::sequence_strength(b"AC", excess, &mut strength);
    checks.reply("AC", number, 0);
    checks.figure("its strength", strength, of_one);
    let of_two = ((0.61 + 0.17) + 1.96) - excess * (0.0 + 0.0057);
    let (a, b) = (b"AAC", b"TAG");
    let number = mj::pair_strength(a, b, excess, &mut strength);
    checks.reply("AAC TAG", number, 0);
    checks.figure("its strength", strength, of_two);
    for excess in [f64::NAN, f64::INFINITY, 1024.0f64.next_up()] {
        let mut strength = DOUBLE;
        let number = mj::sequence_strength(b"AC", excess, &mut strength);
        checks.reply("an excess", number, 9);
        checks.figure("its strength", strength, 0.0);
        strength = DOUBLE;
        let number = mj::pair_strength(a, b, excess, &mut strength);
        checks.reply("an excess", number, 9);
        checks.figure("its strength", strength, 0.0);
        let number = mj::sequence_strength(b"A", excess, &mut strength);
        checks.reply("a short one", number, 3);
    }
}

fn ambients(checks: &mut Checks) {
    let inside = [200.0, 310.15, 323.15, 500.0].map(|kelvin| (kelvin, 0));
    let outside = [200.0f64.next_down(), 500.0f64.next_up(), f64::NAN].map(|kelvin| (kelvin, 9));
    for (kelvin, expected) in inside.into_iter().chain(outside) {
        let (mut rt, mut strand, mut scaffold) = (DOUBLE, DOUBLE, DOUBLE);
        let number = mj::ambient(kelvin, &mut rt, &mut strand, &mut scaffold);
        checks.reply("a kelvin", number, expected);
        let (product, excess) = match expected {
            0 => ((1.98720425864083 / 1000.0) * kelvin, kelvin - 310.15),
            _ => (0.0, 0.0),
        };
        checks.figure("its RT", rt, product);
        checks.figure("its strand excess", strand, excess);
        checks.figure("its scaffold excess", scaffold, excess);
    }
}

fn decks(checks: &mut Checks) {
    let deck = [0x1000_0004, 0x2000_0001, 0x3000_0002, 0x2000_0002];
    let faulty = [0x1000_0002, 0x3000_0001, 0x3000_0001];
    let mut entries = [0xa5; 128];
    let (mut place, mut count) = (WHOLE, WHOLE);
    let number = mj::deck_read(0, &faulty, &mut entries, &mut place, &mut count);
    checks.reply("a faulty deck", number, 14);
    checks.place("its place", place, 2);
    checks.count("its count", count == 0, format!("{count}, not 0"));
    let number = mj::deck_read(0, &deck, &mut entries[..127], &mut place, &mut count);
    checks.reply("too few entries", number, 1);
    checks.place("its place", place, mj::NOWHERE);
    checks.count("entries", entries == [0xa5; 128], "not kept".to_string());
    (place, count) = (WHOLE, WHOLE);
    let number = mj::deck_read(0, &deck, &mut entries, &mut place, &mut count);
    checks.reply("a deck", number, 0);
    checks.place("its place", place, mj::NOWHERE);
    checks.count("its count", count == 4, format!("{count}, not 4"));
    let read = entries[..5] == [1, 0, 0, 2, 0xa5];
    checks.count("its configuration", read, format!("{:?}", &entries[..5]));
    let mut words = [u32::MAX; 129];
    let number = mj::deck_write(0, &[64], &mut words, &mut count);
    checks.reply("a strand of 64", number, 9);
    checks.count("its count", count == 0, format!("{count}, not 0"));
    checks.count("words", words == [u32::MAX; 129], "not kept".to_string());
    let number = mj::deck_write(0, &[1, 0, 0, 2], &mut words, &mut count);
    checks.reply("a configuration", number, 0);
    checks.count("its count", count == 4, format!("{count}, not 4"));
    let written = words[..4] == deck && words[4] == u32::MAX;
    checks.count("its deck", written, format!("{:x?}", &words[..5]));
}

/// The sequences of 2 to 8 bases: the fifth, the last, and past it.
fn short_sequences(checks: &mut Checks) {
    let mut bytes = [0xa5; 8];
    let mut bases = WHOLE;
    let number = mj::short_sequence(4, &mut bytes, &mut bases);
    checks.reply("the sequence at rank 4", number, 0);
    checks.count("its bases", bases == 2, format!("{bases}, not 2"));
    checks.count(
        "its letters",
        bytes[..3] == *b"ca\xa5",
        format!("{bytes:x?}"),
    );
    let number = mj::short_sequence(87_375, &mut bytes, &mut bases);
    checks.reply("the last sequence", number, 0);
    checks.count("its bases", bases == 8, format!("{bases}, not 8"));
    checks.count("its letters", bytes == *b"tttttttt", format!("{bytes:x?}"));
    let number = mj::short_sequence(87_376, &mut bytes, &mut bases);
    checks.reply("a rank past the last", number, 13);
    checks.count("its bases", bases == 0, format!("{bases}, not 0"));
    let number = mj::short_sequence(0, &mut bytes[..7], &mut bases);
    checks.reply("seven bytes", number, 1);
    checks.count("bytes", bytes == *b"tttttttt", "not kept".to_string());
}

/// The form with runs: a deck of it, the same deck in document 01's form, and back.
fn decks_with_runs(checks: &mut Checks) {
    let singles = [
        0x1000_0004,
        0x3000_0001,
        0x2000_0007,
        0x2000_0007,
        0x2000_0007,
    ];
    let runs = [0x1000_0004, 0x3000_0001, 0x4000_0087];
    let mut entries = [0xa5; 128];
    let (mut place, mut count) = (WHOLE, WHOLE);
    let number = mj::deck_read(1, &runs, &mut entries, &mut place, &mut count);
    checks.reply("a deck with runs", number, 0);
    checks.count("its count", count == 4, format!("{count}, not 4"));
    let read = entries[..5] == [0, 7, 7, 7, 0xa5];
    checks.count("its configuration", read, format!("{:?}", &entries[..5]));
    let number = mj::deck_read(0, &runs, &mut entries, &mut place, &mut count);
    checks.reply("runs in document 01's form", number, 14);
    checks.place("its place", place, 2);
    let number = mj::deck_read(2, &runs, &mut entries, &mut place, &mut count);
    checks.reply("an unknown form", number, 1);
    checks.place("its place", place, mj::NOWHERE);
    let mut words = [u32::MAX; 129];
    let number = mj::deck_write(1, &[0, 7, 7, 7], &mut words, &mut count);
    checks.reply("a configuration with a run", number, 0);
    let written = words[..3] == runs && words[3] == u32::MAX;
    checks.count("its deck", written, format!("{:x?}", &words[..4]));
    let mut moved = [u32::MAX; 129];
    let number = mj::deck_move(1, &runs, &mut moved, &mut place, &mut count);
    checks.reply("moving a deck with runs", number, 0);
    checks.place("its place", place, mj::NOWHERE);
    checks.count("its count", count == 5, format!("{count}, not 5"));
    let there = moved[..5] == singles && moved[5] == u32::MAX;
    checks.count("its words", there, format!("{:x?}", &moved[..6]));
    let mut back = [u32::MAX; 129];
    let number = mj::deck_move(0, &moved[..5], &mut back, &mut place, &mut count);
    checks.reply("moving it back", number, 0);
    checks.count("its words", back[..3] == runs, format!("{:x?}", &back[..4]));
    let number = mj::deck_move(0, &runs, &mut back, &mut place, &mut count);
    checks.reply("moving it by the other rules", number, 14);
    checks.place("its place", place, 2);
}

/// One strand with glues a, b* and c**, at the start of the text; after them two bases.
const TEXT: &[u8] = b"ab*c**AC";
const STRAND: &[usize] = &[1, 0, 1, 1, 1, 2, 1, 3, 3];

fn names(checks: &mut Checks) {
    let (mut start, mut length, mut is_base) = (WHOLE, WHOLE, WHOLE);
    let number = mj::name(TEXT, 3, 3, &mut start, &mut length, &mut is_base);
    checks.reply("c**", number, 0);
    let base = (start, length, is_base);
    checks.count("its base", base == (3, 1, 1), format!("{base:?}"));
    let number = mj::name(TEXT, 1, 2, &mut start, &mut length, &mut is_base);
    checks.reply("b*", number, 0);
    let base = (start, length, is_base);
    checks.count("stands for b*", base == (1, 1, 0), format!("{base:?}"));
    (start, length, is_base) = (WHOLE, WHOLE, WHOLE);
    let number = mj::name(TEXT, 7, usize::MAX, &mut start, &mut length, &mut is_base);
    checks.reply("outside", number, 1);
    let base = (start, length, is_base);
    checks.count("no base", base == (0, 0, 0), format!("{base:?}"));
    let mut glues = [9; 3];
    let number = mj::strand_glues(TEXT, 1, STRAND, &mut glues[..2]);
    checks.reply("too few glues", number, 1);
    checks.count("glues kept", glues == [9; 3], format!("{glues:?}"));
    checks.reply("glues", mj::strand_glues(TEXT, 1, STRAND, &mut glues), 0);
    checks.count("their numbers", glues == [1, 4, 5], format!("{glues:?}"));
}

/// The entry for b is the sequence AC; the quencher copies strand 1. The scaffold name is c**, then b.
fn params(checks: &mut Checks) {
    for (build, start, length, number) in [(1, 3, 3, 6), (0, 1, 1, 21), (2, 1, 1, 1), (1, 1, 1, 0)]
    {
        let (mut strand_glues, mut scaffold_glues) = ([9; 12], [9; 1]);
        let (mut dg, mut ds) = (vec![-7.0; 4096], vec![-7.0; 4096]);
        let set = mj::Params {
            build,
            text: TEXT,
            users: 1,
            strands: STRAND,
            scaffold: &[1, start, length],
            entries: &[1, 1, 0, usize::MAX, usize::MAX, 1, 6, 2],
            energies: &[f64::NAN, f64::NAN],
            penalty_dg: 0.5,
            penalty_ds: 0.0,
            quencher: 1,
            reporter: 0,
        };
        let into = mj::Built {
            strand_glues: &mut strand_glues,
            scaffold_glues: &mut scaffold_glues,
            dg: &mut dg,
            ds: &mut ds,
        };
        checks.reply("a build", mj::params(set, into), number);
        if number != 0 {
            let kept = strand_glues == [9; 12] && dg.iter().chain(&ds).all(|x| *x == -7.0);
            checks.count("all kept", kept, "written".to_string());
            continue;
        }
        let expected = [0, 0, 0, 1, 4, 5, 1, 4, 0, 0, 0, 0];
        let told = format!("{strand_glues:?}");
        checks.count("strand glues", strand_glues == expected, told);
        checks.count("scaffold glue", scaffold_glues == [3], String::new());
        for cell in [3 * 64 + 4, 4 * 64 + 3] {
            checks.figure("dG", dg[cell], (-1.44 + 1.96) + 0.5);
            checks.figure("dS", ds[cell], (-0.0224 + 0.0057) + 0.0);
        }
        let filled = dg.iter().chain(&ds).filter(|x| x.to_bits() != 0).count();
        checks.count("nothing else", filled == 4, format!("{filled} cells"));
    }
}
