//! Document 01, "Sequence energies", with docs/DECISIONS.md, "Sequences".

use super::{out_of_range, Verdict};

pub const LONGEST: usize = 256;

/// The 15 entries of LENGTHS. Document 01 counts them; the lengths themselves are those of the
/// paper's table of loop initiation (Table 4).
pub const LENGTHS: [usize; 15] = [3, 4, 5, 6, 7, 8, 9, 10, 12, 14, 16, 18, 20, 25, 30];

const MOST_EXCESS: f64 = 1024.0;

pub fn sequence(s: &[u8]) -> Verdict {
    Verdict::lowest(&one_sequence(s))
}

pub fn pair(a: &[u8], b: &[u8]) -> Verdict {
    Verdict::lowest(&two_sequences(a, b))
}

/// The length is of any size; docs/DECISIONS.md: "however large".
pub fn loop_penalty(length: u64, kind: u32) -> Verdict {
    let admitted = (SHORTEST_LOOP as u64..=LONGEST_LOOP as u64).contains(&length);
    Verdict::lowest(&[(5, kind > 2 || !admitted)])
}

/// Document 02: "every length from 3 to 254".
pub const SHORTEST_LOOP: usize = 3;
pub const LONGEST_LOOP: usize = 254;

/// The paper's loop initiation (Table 4) at LENGTHS, in tenths of kcal/mol: internal, bulge, hairpin.
const LOOP_TENTHS: [[u32; 3]; 15] = [
    [32, 31, 35],
    [36, 32, 35],
    [40, 33, 33],
    [44, 35, 40],
    [46, 37, 42],
    [48, 39, 43],
    [49, 41, 45],
    [49, 43, 46],
    [52, 45, 50],
    [54, 48, 51],
    [56, 50, 53],
    [58, 52, 55],
    [59, 53, 57],
    [63, 56, 61],
    [66, 59, 63],
];

/// "Elsewhere than at an entry it uses the longest entry below and adds R × 310.15 × 2.44 × the
/// logarithm of the ratio", "every constant read as its exact decimal". The double next to it.
pub fn loop_energy(length: usize, kind: u32) -> f64 {
    let at = LENGTHS.iter().rposition(|entry| *entry <= length);
    let at = at.expect("no loop is shorter than the first entry");
    let tenths = f64::from(LOOP_TENTHS[at][kind as usize]) / 10.0;
    let units = (1u128 << LN_BITS) as f64;
    tenths + GAIN * (ln_ratio(length as u128, LENGTHS[at] as u128) as f64 / units)
}

/// 0.00198720425864083 × 310.15 × 2.44, which has 21 decimals.
const GAIN: f64 = 1.503848617994586355780;

pub(super) const LN_BITS: u32 = 100;

/// ln(n / base) of small whole numbers in units of 2⁻¹⁰⁰, by 2 (z + z³/3 + z⁵/5 + …) with
/// z = (n − base) / (n + base), of which no term is longer than 128 bits.
pub(super) fn ln_ratio(n: u128, base: u128) -> u128 {
    let (over, under) = (n - base, n + base);
    let mut power = (over << LN_BITS) / under;
    let (mut sum, mut odd) = (0, 1);
    while power > 0 {
        sum += 2 * power / odd;
        power = power * over / under * over / under;
        odd += 2;
    }
    sum
}

/// Whether some loop of two sequences that are not refused has a length between the entries, so
/// that the Rust's bits are not copied; and how many such loops there are.
pub fn loops_between(a: &[u8], b: &[u8]) -> usize {
    let needed = needed_loops(a, b);
    let is_between = |n: &&usize| **n >= SHORTEST_LOOP && !LENGTHS.contains(n);
    needed.iter().filter(is_between).count()
}

pub fn sequence_strength(s: &[u8], excess: f64) -> Verdict {
    let mut conditions = one_sequence(s).to_vec();
    conditions.push((9, out_of_range(excess, -MOST_EXCESS, MOST_EXCESS)));
    Verdict::lowest(&conditions)
}

pub fn pair_strength(a: &[u8], b: &[u8], excess: f64) -> Verdict {
    let mut conditions = two_sequences(a, b).to_vec();
    conditions.push((9, out_of_range(excess, -MOST_EXCESS, MOST_EXCESS)));
    Verdict::lowest(&conditions)
}

fn one_sequence(s: &[u8]) -> [(u32, bool); 3] {
    [
        (1, s.len() > LONGEST),
        (2, has_other_byte(s)),
        (3, s.len() < 2),
    ]
}

fn two_sequences(a: &[u8], b: &[u8]) -> [(u32, bool); 4] {
    [
        (1, a.len() > LONGEST || b.len() > LONGEST),
        (2, has_other_byte(a) || has_other_byte(b)),
        (4, a.len() != b.len()),
        (5, needs_a_missing_loop(a, b)),
    ]
}

/// The paper's ten stacks with the entropies that the Rust has: letters, dG in hundredths of
/// kcal/mol, dS in tenths of cal/mol/K. Read along the other strand they are the other six.
pub const STACKS: [(&[u8; 2], i32, i32); 10] = [
    (b"aa", -100, -213),
    (b"at", -88, -204),
    (b"ta", -58, -213),
    (b"ca", -145, -227),
    (b"gt", -144, -224),
    (b"ct", -128, -210),
    (b"ga", -130, -222),
    (b"cg", -217, -272),
    (b"gc", -224, -244),
    (b"gg", -184, -199),
];

/// dG and dS of one sequence that is not refused: "pairs summed left to right from 0.0, then 1.96
/// and +0.0057 added".
pub fn energies(s: &[u8]) -> (f64, f64) {
    let (dg, ds) = stacks(s);
    (dg + 1.96, ds + 0.0057)
}

/// Document 02's published mode of a sequence that is not refused: "pairs, initiation, first end,
/// last end, symmetry".
pub fn published(s: &[u8]) -> (f64, f64) {
    let letters = s.to_ascii_lowercase();
    let (mut dg, mut ds) = stacks(&letters);
    dg += 1.96;
    ds += -0.0057;
    for end in [letters[0], letters[letters.len() - 1]] {
        if end == b'a' || end == b't' {
            dg += 0.05;
            ds += 0.0069;
        }
    }
    let reverse_complement: Vec<u8> = letters.iter().rev().map(|x| partner(*x)).collect();
    if letters == reverse_complement {
        dg += 0.43;
        ds += -0.0014;
    }
    (dg, ds)
}

/// The pairs' sums, without the initiation.
fn stacks(s: &[u8]) -> (f64, f64) {
    let (mut dg, mut ds) = (0.0, 0.0);
    for window in s.to_ascii_lowercase().windows(2) {
        let other = [partner(window[1]), partner(window[0])];
        let is_it = |stack: &[u8; 2]| stack == window || *stack == other;
        let found = STACKS.iter().find(|(stack, _, _)| is_it(stack));
        let (_, hundredths, tenths) = found.expect("every two letters are a stack");
        dg += f64::from(*hundredths) / 100.0;
        ds += f64::from(*tenths) / 10_000.0;
    }
    (dg, ds)
}

fn partner(letter: u8) -> u8 {
    match letter {
        b'a' => b't',
        b't' => b'a',
        b'c' => b'g',
        _ => b'c',
    }
}

fn has_other_byte(s: &[u8]) -> bool {
    s.iter().any(|byte| !b"aAcCgGtT".contains(byte))
}

fn needs_a_missing_loop(a: &[u8], b: &[u8]) -> bool {
    let admitted = SHORTEST_LOOP..=LONGEST_LOOP;
    needed_loops(a, b).iter().any(|n| !admitted.contains(n))
}

/// "At a good window after k > 2 bad ones, the internal loop energy for length k − 1 is added;
/// any good window resets k. Bad windows at the end add no loop."
fn needed_loops(a: &[u8], b: &[u8]) -> Vec<usize> {
    let complementary: Vec<bool> = a.iter().zip(b).map(|(x, y)| are_partners(*x, *y)).collect();
    let (mut bad_windows, mut needed) = (0, vec![]);
    for window in complementary.windows(2) {
        if window[0] && window[1] {
            if bad_windows > 2 {
                needed.push(bad_windows - 1);
            }
            bad_windows = 0;
        } else {
            bad_windows += 1;
        }
    }
    needed
}

fn are_partners(x: u8, y: u8) -> bool {
    matches!(
        (x.to_ascii_lowercase(), y.to_ascii_lowercase()),
        (b'a', b't') | (b't', b'a') | (b'c', b'g') | (b'g', b'c')
    )
}

#[cfg(test)]
mod tests {
    use super::*;

    #[test]
    fn one_sequence_as_the_bench_table_and_calls_say() {
        let number = |s: &[u8]| sequence(s).number();
        assert_eq!(number(b"A"), 3);
        assert_eq!(number(b""), 3);
        assert_eq!(number(b"AC"), 0);
        assert_eq!(number(b"x"), 2);
        assert_eq!(number(&[b'g'; 256]), 0);
        assert_eq!(number(&[b'x'; 257]), 1);
    }

    /// Values worked out apart from this file, with exact fractions rounded at each addition.
    #[test]
    fn the_published_mode_as_worked_out() {
        let worked: [(&[u8], f64, f64); 6] = [
            (b"AC", 0.5700000000000001, -0.0212),
            (b"GC", 0.14999999999999974, -0.0315),
            (b"AT", 1.61, -0.013700000000000002),
            (b"CGTTGA", -5.35, -0.11459999999999998),
            (b"CC", 0.11999999999999988, -0.0256),
            (b"AAA", 0.05999999999999997, -0.03449999999999999),
        ];
        for (s, dg, ds) in worked {
            let (given_dg, given_ds) = published(s);
            assert_eq!(given_dg.to_bits(), dg.to_bits(), "{s:?}");
            assert_eq!(given_ds.to_bits(), ds.to_bits(), "{s:?}");
            assert_eq!(published(&s.to_ascii_lowercase()), (given_dg, given_ds));
        }
    }

    /// Values worked out apart from this file, to forty digits.
    #[test]
    fn loops_between_the_entries_as_worked_out() {
        for (length, energy) in [(31, 6.649310929736642166), (11, 5.043332082179549475)] {
            assert!((loop_energy(length, 0) - energy).abs() < 1e-14, "{length}");
        }
        assert_eq!(loop_energy(12, 1).to_bits(), 4.5f64.to_bits());
        assert_eq!(loops_between(b"ccccccccccccccc", b"ggcccccccccccgg"), 1);
    }

    #[test]
    fn two_sequences_as_the_bench_table_and_calls_say() {
        let number = |a: &str, b: &str| pair(a.as_bytes(), b.as_bytes()).number();
        assert_eq!(number("", ""), 0);
        assert_eq!(number("a", "a"), 0);
        assert_eq!(number("AAC", "TAG"), 0);
        assert_eq!(number("AAAA", "TATT"), 0);
        assert_eq!(number("AAAAA", "TAATT"), 5);
        assert_eq!(number("AAAAAA", "TAAATT"), 0);
        assert_eq!(number("ax", "a"), 2);
        assert_eq!(number("ac", "a"), 4);
        assert_eq!(number(&"a".repeat(257), "x"), 1);
        assert_eq!(number("a", &"t".repeat(257)), 1);
    }

    /// Windows that lie on a run of m mismatched places: m at the start of the strands, m + 1 in
    /// the middle.
    #[test]
    fn runs_of_mismatches_need_the_loop_of_their_bad_windows() {
        for run in 0..=40 {
            let needs = |bad: usize| bad == 3;
            let a = "c".repeat(run + 2);
            let b = format!("{}gg", "c".repeat(run));
            let start = pair(a.as_bytes(), b.as_bytes()).number();
            assert_eq!(start, if needs(run) { 5 } else { 0 }, "start {run}");

            let (a, b) = (format!("cc{a}"), format!("gg{b}"));
            let middle = pair(a.as_bytes(), b.as_bytes()).number();
            let bad = if run == 0 { 0 } else { run + 1 };
            assert_eq!(middle, if needs(bad) { 5 } else { 0 }, "middle {run}");

            let (a, b) = ("c".repeat(run + 2), format!("gg{}", "c".repeat(run)));
            assert_eq!(pair(a.as_bytes(), b.as_bytes()).number(), 0, "end {run}");
        }
    }

    #[test]
    fn loops_are_admitted_at_252_lengths_of_three_kinds() {
        let admitted = |kind| (0..=1000).filter(move |n| loop_penalty(*n, kind).number() == 0);
        for kind in 0..=2 {
            assert_eq!(admitted(kind).count(), 252);
            assert_eq!(loop_penalty(2, kind).number(), 5);
            assert_eq!(loop_penalty(254, kind).number(), 0);
            assert_eq!(loop_penalty(255, kind).number(), 5);
            assert_eq!(loop_penalty((1 << 32) + 3, kind).number(), 5);
        }
        assert_eq!(admitted(3).count(), 0);
        assert_eq!(loop_penalty(3, 256).number(), 5);
    }

    #[test]
    fn an_excess_is_looked_at_last() {
        let number = |s: &[u8], excess| sequence_strength(s, excess).number();
        for excess in [1024.0, -1024.0, 0.0, -0.0, 5e-324] {
            assert_eq!(number(b"ac", excess), 0);
            assert_eq!(pair_strength(b"", b"", excess).number(), 0);
        }
        let outside = [
            f64::NAN,
            f64::INFINITY,
            f64::NEG_INFINITY,
            1024.0f64.next_up(),
            (-1024.0f64).next_down(),
        ];
        for excess in outside {
            assert_eq!(number(b"ac", excess), 9);
            assert_eq!(number(b"a", excess), 3);
            assert_eq!(pair_strength(b"ac", b"tg", excess).number(), 9);
            assert_eq!(pair_strength(b"ac", b"t", excess).number(), 4);
        }
    }
}
