//! What the list asks: every entry of every table, every refusal, and a choice of random
//! questions from a fixed seed.

use super::Line;
use crate::bases::{all_sequences, beside, strand};
use crate::doubles::{around, not_finite};
use crate::judge::sequences::{loops_between, LENGTHS};
use crate::random::Random;

const SEED: u64 = 30;

/// Letters for wrong bytes: the list has letters and digits alone.
const WRONG: &[u8] = b"nNuUxXbBdDhHsS0z";

pub fn lines() -> Vec<Line> {
    let mut random = Random::new(SEED);
    let mut lines = vec![];
    sequences(&mut random, &mut lines);
    pairs_of_two(&mut lines);
    pairs(&mut random, &mut lines);
    loops(&mut lines);
    strengths(&mut random, &mut lines);
    ambients(&mut random, &mut lines);
    names(&mut lines);
    lines.dedup();
    lines.retain(|line| !is_between(line));
    lines
}

/// Whether a loop between the table's lengths is priced, where the Rust's bits are not copied.
fn is_between(line: &Line) -> bool {
    line.verdict().number() == 0
        && match line {
            Line::Pair(a, b) | Line::Strength2(_, a, b) => loops_between(a, b) > 0,
            Line::Loop(length, _) => !LENGTHS.contains(&(*length as usize)),
            _ => false,
        }
}

fn sequences(random: &mut Random, lines: &mut Vec<Line>) {
    // All 16 stacks are among these.
    for s in all_sequences(b"acgtn", 2) {
        lines.push(Line::Sequence(s.to_ascii_uppercase()));
        lines.push(Line::Sequence(s));
    }
    for s in all_sequences(b"acgt", 3).split_off(21) {
        lines.push(Line::Sequence(s));
    }
    let lengths = (4..=60).chain([64, 100, 128, 200, 254, 255, 256, 257]);
    for length in lengths {
        for _ in 0..3 {
            lines.push(Line::Sequence(strand(random, length)));
        }
        let whole = strand(random, length);
        lines.push(Line::Sequence(wrong_letter(random, &whole)));
    }
}

/// One letter replaced by a wrong one.
fn wrong_letter(random: &mut Random, s: &[u8]) -> Vec<u8> {
    let mut spoiled = s.to_vec();
    if let Some(last) = spoiled.len().checked_sub(1) {
        let any = random.within(0..=last);
        let place = random.pick(&[0, any, any, last]);
        spoiled[place] = random.pick(WRONG);
    }
    spoiled
}

/// All 256 pairs of two bases: 16 good windows, 48 mismatches read from either side, and 144
/// windows with no complementary place.
fn pairs_of_two(lines: &mut Vec<Line>) {
    let twos = all_sequences(b"acgt", 2).split_off(5);
    for a in &twos {
        for b in &twos {
            lines.push(Line::Pair(a.clone(), b.clone()));
        }
    }
}

fn pairs(random: &mut Random, lines: &mut Vec<Line>) {
    // Fewer than two letters, wrong letters and unequal lengths.
    let short = all_sequences(b"acgn", 1);
    for a in &short {
        for b in &short {
            lines.push(Line::Pair(a.clone(), b.clone()));
        }
        for b in [b"ac".as_slice(), b"nc", b"acgta"] {
            lines.push(Line::Pair(a.clone(), b.to_vec()));
            lines.push(Line::Pair(b.to_vec(), a.clone()));
        }
    }
    // A run of mismatches at the start, in the middle, at the end, and at all three.
    for run in 0..=40 {
        for [start, middle, end] in [[run, 0, 0], [0, run, 0], [0, 0, run], [run, run, run]] {
            let runs = [vec![false; start], vec![false; middle], vec![false; end]];
            let stretch = vec![true; 3];
            let pairs = [&runs[0][..], &stretch, &runs[1], &stretch, &runs[2]].concat();
            lines.push(paired(random, &pairs));
        }
    }
    for length in (2..=120).chain([200, 254, 255, 256, 257]) {
        for one_in in [4, 12, 30] {
            let pairs: Vec<bool> = (0..length).map(|_| !random.once_in(one_in)).collect();
            lines.push(paired(random, &pairs));
        }
    }
    for length in [2, 16, 255, 256] {
        let a = strand(random, length);
        let b = beside(random, &a, &vec![true; length]);
        let longer = [b.clone(), vec![b'a']].concat();
        lines.push(Line::Pair(a.clone(), longer.clone()));
        lines.push(Line::Pair(longer, a.clone()));
        lines.push(Line::Pair(wrong_letter(random, &a), b.clone()));
        lines.push(Line::Pair(a, wrong_letter(random, &b)));
    }
}

fn paired(random: &mut Random, pairs: &[bool]) -> Line {
    let a = strand(random, pairs.len());
    let b = beside(random, &a, pairs);
    Line::Pair(a, b)
}

fn loops(lines: &mut Vec<Line>) {
    for kind in 0..=3 {
        for length in (0..=40).chain([256 + 3, 65_536 + 3, (1 << 32) + 3, 1 << 63, u64::MAX]) {
            lines.push(Line::Loop(length, kind));
        }
    }
    for kind in [4, 255, 256, u32::MAX] {
        lines.push(Line::Loop(LENGTHS[0] as u64, kind));
    }
}

fn strengths(random: &mut Random, lines: &mut Vec<Line>) {
    let mut excesses = [around(1024.0), around(-1024.0), not_finite()].concat();
    excesses.extend([0.0, -0.0, 5e-324, -5e-324, f64::MAX, -310.15, 37.0]);
    for excess in excesses.clone() {
        lines.push(Line::Strength(excess, b"gattaca".to_vec()));
        lines.push(Line::Strength2(
            excess,
            b"gattaca".to_vec(),
            b"ctgatgt".to_vec(),
        ));
    }
    // Each refusal of the sequences, where the excess is fit and where it is not.
    for excess in [1.5, f64::NAN] {
        for s in [vec![], vec![b'a'], b"anc".to_vec(), vec![b'g'; 257]] {
            lines.push(Line::Strength(excess, s.clone()));
            lines.push(Line::Strength2(excess, s, b"ac".to_vec()));
        }
        lines.push(Line::Strength2(excess, vec![], vec![]));
        lines.push(Line::Strength2(
            excess,
            b"AAAAA".to_vec(),
            b"TAATT".to_vec(),
        ));
    }
    for _ in 0..300 {
        let excess = random.double(-1024.0, 1024.0);
        let length = random.within(2..=40);
        let s = strand(random, length);
        let pairs: Vec<bool> = (0..length).map(|_| !random.once_in(12)).collect();
        let b = beside(random, &s, &pairs);
        lines.push(Line::Strength(excess, s.clone()));
        lines.push(Line::Strength2(excess, s, b));
    }
}

fn ambients(random: &mut Random, lines: &mut Vec<Line>) {
    for kelvin in [200.0, 256.0, 310.15, 500.0] {
        lines.extend(around(kelvin).into_iter().map(Line::Ambient));
    }
    lines.extend(not_finite().into_iter().map(Line::Ambient));
    lines.extend([0.0, -0.0, -300.0, 199.0, 501.0, f64::MAX].map(Line::Ambient));
    for _ in 0..100 {
        lines.push(Line::Ambient(random.double(256.0, 500.0)));
        lines.push(Line::Ambient(random.double(200.0, 256.0)));
    }
}

/// Stars at the end, in front and inside; names of the full length and beyond.
fn names(lines: &mut Vec<Line>) {
    lines.extend(all_sequences(b"a*", 5).into_iter().map(Line::Name));
    for stars in [0, 1, 2, 3, 60, 61, 62, 63, 64, 65] {
        let name = [b"g0".as_slice(), &vec![b'*'; stars]].concat();
        lines.push(Line::Name(name));
        lines.push(Line::Name(vec![b'*'; stars]));
    }
}

#[cfg(test)]
mod tests {
    use super::*;
    use crate::bases::partner;
    use crate::replay::LONGEST_LINE;
    use std::collections::BTreeSet;

    /// The longest answer is ` ok`, then three doubles.
    const LONGEST_ANSWER: usize = 3 + 3 * 17;

    #[test]
    fn the_list_is_long_and_its_lines_are_not() {
        let lines = lines();
        assert!(lines.len() >= 2000, "{}", lines.len());
        for line in &lines {
            assert!(line.question().len() + LONGEST_ANSWER <= LONGEST_LINE);
        }
    }

    #[test]
    fn every_kind_has_every_reply() {
        let met: BTreeSet<(String, u32)> = lines()
            .iter()
            .map(|line| {
                let kind = line.question().split(' ').next().unwrap().to_string();
                (kind, line.verdict().number())
            })
            .collect();
        let owed: [(&str, &[u32]); 7] = [
            ("seq", &[0, 1, 2, 3]),
            ("pair", &[0, 1, 2, 4, 5]),
            ("loop", &[0, 5]),
            ("strength", &[0, 1, 2, 3, 9]),
            ("strength2", &[0, 1, 2, 4, 5, 9]),
            ("ambient", &[0, 9]),
            ("name", &[0, 1]),
        ];
        for (kind, replies) in owed {
            for number in replies {
                assert!(
                    met.contains(&(kind.to_string(), *number)),
                    "{kind} {number}"
                );
            }
        }
    }

    #[test]
    fn every_table_entry_is_there() {
        let lines = lines();
        let has = |line: Line| assert!(lines.contains(&line), "{line:?}");
        for x in *b"acgt" {
            for y in *b"acgt" {
                has(Line::Sequence(vec![x, y]));
                has(Line::Pair(vec![x, y], vec![partner(x), partner(y)]));
                for p in *b"acgt" {
                    has(Line::Pair(vec![p, x], vec![partner(p), y]));
                    has(Line::Pair(vec![x, p], vec![y, partner(p)]));
                }
            }
        }
        for kind in 0..3 {
            for length in LENGTHS {
                has(Line::Loop(length as u64, kind));
            }
        }
    }
}
