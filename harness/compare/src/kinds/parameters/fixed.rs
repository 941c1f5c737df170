//! Sets that are just in or just out, one change at a time.

use super::damage::{numbers, resized, starts, width, NUMBERS};
use super::{ask_alone, ask_both, ask_port};
use crate::kinds::Ask;
use crate::parameters::{parameters, Energy, Key, Name, Parameters, Shape};
use crate::random::Random;

fn named(name: &str) -> Option<Name> {
    Some(name.as_bytes().to_vec())
}

/// So many strands, each with a bottom glue of its own base.
fn with_bases(count: usize) -> Parameters {
    let strand = |number| [None, named(&format!("g{number}")), None];
    Parameters {
        strands: (0..count).map(strand).collect(),
        ..Parameters::default()
    }
}

/// A set that has some of everything.
fn base() -> Parameters {
    let pair = |x: &str, y: &str| Key::Pair(x.into(), y.into());
    Parameters {
        strands: vec![
            [named("a"), named("b*"), named("c**")],
            [named("c*"), None, named("")],
            [named("é"), named("b"), named("a***")],
        ],
        scaffold: vec![named("b"), None, named("*"), named("b*")],
        entries: vec![
            (Key::One("b".into()), Energy::Sequence(b"acgtac".to_vec())),
            (pair("a", "c"), Energy::Given(-1.5, -0.0)),
            (pair("a", "unused"), Energy::Given(f64::NAN, 1e308)),
            (Key::One("***".into()), Energy::Given(-0.0, 0.25)),
        ],
        penalty: (0.5, -0.0),
        quencher: 1,
        reporter: 3,
    }
}

/// Counts at their limits and one beyond.
pub fn every_count(random: &mut Random, ask: &mut Ask) {
    for users in 0..=62 {
        let shape = Shape {
            users,
            bases: 12,
            positions: 3,
            entries: 8,
            most_stars: 1 + 4 * (users % 2),
        };
        let set = parameters(random, &shape, true);
        ask_both(random, &set, ask);
    }
    for positions in [0, 1, 127, 128, 129, 200] {
        let mut set = base();
        set.scaffold = vec![named("b*"); positions];
        ask_both(random, &set, ask);
    }
    for entries in [0, 1, 1023, 1024, 1025, 2000] {
        let mut set = base();
        let one = |number| Key::Pair("a".into(), format!("u{number}").into());
        let energy = || Energy::Given(f64::INFINITY, 9.0);
        set.entries = (0..entries).map(|number| (one(number), energy())).collect();
        ask_both(random, &set, ask);
    }
    for length in [0, 1, 2, 63, 64, 65, 100] {
        let name = || Some(vec![b'n'; length]);
        let mut set = base();
        set.strands[1][1] = name();
        ask_both(random, &set, ask);
        set.scaffold.push(name());
        ask_both(random, &set, ask);
        let mut set = base();
        set.entries[1].0 = Key::One(name().unwrap());
        ask_both(random, &set, ask);
        set.entries[1].0 = Key::Pair("a".into(), name().unwrap());
        ask_both(random, &set, ask);
    }
    for length in [0, 1, 2, 255, 256, 257, 1000] {
        for entry in 0..4 {
            let mut set = base();
            set.entries[entry].1 = Energy::Sequence(vec![b'G'; length]);
            ask_both(random, &set, ask);
        }
    }
}

/// Stars behind names of every place, and lower faults beside them.
pub fn every_star(random: &mut Random, ask: &mut Ask) {
    for base in ["", "a", "**a", "a**b", "unused"] {
        for stars in 0..=5 {
            let name = format!("{base}{}", "*".repeat(stars));
            for place in 0..6 {
                let mut set = plain();
                starred(&mut set, place, &name);
                ask_both(random, &set, ask);
                set.scaffold.push(named("a**"));
                ask_both(random, &set, ask);
                set.scaffold.pop();
                set.entries.push(set.entries[0].clone());
                ask_both(random, &set, ask);
                set.entries.pop();
                set.penalty.0 = f64::INFINITY;
                ask_both(random, &set, ask);
            }
        }
    }
    let mut set = with_bases(32);
    set.strands[7][1] = named("g7**");
    ask_both(random, &set, ask);
}

/// A set with no star but one.
fn plain() -> Parameters {
    Parameters {
        strands: vec![[named("a"), named("b*"), named("c")]],
        scaffold: vec![named("b")],
        entries: vec![
            (Key::One("b".into()), Energy::Given(-1.0, 0.25)),
            (Key::Pair("a".into(), "c".into()), Energy::Given(-2.0, 0.5)),
        ],
        ..Parameters::default()
    }
}

/// A name at one of six places: the sides of a strand, the names of entries.
fn starred(set: &mut Parameters, place: usize, name: &str) {
    match place {
        0..=2 => set.strands[0][place] = named(name),
        3 => set.entries[0].0 = Key::One(name.into()),
        4 => set.entries[1].0 = Key::Pair(name.into(), "c".into()),
        _ => set.entries[1].0 = Key::Pair("a".into(), name.into()),
    }
}

/// A number names a build or none, whatever the set is.
pub fn every_build(random: &mut Random, ask: &mut Ask) {
    for set in [plain(), base()] {
        let mut lent = set.laid_out(random);
        for build in [0, 1, 2, 3, 21, 255, 256, 1 << 31, u32::MAX] {
            lent.build = build;
            ask_alone(&lent, ask);
        }
    }
}

/// `a**` is no known name, 31 base names build and 32 do not; and 6 comes before 7.
pub fn bench_lines(random: &mut Random, ask: &mut Ask) {
    for stars in 0..=5 {
        let mut set = base();
        set.scaffold = vec![named(&format!("a{}", "*".repeat(stars)))];
        ask_both(random, &set, ask);
    }
    for count in [30, 31, 32, 33, 61] {
        let mut set = with_bases(count);
        ask_both(random, &set, ask);
        set.scaffold = vec![named("g0*")];
        ask_both(random, &set, ask);
        set.scaffold.push(named("g0**"));
        ask_both(random, &set, ask);
    }
    let mut set = with_bases(61);
    for (number, sides) in set.strands.iter_mut().enumerate() {
        sides[0] = named(&format!("w{number}"));
        sides[2] = named(&format!("e{number}"));
    }
    for name in ["w60", "e60*", "e60**", "g7", "g61"] {
        set.scaffold = vec![named(name)];
        ask_both(random, &set, ask);
    }
    for strand in [0, 1, 2, 3] {
        let mut set = base();
        set.quencher = strand;
        ask_both(random, &set, ask);
        set.reporter = strand;
        ask_both(random, &set, ask);
    }
}

/// Every lent slice one shorter and one longer, and so a row.
pub fn every_length(random: &mut Random, ask: &mut Ask) {
    let lent = base().laid_out(random);
    for longer in [false, true] {
        for which in 0..NUMBERS {
            for by in [1, width(which)] {
                let mut lent = lent.clone();
                resized(numbers(&mut lent, which), longer, by, 0);
                ask_port(&lent, ask);
            }
        }
        for by in [1, 2] {
            let mut lent = lent.clone();
            resized(&mut lent.energies, longer, by, 0.0);
            ask_port(&lent, ask);
        }
        let mut lent = lent.clone();
        resized(&mut lent.entries, longer, 8, 0);
        resized(&mut lent.energies, longer, 2, 0.0);
        ask_port(&lent, ask);
    }
    for which in 0..4 {
        for change in [0, 1, 2] {
            let mut lent = lent.clone();
            lent.written[which] = (lent.written[which] + change).saturating_sub(1);
            ask_port(&lent, ask);
            lent.written[which] = 0;
            ask_port(&lent, ask);
        }
    }
}

/// Every number of every row with values in, at and beyond what it may be, and every number of a
/// copied strand.
pub fn every_number(random: &mut Random, ask: &mut Ask) {
    let lent = base().laid_out(random);
    let end = lent.text.len();
    let values = [0, 1, 2, 64, 65, 128, 255, 256, 257, end - 1, end, end + 1];
    for which in 0..NUMBERS {
        for index in 0..numbers(&mut lent.clone(), which).len() {
            for value in values.into_iter().chain([1 << 32, usize::MAX]) {
                let mut lent = lent.clone();
                numbers(&mut lent, which)[index] = value;
                ask_port(&lent, ask);
            }
        }
        for start in starts(which) {
            for (from, length) in [
                (end, 0),
                (end + 1, 0),
                (end, 1),
                (usize::MAX, 2),
                (2, usize::MAX),
            ] {
                let mut lent = lent.clone();
                numbers(&mut lent, which)[*start] = from;
                numbers(&mut lent, which)[start + 1] = length;
                ask_port(&lent, ask);
            }
        }
    }
    for strand in [0, 1, 3, 4, 5, 6, 61, 255, 256, usize::MAX] {
        for changed in 0..3 {
            let mut lent = lent.clone();
            *[&mut lent.quencher, &mut lent.reporter, &mut lent.users][changed] = strand;
            ask_port(&lent, ask);
        }
    }
}
