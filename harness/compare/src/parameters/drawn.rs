//! Random sets, and damage done to them.

use super::{reduced, Energy, Key, Name, Parameters};
use crate::bases::{spoil, strand};
use crate::doubles::{extreme, not_finite, of_any_size};
use crate::judge::sequences::STACKS;
use crate::random::Random;

/// How large a set is.
pub struct Shape {
    pub users: usize,
    /// Bases that names are made of; how many of them the strands use is left open.
    pub bases: usize,
    pub positions: usize,
    pub entries: usize,
    /// Behind the names of strands and entries: with more than one, mostly, a name retires.
    pub most_stars: usize,
}

impl Shape {
    pub fn small(random: &mut Random) -> Self {
        Shape {
            users: random.within(0..=4),
            bases: random.within(1..=6),
            positions: random.within(0..=4),
            entries: random.within(0..=5),
            most_stars: random.pick(&[1, 5]),
        }
    }

    pub fn middling(random: &mut Random) -> Self {
        Shape {
            users: random.within(5..=24),
            bases: random.within(4..=36),
            positions: random.within(4..=40),
            entries: random.within(4..=60),
            most_stars: random.pick(&[1, 5]),
        }
    }

    pub fn full(random: &mut Random) -> Self {
        Shape {
            users: random.within(59..=61),
            bases: random.pick(&[20, 31, 31, 32, 183]),
            positions: random.within(120..=128),
            entries: random.pick(&[200, 400, 1023, 1024]),
            most_stars: random.pick(&[1, 5]),
        }
    }
}

/// A set that document 01 admits, unless its strands happen to use more than 31 bases.
pub fn parameters(random: &mut Random, shape: &Shape, utf8: bool) -> Parameters {
    let bases = different_bases(random, shape.bases, utf8);
    let mut set = Parameters {
        penalty: (penalty(random), penalty(random)),
        ..Parameters::default()
    };
    for _ in 0..shape.users {
        let side = |random: &mut Random| match random.once_in(6) {
            true => None,
            false => Some(with_stars(random, &bases, shape.most_stars)),
        };
        set.strands.push([side(random), side(random), side(random)]);
    }
    let known = set.known();
    for _ in 0..shape.positions {
        set.scaffold
            .push(match known.is_empty() || random.once_in(8) {
                true => None,
                false => {
                    let star: &[u8] = random.pick(&[b"".as_slice(), b"*"]);
                    Some([&known[random.below(known.len())], star].concat())
                }
            });
    }
    for _ in 0..shape.entries {
        let key = key(random, &bases, shape.most_stars);
        if !set.names_again(&key) {
            set.entries.push((key, energy(random)));
        }
    }
    set.quencher = random.within(0..=shape.users);
    set.reporter = match random.once_in(2) {
        true => set.quencher,
        false => random.within(0..=shape.users),
    };
    set
}

/// So many bases, none of them twice: letters, beginnings of one another, stars in front or inside,
/// the empty name, names of the full length, and bytes beyond ASCII.
fn different_bases(random: &mut Random, count: usize, utf8: bool) -> Vec<Name> {
    let mut bases: Vec<Name> = vec![];
    while bases.len() < count {
        let number = random.below(4 * count + 4);
        let base: Name = match random.below(12) {
            0 => vec![],
            1 => format!("*{number}").into_bytes(),
            2 => format!("{number}*b").into_bytes(),
            3 => format!("é{number}λ").into_bytes(),
            4 if !utf8 => vec![0xff, number as u8 | 1, 0x80],
            5 => vec![b'n'; random.within(56..=59)],
            6 => vec![b'a'; random.within(1..=5)],
            _ => format!("g{number}").into_bytes(),
        };
        if !bases.contains(&base) {
            bases.push(base);
        }
    }
    bases
}

fn with_stars(random: &mut Random, bases: &[Name], most: usize) -> Name {
    let mut name = bases[random.below(bases.len())].clone();
    let stars = match random.once_in(3) {
        true => random.within(0..=most),
        false => random.within(0..=1),
    };
    name.extend(vec![b'*'; stars]);
    name
}

fn key(random: &mut Random, bases: &[Name], most_stars: usize) -> Key {
    let name = |random: &mut Random| match random.once_in(8) {
        true => b"unused".to_vec(),
        false => with_stars(random, bases, most_stars),
    };
    match random.once_in(2) {
        true => Key::One(name(random)),
        false => Key::Pair(name(random), name(random)),
    }
}

/// Within the ranges whatever the penalties are: those are small.
fn energy(random: &mut Random) -> Energy {
    match random.below(8) {
        0 => Energy::Given(random.pick(&[0.0, -0.0, 0.25]), random.pick(&[0.0, -0.0])),
        1 => Energy::Given(random.double(-1000.0, 1000.0), random.double(-7.0, 7.0)),
        2 => Energy::Given(
            random.pick(&[5e-324, -5e-324, 1e-300]),
            of_any_size(random) / 1024.0,
        ),
        3 | 4 => {
            let (_, dg, ds) = random.pick(&STACKS);
            Energy::Given(f64::from(dg) / 10.0, f64::from(ds) / 1000.0)
        }
        _ => {
            let length = match random.once_in(20) {
                true => random.within(250..=256),
                false => random.within(2..=24),
            };
            Energy::Sequence(strand(random, length))
        }
    }
}

fn penalty(random: &mut Random) -> f64 {
    match random.below(8) {
        0 => -0.0,
        1 | 2 => random.double(-1.0, 1.0),
        3 => random.pick(&[5e-324, -5e-324, 0.5, -0.25]),
        _ => 0.0,
    }
}

/// A change that brings about a refusal of document 01 other than 1, or just not.
pub fn damage(random: &mut Random, set: &mut Parameters) {
    let entry = match set.entries.len() {
        0 => None,
        count => Some(random.below(count)),
    };
    match (random.below(9), entry) {
        (0, Some(entry)) => {
            let mut sequence = strand(random, 6);
            spoil(random, &mut sequence);
            set.entries[entry].1 = Energy::Sequence(sequence);
        }
        (1, Some(entry)) => {
            let length = random.below(2);
            set.entries[entry].1 = Energy::Sequence(strand(random, length));
        }
        (2, _) => name_the_scaffold(random, set),
        (3, _) => use_many_bases(set),
        (4 | 5, Some(entry)) if set.entries.len() < 1024 => {
            let key = respelled(random, &set.entries[entry].0);
            set.entries.push((key, energy(random)));
        }
        (6 | 7, Some(entry)) => set.entries[entry].1 = odd_energy(random, set.penalty),
        _ => {
            let odd = [
                not_finite(),
                vec![1e308, -1e308, 1024.0, 8.0, -8.0, -1024.0],
            ]
            .concat();
            match random.once_in(2) {
                true => set.penalty.0 = random.pick(&odd),
                false => set.penalty.1 = random.pick(&odd),
            }
        }
    }
}

/// One more position, with a name that need not be known as it is spelled.
fn name_the_scaffold(random: &mut Random, set: &mut Parameters) {
    let mut bases = set.known();
    bases.push(b"unused".to_vec());
    let mut name = bases[random.below(bases.len())].clone();
    name.extend(vec![b'*'; random.within(0..=5)]);
    set.scaffold.push(Some(name));
    set.scaffold.truncate(128);
}

/// The last eleven strands get glues of their own: 33 bases, where there are as many strands.
fn use_many_bases(set: &mut Parameters) {
    let from = set.strands.len().saturating_sub(11);
    for (index, sides) in set.strands[from..].iter_mut().enumerate() {
        *sides = [0, 1, 2].map(|side| Some(format!("m{}", 3 * index + side).into_bytes()));
    }
}

/// Numbers that are odd by themselves, or whose sums with the penalties are about the ends.
fn odd_energy(random: &mut Random, penalty: (f64, f64)) -> Energy {
    let mut odd = |penalty: f64, end: f64| {
        let numbers = [not_finite(), extreme(), edges(penalty, end)].concat();
        random.pick(&numbers)
    };
    let (dg, ds) = (odd(penalty.0, 1024.0), odd(penalty.1, 8.0));
    match random.below(3) {
        0 => Energy::Given(dg, 0.0),
        1 => Energy::Given(0.0, ds),
        _ => Energy::Given(dg, ds),
    }
}

/// Numbers whose sum with a penalty is about the end of a range.
fn edges(penalty: f64, end: f64) -> Vec<f64> {
    let near = [end.next_down(), end, end.next_up()];
    near.iter()
        .flat_map(|x| [x - penalty, -x - penalty])
        .collect()
}

/// The same unordered pair in another spelling, or the same.
fn respelled(random: &mut Random, key: &Key) -> Key {
    let [mut x, mut y] = reduced(key);
    if random.once_in(2) {
        std::mem::swap(&mut x, &mut y);
    }
    if x.0 == y.0 && x.1 != y.1 && random.once_in(3) {
        let stars = random.below(6);
        return Key::One([x.0, vec![b'*'; stars]].concat());
    }
    let mut spelled = |(base, parity): (Name, usize)| {
        let stars = parity + 2 * random.below(2);
        [base, vec![b'*'; stars]].concat()
    };
    Key::Pair(spelled(x), spelled(y))
}
