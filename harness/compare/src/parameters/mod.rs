//! Parameter sets for the generators: names and energies as a laboratory writes them. `drawn` makes
//! them, `layout` lays them out in one text as a call is lent them.

mod drawn;
mod layout;

use crate::random::Random;
use protocol::{bits, joined, sequence_word};
use std::fmt::Write;

pub use drawn::{damage, parameters, Shape};

pub type Name = Vec<u8>;

#[derive(Debug, Clone, PartialEq)]
pub enum Key {
    One(Name),
    Pair(Name, Name),
}

#[derive(Debug, Clone, PartialEq)]
pub enum Energy {
    Given(f64, f64),
    Sequence(Vec<u8>),
}

#[derive(Debug, Clone, Default)]
pub struct Parameters {
    /// West, bottom, east.
    pub strands: Vec<[Option<Name>; 3]>,
    pub scaffold: Vec<Option<Name>>,
    pub entries: Vec<(Key, Energy)>,
    pub penalty: (f64, f64),
    /// Numbers of user strands; 0 for none.
    pub quencher: usize,
    pub reporter: usize,
}

impl Parameters {
    /// The bases of all strand glues.
    pub fn known(&self) -> Vec<Name> {
        let mut bases: Vec<Name> = vec![];
        for name in self.strands.iter().flatten().flatten() {
            let base = base(name);
            if !bases.contains(&base) {
                bases.push(base);
            }
        }
        bases
    }

    /// Whether an entry there stands for the same unordered pair.
    fn names_again(&self, key: &Key) -> bool {
        let wanted = reduced(key);
        self.entries.iter().any(|(key, _)| reduced(key) == wanted)
    }

    /// Of entries with the same spelling the Rust's hash map keeps the last alone.
    pub fn has_a_key_twice(&self) -> bool {
        let keys = || self.entries.iter().map(|(key, _)| key);
        keys()
            .enumerate()
            .any(|(index, key)| keys().take(index).any(|other| other == key))
    }

    pub fn is_utf8(&self) -> bool {
        let text = |name: &Name| std::str::from_utf8(name).is_ok();
        let of_entry = |(key, energy): &(Key, Energy)| {
            let names = match key {
                Key::One(name) => text(name),
                Key::Pair(first, second) => text(first) && text(second),
            };
            names && !matches!(energy, Energy::Sequence(s) if !text(s))
        };
        self.strands.iter().flatten().flatten().all(text)
            && self.scaffold.iter().flatten().all(text)
            && self.entries.iter().all(of_entry)
    }

    /// "Equality is claimed where the Rust's `validity_check` passes": a quencher's strand has an
    /// east glue, a reporter's a west glue.
    pub fn is_valid_to_the_rust(&self) -> bool {
        let side = |strand: usize, side: usize| match strand {
            0 => true,
            strand => self.strands[strand - 1][side].is_some(),
        };
        side(self.quencher, 2) && side(self.reporter, 0)
    }

    /// Lines for the oracle. Strands have names of their own, by which the Rust finds quencher and
    /// reporter. A penalty of 0.0 may be left out.
    pub fn oracle_lines(&self, random: &mut Random) -> String {
        let mut lines = "p.new\n".to_string();
        let mut line = |text: String| writeln!(lines, "{text}").expect("a String takes any text");
        for (index, sides) in self.strands.iter().enumerate() {
            let sides = joined(sides.iter().map(|name| word(name.as_deref())), " ");
            line(format!("p.strand =s{} {sides} 1e-7", index + 1));
        }
        for (copied, strand) in [("quencher", self.quencher), ("reporter", self.reporter)] {
            if strand != 0 {
                line(format!("p.{copied} =s{strand} 1e-7"));
            }
        }
        if !self.scaffold.is_empty() {
            let names = self.scaffold.iter().map(|name| word(name.as_deref()));
            line(format!("p.scaffold {}", joined(names, " ")));
        }
        for (key, energy) in &self.entries {
            let energy = match energy {
                Energy::Given(dg, ds) => format!("gs {} {}", bits(*dg), bits(*ds)),
                Energy::Sequence(s) => format!("seq {}", word(Some(s))),
            };
            line(match key {
                Key::One(name) => format!("p.ref {} {energy}", word(Some(name))),
                Key::Pair(x, y) => format!("p.pair {} {} {energy}", word(Some(x)), word(Some(y))),
            });
        }
        let mut penalty = |x: f64| match x.to_bits() == 0 && random.once_in(2) {
            true => "-".to_string(),
            false => bits(x),
        };
        line(format!(
            "p.penalty {} {}",
            penalty(self.penalty.0),
            penalty(self.penalty.1)
        ));
        lines
    }
}

fn word(name: Option<&[u8]>) -> String {
    name.map_or("-".to_string(), sequence_word)
}

fn base(name: &[u8]) -> Name {
    let end = name.iter().rposition(|byte| *byte != b'*');
    name[..end.map_or(0, |last| last + 1)].to_vec()
}

/// Base and parity of the stars of each of the two names that a key stands for, in one order.
fn reduced(key: &Key) -> [(Name, usize); 2] {
    let of = |name: &Name| (base(name), (name.len() - base(name).len()) % 2);
    let mut both = match key {
        Key::One(name) => [(base(name), 0), (base(name), 1)],
        Key::Pair(first, second) => [of(first), of(second)],
    };
    both.sort();
    both
}
