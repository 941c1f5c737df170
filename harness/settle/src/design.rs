//! Random designs, as a file states them and as the oracle is told them.

use crate::statements::{number, Statement};
use compare::random::Random;
use protocol::{bits, joined, sequence_word};

pub type Name = Vec<u8>;

pub struct Strand {
    pub name: Name,
    /// West, bottom, east.
    pub sides: [Option<Name>; 3],
    pub potential: f64,
}

pub enum Energy {
    Given(f64, f64),
    Sequence(Vec<u8>),
}

/// For one name or a pair.
pub struct Entry {
    pub names: Vec<Name>,
    pub energy: Energy,
}

pub struct Design {
    pub celsius: f64,
    pub strands: Vec<Strand>,
    /// Whose glues are copied, by number from 0, and the potential.
    pub quencher: Option<(Option<usize>, f64)>,
    pub reporter: Option<(Option<usize>, f64)>,
    pub scaffold: Vec<Option<Name>>,
    /// Of each position whether it is blocked.
    pub blocked: Vec<bool>,
    pub entries: Vec<Entry>,
    pub penalty: Option<(f64, f64)>,
}

pub fn base(name: &[u8]) -> Name {
    let end = name.iter().rposition(|byte| *byte != b'*');
    name[..end.map_or(0, |last| last + 1)].to_vec()
}

/// The unordered pair that an entry's names stand for: bases, and whether the stars are odd.
pub fn pair(names: &[Name]) -> [(Name, bool); 2] {
    let of = |name: &Name| (base(name), (name.len() - base(name).len()) % 2 == 1);
    let mut both = match names {
        [one] => [(base(one), false), (base(one), true)],
        [first, second] => [of(first), of(second)],
        _ => panic!("an entry has one name or two"),
    };
    both.sort();
    both
}

impl Design {
    /// A strand's or an entry's name that ends in two or more stars.
    pub fn first_retired(&self) -> Option<&[u8]> {
        let of_strands = self
            .strands
            .iter()
            .flat_map(|strand| strand.sides.iter().flatten());
        let of_entries = self.entries.iter().flat_map(|entry| &entry.names);
        let mut names = of_strands.chain(of_entries).map(Vec::as_slice);
        names.find(|name| name.ends_with(b"**"))
    }

    /// Some 4 to 40 positions and strands; one in twenty of up to 128 and 61.
    pub fn random(random: &mut Random) -> Self {
        let large = random.once_in(20);
        let (most_strands, most_positions) = if large { (61, 128) } else { (8, 12) };
        let bases = bases(random, if large { 31 } else { 9 });
        let mut design = Design {
            celsius: random.double(-10.0, 95.0),
            strands: vec![],
            quencher: None,
            reporter: None,
            scaffold: vec![],
            blocked: vec![],
            entries: vec![],
            penalty: None,
        };
        for index in 0..random.within(0..=most_strands) {
            design.strands.push(strand(random, &bases, index));
        }
        design.copies(random);
        let known = design.known();
        for _ in 0..random.within(0..=most_positions) {
            let absent = known.is_empty() || random.once_in(9);
            let name = |random: &mut Random| {
                let mut name = known[random.below(known.len())].clone();
                name.extend(vec![b'*'; random.below(2)]);
                name
            };
            design.scaffold.push((!absent).then(|| name(random)));
        }
        let in_eight = random.pick(&[0, 0, 1, 4, 8]);
        let blocked = design.scaffold.iter().map(|_| random.below(8) < in_eight);
        design.blocked = blocked.collect();
        for _ in 0..random.within(0..=if large { 200 } else { 14 }) {
            let entry = entry(random, &bases);
            let wanted = pair(&entry.names);
            if design.entries.iter().all(|e| pair(&e.names) != wanted) {
                design.entries.push(entry);
            }
        }
        if random.once_in(3) {
            design.penalty = Some((random.double(-2.0, 2.0), random.double(-0.01, 0.01)));
        }
        design
    }

    /// The Rust takes a quencher whose strand has an east glue, a reporter whose strand has a west glue.
    fn copies(&mut self, random: &mut Random) {
        let with = |side: usize| -> Vec<usize> {
            let has = |index: &usize| self.strands[*index].sides[side].is_some();
            (0..self.strands.len()).filter(has).collect()
        };
        let chosen = |random: &mut Random, of: Vec<usize>| match random.below(3) {
            0 => None,
            1 => Some((None, potential(random))),
            _ if of.is_empty() => None,
            _ => Some((Some(random.pick(&of)), potential(random))),
        };
        let (east, west) = (with(2), with(0));
        self.quencher = chosen(random, east);
        self.reporter = chosen(random, west);
    }

    /// The bases of all strand glues.
    pub fn known(&self) -> Vec<Name> {
        let mut bases: Vec<Name> = vec![];
        for name in self
            .strands
            .iter()
            .flat_map(|strand| &strand.sides)
            .flatten()
        {
            if !bases.contains(&base(name)) {
                bases.push(base(name));
            }
        }
        bases
    }

    /// The name under which an occupant is shown.
    pub fn shown(&self, occupant: usize) -> Option<Name> {
        let users = self.strands.len();
        match occupant {
            0 => None,
            n if n <= users => Some(self.strands[n - 1].name.clone()),
            n if n == users + 1 => Some(b"quencher".to_vec()),
            _ => Some(b"reporter".to_vec()),
        }
    }

    /// The Rust knows no blocked positions; one without a glue has no friends either.
    pub fn oracle_lines(&self) -> String {
        let mut lines = vec!["mode id".to_string(), "p.new".to_string()];
        for strand in &self.strands {
            let sides = joined(strand.sides.iter().map(|name| word(name.as_deref())), " ");
            let name = word(Some(&strand.name));
            lines.push(format!(
                "p.strand {name} {sides} {}",
                bits(strand.potential)
            ));
        }
        for (what, copied) in [("quencher", &self.quencher), ("reporter", &self.reporter)] {
            if let Some((Some(strand), potential)) = copied {
                let name = word(Some(&self.strands[*strand].name));
                lines.push(format!("p.{what} {name} {}", bits(*potential)));
            }
        }
        if !self.scaffold.is_empty() {
            let open = self.scaffold.iter().zip(&self.blocked);
            let names = open.map(|(name, blocked)| word(name.as_deref().filter(|_| !blocked)));
            lines.push(format!("p.scaffold {}", joined(names, " ")));
        }
        for entry in &self.entries {
            let kind = if entry.names.len() == 1 {
                "ref"
            } else {
                "pair"
            };
            let names = joined(entry.names.iter().map(|name| word(Some(name))), " ");
            let energy = match &entry.energy {
                Energy::Given(dg, ds) => format!("gs {} {}", bits(*dg), bits(*ds)),
                Energy::Sequence(bases) => format!("seq {}", word(Some(bases))),
            };
            lines.push(format!("p.{kind} {names} {energy}"));
        }
        if let Some((dg, ds)) = self.penalty {
            lines.push(format!("p.penalty {} {}", bits(dg), bits(ds)));
        }
        lines.push(format!("p.temp {}", bits(self.celsius)));
        lines.join("\n")
    }

    /// With the ambient as the statement given.
    pub fn statements(&self, random: &mut Random, ambient: Statement) -> Vec<Statement> {
        let mut all = vec![ambient];
        for strand in &self.strands {
            let mut words = vec![b"strand".to_vec(), strand.name.clone()];
            words.extend(strand.sides.iter().map(|side| or_dash(side.as_ref())));
            words.push(number(random, strand.potential));
            all.push(words);
        }
        for (what, copied) in [("quencher", &self.quencher), ("reporter", &self.reporter)] {
            if let Some((strand, potential)) = copied {
                let name = strand.map(|index| &self.strands[index].name);
                all.push(vec![
                    what.as_bytes().to_vec(),
                    or_dash(name),
                    number(random, *potential),
                ]);
            }
        }
        let mut from = 0;
        while from < self.scaffold.len() || random.once_in(9) {
            let blocked = self.blocked.get(from).copied().unwrap_or(random.once_in(2));
            let alike = self.blocked[from..].iter().take_while(|b| **b == blocked);
            let end = from + random.within(0..=alike.count());
            let keyword: &[u8] = if blocked { b"blocked" } else { b"scaffold" };
            let mut words = vec![keyword.to_vec()];
            words.extend(
                self.scaffold[from..end]
                    .iter()
                    .map(|name| or_dash(name.as_ref())),
            );
            all.push(words);
            from = end;
        }
        for entry in &self.entries {
            let keyword: &[u8] = if entry.names.len() == 1 {
                b"energy"
            } else {
                b"pair"
            };
            let mut words = vec![keyword.to_vec()];
            words.extend(entry.names.iter().cloned());
            match &entry.energy {
                Energy::Given(dg, ds) => {
                    words.extend([b"dg".to_vec(), number(random, *dg)]);
                    words.extend([b"ds".to_vec(), number(random, *ds)]);
                }
                Energy::Sequence(bases) => words.extend([b"seq".to_vec(), bases.clone()]),
            }
            all.push(words);
        }
        if let Some((dg, ds)) = self.penalty {
            all.push(vec![
                b"penalty".to_vec(),
                number(random, dg),
                number(random, ds),
            ]);
        }
        mixed(random, all)
    }
}

/// In another order, in which lines of one kind keep theirs: strands and positions are numbered by it.
fn mixed(random: &mut Random, all: Vec<Statement>) -> Vec<Statement> {
    let is = |words: &Statement| match words[0].as_slice() {
        b"blocked" => b"scaffold".to_vec(),
        keyword => keyword.to_vec(),
    };
    let mut queues: Vec<(Name, std::collections::VecDeque<Statement>)> = vec![];
    for words in all {
        match queues.iter_mut().find(|(kind, _)| *kind == is(&words)) {
            Some((_, queue)) => queue.push_back(words),
            None => queues.push((is(&words), [words].into())),
        }
    }
    let mut out = vec![];
    while !queues.is_empty() {
        let index = match random.once_in(3) {
            true => random.below(queues.len()),
            false => 0,
        };
        out.extend(queues[index].1.pop_front());
        if queues[index].1.is_empty() {
            queues.remove(index);
        }
    }
    out
}

fn or_dash(name: Option<&Name>) -> Name {
    name.cloned().unwrap_or(b"-".to_vec())
}

fn word(name: Option<&[u8]>) -> String {
    name.map_or("-".to_string(), sequence_word)
}

/// Names that a word can be: no blank, no # in front, not - alone.
fn bases(random: &mut Random, count: usize) -> Vec<Name> {
    let mut bases: Vec<Name> = vec![];
    while bases.len() < count {
        let number = random.below(4 * count);
        let base = match random.below(10) {
            0 => format!("*{number}"),
            1 => format!("{number}#\"\\"),
            2 => format!("\u{e9}{number}\u{3bb}"),
            3 => "n".repeat(random.within(50..=60)),
            4 => format!("-{number}"),
            _ => format!("g{number}"),
        };
        if !bases.contains(&base.clone().into_bytes()) {
            bases.push(base.into_bytes());
        }
    }
    bases
}

fn starred(random: &mut Random, bases: &[Name]) -> Name {
    let mut name = bases[random.below(bases.len())].clone();
    let stars = if random.once_in(6) {
        random.below(5)
    } else {
        random.below(2)
    };
    name.extend(vec![b'*'; stars]);
    name
}

fn potential(random: &mut Random) -> f64 {
    match random.once_in(3) {
        true => random.within(0..=40) as f64 * -0.5,
        false => random.double(-30.0, 2.0),
    }
}

fn strand(random: &mut Random, bases: &[Name], index: usize) -> Strand {
    let side = |random: &mut Random| (!random.once_in(5)).then(|| starred(random, bases));
    Strand {
        name: match random.below(6) {
            0 => format!("{index}\"quoted\\\""),
            1 => format!("\u{3b1}{index}\u{7f}"),
            2 => format!("a-long-name-of-strand-number-{index}"),
            _ => format!("s{index}"),
        }
        .into_bytes(),
        sides: [side(random), side(random), side(random)],
        potential: potential(random),
    }
}

fn entry(random: &mut Random, bases: &[Name]) -> Entry {
    let count = random.within(1..=2);
    let names = (0..count)
        .map(|_| match random.once_in(12) {
            true => b"unused".to_vec(),
            false => starred(random, bases),
        })
        .collect();
    let energy = match random.below(4) {
        0 => Energy::Given(random.double(-20.0, 5.0), random.double(-0.3, 0.1)),
        1 => Energy::Given(random.below(40) as f64 * -0.25, 0.0),
        _ => {
            let length = random.within(2..=20);
            Energy::Sequence((0..length).map(|_| random.pick(b"acgtACGT")).collect())
        }
    };
    Entry { names, energy }
}
