//! Document 01, "Names and glue tables", and document 02, A.13, read once more: refusals and answers of a name's base, of
//! the numbers of all strand glues and of `from_params`, from the documents alone.

use super::sequences::{self, energies};
use super::{out_of_range, Verdict};

const MOST_USERS: usize = 61;
const MOST_POSITIONS: usize = 128;
const MOST_ENTRIES: usize = 1024;
const LONGEST_NAME: usize = 64;
const MOST_BASES: usize = 31;
const GLUES: usize = 64;
pub const CELLS: usize = GLUES * GLUES;

/// The numbers of the two builds of document 02, A.13.
pub const ORDINARY: u32 = 0;
pub const ARCHIVE: u32 = 1;

/// What `from_params` is lent: slices of any length and content.
#[derive(Debug, Clone, Default)]
pub struct Lent {
    pub build: u32,
    pub text: Vec<u8>,
    pub users: usize,
    /// West, bottom, east of each user strand. A name is a row of three numbers: a mark, 1 if it is
    /// there, and its start and its length in the text.
    pub strands: Vec<usize>,
    pub scaffold: Vec<usize>,
    /// A row of eight numbers for each entry: start and length of its first name; mark, start and
    /// length of its second, where a mark of 0 is an entry for one name; its form, 0 for two doubles,
    /// 1 for a sequence; start and length of the sequence.
    pub entries: Vec<usize>,
    /// A row of two doubles for each entry.
    pub energies: Vec<f64>,
    pub penalty_dg: f64,
    pub penalty_ds: f64,
    /// 0 for none.
    pub quencher: usize,
    pub reporter: usize,
    /// How many strand glues, scaffold glues, dG cells and dS cells are lent to be written.
    pub written: [usize; 4],
}

/// What is written where nothing is refused.
#[derive(Debug, Clone, PartialEq)]
pub struct Built {
    pub strand_glues: Vec<u8>,
    pub scaffold_glues: Vec<u8>,
    pub dg: Vec<f64>,
    pub ds: Vec<f64>,
}

/// A name's base, and whether the name stands for the base itself.
fn reduced(name: &[u8]) -> (&[u8], bool) {
    let stars = name.iter().rev().take_while(|byte| **byte == b'*').count();
    (&name[..name.len() - stars], stars % 2 == 0)
}

/// "Never a sum": a start and a length may be any numbers.
fn leaves(text: &[u8], start: usize, length: usize) -> bool {
    start > text.len() || length > text.len() - start
}

pub fn name_verdict(text: &[u8], start: usize, length: usize) -> Verdict {
    let unfit = length > LONGEST_NAME || leaves(text, start, length);
    Verdict::lowest(&[(1, unfit)])
}

/// Start and length of the base, and whether the name stands for it.
pub fn name(text: &[u8], start: usize, length: usize) -> (usize, usize, bool) {
    let (base, is_base) = reduced(&text[start..start + length]);
    (start, base.len(), is_base)
}

/// A name as it is lent.
#[derive(Debug, Clone, Copy)]
struct Name {
    mark: usize,
    start: usize,
    length: usize,
}

impl Name {
    fn is_unfit(self, text: &[u8]) -> bool {
        match self.mark {
            0 => false,
            1 => name_verdict(text, self.start, self.length).number() != 0,
            _ => true,
        }
    }

    fn spelled(self, text: &[u8]) -> Option<&[u8]> {
        (self.mark == 1).then(|| &text[self.start..self.start + self.length])
    }
}

fn names(rows: &[usize]) -> impl Iterator<Item = Name> + '_ {
    rows.chunks_exact(3).map(|row| Name {
        mark: row[0],
        start: row[1],
        length: row[2],
    })
}

fn are_unfit(rows: &[usize], count: usize, text: &[u8]) -> bool {
    rows.len() != 3 * count || names(rows).any(|name| name.is_unfit(text))
}

fn all_spelled<'a>(
    rows: &'a [usize],
    text: &'a [u8],
) -> impl Iterator<Item = Option<&'a [u8]>> + 'a {
    names(rows).map(|name| name.spelled(text))
}

/// An energy entry as it is lent.
#[derive(Debug, Clone, Copy)]
struct Entry {
    first: Name,
    second: Name,
    form: usize,
    start: usize,
    length: usize,
    dg: f64,
    ds: f64,
}

impl Entry {
    fn is_unfit(self, text: &[u8]) -> bool {
        let energy = match self.form {
            0 => false,
            1 => leaves(text, self.start, self.length) || self.length > sequences::LONGEST,
            _ => true,
        };
        self.first.is_unfit(text) || self.second.is_unfit(text) || energy
    }

    fn sequence(self, text: &[u8]) -> Option<&[u8]> {
        (self.form == 1).then(|| &text[self.start..self.start + self.length])
    }
}

/// Refusals of `from_params`.
impl Lent {
    pub fn verdict(&self) -> Verdict {
        // Nothing else can be looked up while a size is wrong, and 1 is the lowest number.
        if self.wrong_sizes() {
            return Verdict::lowest(&[(1, true)]);
        }
        // A faulty sequence has no energy, and the numbers that need one come later.
        let has_sequence_of = |number| {
            let sequences = self
                .entries()
                .filter_map(|entry| entry.sequence(&self.text));
            let mut verdicts = sequences.map(sequences::sequence);
            verdicts.any(|verdict| verdict.number() == number)
        };
        let of_sequences = [2, 3].map(|number| (number, has_sequence_of(number)));
        if of_sequences.iter().any(|(_, holds)| *holds) {
            return Verdict::lowest(&of_sequences);
        }
        let bases = self.bases();
        let spelled = || all_spelled(&self.scaffold, &self.text).flatten();
        let unknown = spelled().any(|name| number_as_spelled(&bases, name).is_none());
        let pairs: Vec<(usize, usize)> = self.writes(&bases).map(|(pair, _, _)| pair).collect();
        let twice = |index: usize| pairs[..index].contains(&pairs[index]);
        let sums_out_of_range = self
            .writes(&bases)
            .any(|(_, dg, ds)| out_of_range(dg, -1024.0, 1024.0) || out_of_range(ds, -8.0, 8.0));
        Verdict::lowest(&[
            (6, unknown),
            (7, bases.len() > MOST_BASES),
            (8, (0..pairs.len()).any(twice)),
            (9, sums_out_of_range),
            (21, self.build == ORDINARY && self.has_retired_names()),
        ])
    }

    /// "A strand or entry name that ends in two or more stars", known or not.
    fn has_retired_names(&self) -> bool {
        let of_entries = self.entries().flat_map(|entry| [entry.first, entry.second]);
        names(&self.strands)
            .chain(of_entries)
            .filter_map(|name| name.spelled(&self.text))
            .any(|name| name.ends_with(b"**"))
    }

    /// The first name of an entry is always there.
    fn entries(&self) -> impl Iterator<Item = Entry> + '_ {
        let rows = self.entries.chunks_exact(8);
        rows.zip(self.energies.chunks_exact(2))
            .map(|(row, energy)| Entry {
                first: Name {
                    mark: 1,
                    start: row[0],
                    length: row[1],
                },
                second: Name {
                    mark: row[2],
                    start: row[3],
                    length: row[4],
                },
                form: row[5],
                start: row[6],
                length: row[7],
                dg: energy[0],
                ds: energy[1],
            })
    }

    fn wrong_sizes(&self) -> bool {
        let positions = self.written[1];
        let entries = self.entries.len() / 8;
        if self.users > MOST_USERS || positions > MOST_POSITIONS || entries > MOST_ENTRIES {
            return true;
        }
        let copied = [self.quencher, self.reporter];
        ![ORDINARY, ARCHIVE].contains(&self.build)
            || self.entries.len() != 8 * entries
            || self.energies.len() != 2 * entries
            || self.written != [3 * (self.users + 3), positions, CELLS, CELLS]
            || copied.iter().any(|strand| *strand > self.users)
            || are_unfit(&self.strands, 3 * self.users, &self.text)
            || are_unfit(&self.scaffold, positions, &self.text)
            || self.entries().any(|entry| entry.is_unfit(&self.text))
    }

    /// In the order of first appearance.
    fn bases(&self) -> Vec<&[u8]> {
        bases_of(all_spelled(&self.strands, &self.text))
    }

    /// The unordered pair that each entry with known names stands for, as glues, and the two sums.
    fn writes<'a>(
        &'a self,
        bases: &'a [&[u8]],
    ) -> impl Iterator<Item = ((usize, usize), f64, f64)> + 'a {
        self.entries().filter_map(|entry| {
            let first = entry.first.spelled(&self.text).expect("never absent");
            let (x, y) = match entry.second.spelled(&self.text) {
                Some(second) => (number(bases, first)?, number(bases, second)?),
                None => {
                    let base = number(bases, reduced(first).0)?;
                    (base, base + 1)
                }
            };
            let (dg, ds) = match entry.sequence(&self.text) {
                Some(sequence) => energies(sequence),
                None => (entry.dg, entry.ds),
            };
            let pair = (x.min(y), x.max(y));
            Some((pair, dg + self.penalty_dg, ds + self.penalty_ds))
        })
    }
}

fn bases_of<'a>(names: impl Iterator<Item = Option<&'a [u8]>>) -> Vec<&'a [u8]> {
    let mut bases: Vec<&[u8]> = vec![];
    for (base, _) in names.flatten().map(reduced) {
        if !bases.contains(&base) {
            bases.push(base);
        }
    }
    bases
}

/// "A new base takes the next two numbers from 1": the base the first of them, base* the second.
fn number(bases: &[&[u8]], name: &[u8]) -> Option<usize> {
    let (base, is_base) = reduced(name);
    let place = bases.iter().position(|other| *other == base)?;
    Some(2 * place + if is_base { 1 } else { 2 })
}

/// "A scaffold name is looked up as spelled, without stripping."
fn number_as_spelled(bases: &[&[u8]], name: &[u8]) -> Option<usize> {
    let stars = name.len() - reduced(name).0.len();
    number(bases, name).filter(|_| stars <= 1)
}

fn glue(bases: &[&[u8]], name: Option<&[u8]>) -> u8 {
    name.map_or(0, |name| number(bases, name).expect("known") as u8)
}

/// Answers of sets that are not refused.
impl Lent {
    pub fn built(&self) -> Built {
        let bases = self.bases();
        let (mut dg, mut ds) = (vec![0.0; CELLS], vec![0.0; CELLS]);
        for ((x, y), of_dg, of_ds) in self.writes(&bases) {
            for cell in [x * GLUES + y, y * GLUES + x] {
                (dg[cell], ds[cell]) = (of_dg, of_ds);
            }
        }
        let spelled = |name: Option<&[u8]>| {
            name.map_or(0, |name| {
                number_as_spelled(&bases, name).expect("known") as u8
            })
        };
        Built {
            strand_glues: self.strand_glues(&bases),
            scaffold_glues: all_spelled(&self.scaffold, &self.text)
                .map(spelled)
                .collect(),
            dg,
            ds,
        }
    }

    /// Strand 0, the user strands, quencher and reporter.
    fn strand_glues(&self, bases: &[&[u8]]) -> Vec<u8> {
        let mut glues = vec![0; 3];
        glues.extend(all_spelled(&self.strands, &self.text).map(|name| glue(bases, name)));
        let sides = |strand: usize| [0, 1, 2].map(|side| glues[3 * strand + side]);
        // Strand 0 has no glues, so that copying it is copying nothing.
        let [west, bottom, _] = sides(self.quencher);
        let quencher = [west, bottom, 0];
        let [_, bottom, east] = sides(self.reporter);
        let reporter = [0, bottom, east];
        glues.extend(quencher.into_iter().chain(reporter));
        glues
    }
}

/// The numbers of all strand glues: the user strands' alone.
impl Lent {
    pub fn strand_glues_verdict(&self, lent: usize) -> Verdict {
        let wrong = self.users > MOST_USERS
            || lent != 3 * self.users
            || are_unfit(&self.strands, 3 * self.users, &self.text);
        if wrong {
            return Verdict::lowest(&[(1, true)]);
        }
        Verdict::lowest(&[(7, self.bases().len() > MOST_BASES)])
    }

    pub fn user_glues(&self) -> Vec<u8> {
        let bases = self.bases();
        all_spelled(&self.strands, &self.text)
            .map(|name| glue(&bases, name))
            .collect()
    }
}

#[cfg(test)]
mod tests;
