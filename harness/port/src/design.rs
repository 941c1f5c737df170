//! The lines `d.*`, questions about the design that they set, and the lines `raw.*`, which lend
//! slices of any length and content.
//!
//! The concentration of `d.strand` is the potential itself, as in the oracle's mode `id`;
//! `d.concentrations` lends others in place of all of them. The setters make the design; `d.build` checks
//! nothing, so that every question meets what was set.

use crate::energies;
use crate::slices::{list, Filled};
use crate::sums::Weights;
use crate::{counted, placed, reply, DOUBLE, WHOLE};
use mujplesten as mj;
use protocol::{double, expect_words, joined, whole, Complaint, Reply, Words};

/// Entries that friends are written into.
const FRIENDS: usize = 64;

/// A table is this many rows of this many cells.
const GLUES: usize = 64;

/// How amounts are given that are concentrations; potentials are 0.
const CONCENTRATIONS: u32 = 1;

/// The search, or that for rings.
type Search = fn(mj::Design, &mut [u8], &mut u64, &mut f64) -> u32;

#[derive(Default)]
pub struct Lent {
    scaffold: Vec<u8>,
    /// A position that a line adds is open until a line marks it.
    marks: Vec<u8>,
    glues: Vec<u8>,
    dg: Vec<f64>,
    ds: Vec<f64>,
    amounts: Vec<f64>,
    given: u32,
    rt: f64,
    strand_excess: f64,
    scaffold_excess: f64,
    /// Those of the sums; a new design keeps none.
    weights: Weights,
}

impl Lent {
    /// `None` after a setter.
    pub fn answer(&mut self, words: Words) -> Result<Option<Reply>, Complaint> {
        match words[0] {
            "mode" if words[1..] == ["id"] => Ok(None),
            "mode" => Err("the port takes the mode id alone".to_string()),
            "d.build" => Ok(Some(Reply::Ok("built".to_string()))),
            "raw.len" | "raw.set" => self.set_raw(words).map(|()| None),
            "w.place" | "w.pair" => self.weights.set(words).map(|()| None),
            "sheet" => self.sheet(words).map(Some),
            "sum" | "sum.lists" => self.weights.answer(self.design(), words).map(Some),
            word if word.starts_with("energy.") => energies::answer(self.design(), words).map(Some),
            word if word.starts_with("d.") => self.set(words).map(|()| None),
            _ => self.question(words).map(Some),
        }
    }

    fn set(&mut self, words: Words) -> Result<(), Complaint> {
        match words[0] {
            "d.new" => {
                expect_words(words, &[2])?;
                let strands: usize = whole(words[1])?;
                *self = Lent {
                    glues: vec![0; 3 * strands],
                    dg: vec![0.0; GLUES * GLUES],
                    ds: vec![0.0; GLUES * GLUES],
                    amounts: vec![0.0; strands],
                    ..Lent::default()
                };
            }
            "d.strand" => self.set_strand(words)?,
            "d.scaffold" => {
                for word in &words[1..] {
                    self.scaffold.push(whole(word)?);
                    self.marks.push(0);
                }
            }
            "d.marks" => {
                self.marks = words[1..]
                    .iter()
                    .map(|word| whole(word))
                    .collect::<Result<_, _>>()?
            }
            "d.concentrations" => {
                self.amounts = words[1..]
                    .iter()
                    .map(|word| double(word))
                    .collect::<Result<_, _>>()?;
                self.given = CONCENTRATIONS;
            }
            "d.given" => {
                expect_words(words, &[1])?;
                self.given = whole(words[1])?;
            }
            "d.dg" | "d.ds" => {
                expect_words(words, &[3])?;
                let (row, column): (usize, usize) = (whole(words[1])?, whole(words[2])?);
                let table = if words[0] == "d.dg" {
                    &mut self.dg
                } else {
                    &mut self.ds
                };
                put(table, row * GLUES + column, double(words[3])?)?;
            }
            "d.ambient" => {
                expect_words(words, &[3])?;
                self.rt = double(words[1])?;
                self.strand_excess = double(words[2])?;
                self.scaffold_excess = double(words[3])?;
            }
            other => return Err(format!("no such line {other}")),
        }
        Ok(())
    }

    /// `d.strand I WEST BOTTOM EAST POTENTIAL`
    fn set_strand(&mut self, words: Words) -> Result<(), Complaint> {
        expect_words(words, &[5])?;
        let strand: usize = whole(words[1])?;
        for side in 0..3 {
            put(&mut self.glues, 3 * strand + side, whole(words[2 + side])?)?;
        }
        put(&mut self.amounts, strand, double(words[5])?)
    }

    /// `raw.len SLICE LENGTH` cuts a slice or fills it up with zeros; `raw.set SLICE INDEX VALUE`
    /// sets one entry of it.
    fn set_raw(&mut self, words: Words) -> Result<(), Complaint> {
        let set = words[0] == "raw.set";
        expect_words(words, if set { &[3] } else { &[2] })?;
        let number: usize = whole(words[2])?;
        let bytes = match words[1] {
            "scaffold" => Some(&mut self.scaffold),
            "marks" => Some(&mut self.marks),
            "glues" => Some(&mut self.glues),
            _ => None,
        };
        if let Some(bytes) = bytes {
            if set {
                return put(bytes, number, whole(words[3])?);
            }
            bytes.resize(number, 0);
            return Ok(());
        }
        let doubles = match words[1] {
            "dg" => &mut self.dg,
            "ds" => &mut self.ds,
            "amounts" => &mut self.amounts,
            other => return Err(format!("no such slice {other}")),
        };
        if set {
            return put(doubles, number, double(words[3])?);
        }
        doubles.resize(number, 0.0);
        Ok(())
    }

    pub fn design(&self) -> mj::Design<'_> {
        mj::Design {
            scaffold: &self.scaffold,
            marks: &self.marks,
            glues: &self.glues,
            dg: &self.dg,
            ds: &self.ds,
            amounts: &self.amounts,
            given: self.given,
            rt: self.rt,
            strand_excess: self.strand_excess,
            scaffold_excess: self.scaffold_excess,
        }
    }

    fn question(&self, words: Words) -> Result<Reply, Complaint> {
        let counts: &[usize] = match words[0] {
            "sbond" | "cbond" | "raw.friends" | "raw.state" | "under" => &[2],
            "gsys" | "chain" | "raw.chain" | "raw.mfe" | "state" | "ring" | "ring.mfe" => &[1],
            _ => &[0],
        };
        expect_words(words, counts)?;
        let (positions, strands) = (self.scaffold.len(), self.amounts.len());
        match words[0] {
            "sbond" => Ok(self.strand_bond(whole(words[1])?, whole(words[2])?)),
            "cbond" => Ok(self.scaffold_bond(whole(words[1])?, whole(words[2])?)),
            "sbonds" => rows(strands, strands, |x, y| self.strand_bond(x as u8, y as u8)),
            "cbonds" => rows(positions, strands, |i, x| self.scaffold_bond(i, x as u8)),
            "friends" => rows(positions, 1, |i, _| self.friends(i, FRIENDS, false)),
            "raw.friends" => Ok(self.friends(whole(words[1])?, whole(words[2])?, true)),
            "nstates" => Ok(self.count()),
            "state" => Ok(self.state(whole(words[1])?, positions)),
            "raw.state" => Ok(self.state(whole(words[1])?, whole(words[2])?)),
            "states" => self.of_every_state(";", |_, state| Reply::Ok(joined(state, ","))),
            "gsysall" => self.of_every_state(",", |lent, state| lent.state_energy(state)),
            "gsys" => Ok(self.state_energy(&configuration(words[1])?)),
            "chain" => Ok(self.chain(&configuration(words[1])?, false)),
            "raw.chain" => Ok(self.chain(&configuration(words[1])?, true)),
            "mfe" => Ok(self.search(positions)),
            "raw.mfe" => Ok(self.search(whole(words[1])?)),
            "mfe.level" => Ok(level(self.searched(positions))),
            "ring" => Ok(self.ring_energy(&configuration(words[1])?)),
            "ring.mfe" => Ok(self.ring_searched(whole(words[1])?).0),
            "ring.level" => Ok(level(self.ring_searched(positions))),
            "under" => Ok(self.under(whole(words[1])?, double(words[2])?)),
            other => Err(format!("no such line {other}")),
        }
    }

    fn strand_bond(&self, x: u8, y: u8) -> Reply {
        let (mut place, mut bond) = (WHOLE, DOUBLE);
        let number = mj::strand_bond(self.design(), x, y, &mut place, &mut bond);
        placed(number, place, &[bond])
    }

    fn scaffold_bond(&self, position: usize, strand: u8) -> Reply {
        let (mut place, mut bond) = (WHOLE, DOUBLE);
        let number = mj::scaffold_bond(self.design(), position, strand, &mut place, &mut bond);
        placed(number, place, &[bond])
    }

    /// The friends, as the oracle lists them; in `full`, their number and every lent entry.
    fn friends(&self, position: usize, lent: usize, full: bool) -> Reply {
        let mut entries = Filled::bytes(lent);
        let (mut place, mut count) = (WHOLE, WHOLE);
        let slice = &mut entries.slice;
        let number = mj::friends(self.design(), position, slice, &mut place, &mut count);
        let told = match slice.get(..count as usize) {
            _ if full => format!("{count} {}", joined(&*slice, ",")),
            Some(friends) => joined(friends, ","),
            None => return Reply::Err(format!("{count} friends")),
        };
        counted(number, place, told, count == 0 && entries.is_kept())
    }

    fn count(&self) -> Reply {
        let (mut place, mut count) = (WHOLE, WHOLE);
        let number = mj::states(self.design(), &mut place, &mut count);
        counted(number, place, count.to_string(), count == 0)
    }

    fn state(&self, rank: u64, lent: usize) -> Reply {
        let mut entries = Filled::bytes(lent);
        let mut place = WHOLE;
        let number = mj::state(self.design(), rank, &mut entries.slice, &mut place);
        let told = joined(&entries.slice, ",");
        counted(number, place, told, entries.is_kept())
    }

    fn state_energy(&self, configuration: &[u8]) -> Reply {
        let (mut place, mut energy) = (WHOLE, DOUBLE);
        let number = mj::state_energy(self.design(), configuration, &mut place, &mut energy);
        placed(number, place, &[energy])
    }

    /// The bare sum, as the oracle gives it; in `full`, also times RT.
    fn chain(&self, configuration: &[u8], full: bool) -> Reply {
        let (mut place, mut sum, mut energy) = (WHOLE, DOUBLE, DOUBLE);
        let design = self.design();
        let number = mj::chain_energy(design, configuration, &mut place, &mut sum, &mut energy);
        match placed(number, place, &[sum, energy]) {
            Reply::Ok(_) if !full => reply(0, &[sum]),
            other => other,
        }
    }

    fn ring_energy(&self, configuration: &[u8]) -> Reply {
        let (mut place, mut energy) = (WHOLE, DOUBLE);
        let number = mj::ring_energy(self.design(), configuration, &mut place, &mut energy);
        placed(number, place, &[energy])
    }

    fn searched(&self, lent: usize) -> (Reply, f64) {
        self.found_by(mj::search, lent)
    }

    fn ring_searched(&self, lent: usize) -> (Reply, f64) {
        self.found_by(mj::ring_search, lent)
    }

    /// What a search answers, the entries that it was lent, and its energy.
    fn found_by(&self, search: Search, lent: usize) -> (Reply, f64) {
        let mut entries = Filled::bytes(lent);
        let (mut place, mut energy) = (WHOLE, DOUBLE);
        let slice = &mut entries.slice;
        let number = search(self.design(), slice, &mut place, &mut energy);
        let bits = energy.to_bits();
        let told = format!("{bits:016x} {}", joined(&*slice, ","));
        let none = bits == 0 && entries.is_kept();
        (counted(number, place, told, none), energy)
    }

    /// Energy and configuration, as the oracle gives them.
    fn search(&self, lent: usize) -> Reply {
        self.searched(lent).0
    }

    /// Energy and state, which the Rust lacks.
    fn under(&self, lent: usize, ceiling: f64) -> Reply {
        let mut entries = Filled::bytes(lent);
        let (mut place, mut energy) = (WHOLE, DOUBLE);
        let slice = &mut entries.slice;
        let number = mj::first_state_under(self.design(), ceiling, slice, &mut place, &mut energy);
        let bits = energy.to_bits();
        let told = format!("{bits:016x} {}", joined(&*slice, ","));
        counted(number, place, told, bits == 0 && entries.is_kept())
    }

    /// One figure of every state, in the order of ranks.
    fn of_every_state(
        &self,
        separator: &str,
        one: impl Fn(&Lent, &[u8]) -> Reply,
    ) -> Result<Reply, Complaint> {
        let (mut place, mut count) = (WHOLE, WHOLE);
        if mj::states(self.design(), &mut place, &mut count) != 0 {
            return Ok(self.count());
        }
        let mut figures = vec![];
        for rank in 0..count {
            let mut state = Filled::bytes(self.scaffold.len()).slice;
            if mj::state(self.design(), rank, &mut state, &mut place) != 0 {
                return Err(format!("no state at the rank {rank}"));
            }
            match one(self, &state) {
                Reply::Ok(figure) => figures.push(figure),
                other => return Ok(other),
            }
        }
        Ok(Reply::Ok(joined(figures, separator)))
    }
}

/// A search's energy with 0.0 for either zero, since the walk's is compared as a double.
fn level(found: (Reply, f64)) -> Reply {
    match found {
        (Reply::Ok(_), energy) => reply(0, &[energy + 0.0]),
        (other, _) => other,
    }
}

/// A list of rows, or the first answer that is none.
fn rows(
    rows: usize,
    columns: usize,
    cell: impl Fn(usize, usize) -> Reply,
) -> Result<Reply, Complaint> {
    let mut list = vec![];
    for row in 0..rows {
        let mut cells = vec![];
        for column in 0..columns {
            match cell(row, column) {
                Reply::Ok(figure) => cells.push(figure),
                other => return Ok(other),
            }
        }
        list.push(joined(cells, ","));
    }
    Ok(Reply::Ok(joined(list, ";")))
}

fn put<T>(slice: &mut [T], index: usize, value: T) -> Result<(), Complaint> {
    let entry = slice.get_mut(index).ok_or("no such entry")?;
    *entry = value;
    Ok(())
}

pub fn configuration(word: &str) -> Result<Vec<u8>, Complaint> {
    list(word, whole)
}
