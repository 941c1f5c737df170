//! The lines `t.*`: tables of bonds beside the design that lines have set. `t.strands LIST` and
//! `t.scaffold LIST` lend cells of any number and content; `t.fill` fills tables of the design's own
//! sizes, and holds them for the questions that follow.

use crate::design::{configuration, Lent};
use crate::slices::{list, Filled};
use crate::{counted, placed, DOUBLE, WHOLE};
use mujplesten as mj;
use protocol::{bits, double, expect_words, joined, whole, Complaint, Reply, Words};

#[derive(Default)]
pub struct Tables {
    strands: Vec<f64>,
    scaffold: Vec<f64>,
}

impl Tables {
    /// `None` after a setter.
    pub fn answer(&mut self, lent: &Lent, words: Words) -> Result<Option<Reply>, Complaint> {
        let design = lent.design();
        let counts: &[usize] = match words[0] {
            "t.raw.fill" | "t.raw.state" => &[2],
            "t.mfe" | "t.nstates" => &[0],
            _ => &[1],
        };
        expect_words(words, counts)?;
        match words[0] {
            "t.strands" => self.strands = list(words[1], double)?,
            "t.scaffold" => self.scaffold = list(words[1], double)?,
            _ => return self.question(design, words).map(Some),
        }
        Ok(None)
    }

    fn question(&mut self, design: mj::Design, words: Words) -> Result<Reply, Complaint> {
        let positions = design.scaffold.len();
        match words[0] {
            "t.fill" => self.fill(design, words[1]),
            "t.raw.fill" => Ok(raw_fill(design, whole(words[1])?, whole(words[2])?)),
            "t.gsys" => Ok(self.state_energy(design, &configuration(words[1])?)),
            "t.nstates" => Ok(self.count(design)),
            "t.state" => Ok(self.state(design, whole(words[1])?, positions)),
            "t.raw.state" => Ok(self.state(design, whole(words[1])?, whole(words[2])?)),
            "t.mfe" => Ok(self.search(design, positions)),
            "t.raw.mfe" => Ok(self.search(design, whole(words[1])?)),
            other => Err(format!("no such line {other}")),
        }
    }

    fn bonds(&self) -> mj::Bonds<'_> {
        mj::Bonds {
            strands: &self.strands,
            scaffold: &self.scaffold,
        }
    }

    /// Fills both, and tells one as the oracle tells all bonds of that sort: rows of cells.
    fn fill(&mut self, design: mj::Design, which: &str) -> Result<Reply, Complaint> {
        let strands = design.amounts.len();
        let mut pairs = Filled::doubles(strands * strands);
        let mut sites = Filled::doubles(design.scaffold.len() * strands);
        let mut place = WHOLE;
        let number = mj::bond_tables(design, &mut pairs.slice, &mut sites.slice, &mut place);
        let kept = pairs.is_kept() && sites.is_kept();
        (self.strands, self.scaffold) = (pairs.slice, sites.slice);
        let told = match which {
            "strands" => &self.strands,
            "scaffold" => &self.scaffold,
            other => return Err(format!("no such table {other}")),
        };
        let row = |cells: &[f64]| joined(cells.iter().map(|x| bits(*x)), ",");
        let rows = told.chunks(strands.max(1)).map(row);
        Ok(counted(number, place, joined(rows, ";"), kept))
    }

    fn state_energy(&self, design: mj::Design, configuration: &[u8]) -> Reply {
        let (mut place, mut energy) = (WHOLE, DOUBLE);
        let bonds = self.bonds();
        let number = mj::state_energy_over(design, bonds, configuration, &mut place, &mut energy);
        placed(number, place, &[energy])
    }

    fn count(&self, design: mj::Design) -> Reply {
        let (mut place, mut count) = (WHOLE, WHOLE);
        let number = mj::states_over(design, self.bonds(), &mut place, &mut count);
        counted(number, place, count.to_string(), count == 0)
    }

    fn state(&self, design: mj::Design, rank: u64, lent: usize) -> Reply {
        let mut entries = Filled::bytes(lent);
        let mut place = WHOLE;
        let slice = &mut entries.slice;
        let number = mj::state_over(design, self.bonds(), rank, slice, &mut place);
        let told = joined(&*slice, ",");
        counted(number, place, told, entries.is_kept())
    }

    fn search(&self, design: mj::Design, lent: usize) -> Reply {
        let mut entries = Filled::bytes(lent);
        let (mut place, mut energy) = (WHOLE, DOUBLE);
        let slice = &mut entries.slice;
        let number = mj::search_over(design, self.bonds(), slice, &mut place, &mut energy);
        let told = format!("{} {}", bits(energy), joined(&*slice, ","));
        let none = energy.to_bits() == 0 && entries.is_kept();
        counted(number, place, told, none)
    }
}

/// Fills tables of any length, and tells every cell of both.
fn raw_fill(design: mj::Design, strands: usize, scaffold: usize) -> Reply {
    let mut pairs = Filled::doubles(strands);
    let mut sites = Filled::doubles(scaffold);
    let mut place = WHOLE;
    let number = mj::bond_tables(design, &mut pairs.slice, &mut sites.slice, &mut place);
    let cells = |cells: &[f64]| joined(cells.iter().map(|x| bits(*x)), ",");
    let told = format!("{} {}", cells(&pairs.slice), cells(&sites.slice));
    counted(number, place, told, pairs.is_kept() && sites.is_kept())
}
