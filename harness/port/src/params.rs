//! The line `params BUILD TEXT USERS STRANDS SCAFFOLD ENTRIES ENERGIES PENALTIES COPIED LENT`: a
//! parameter set as slices of any length and content, and how long the slices are that are lent to be
//! written. `ok sg=… sc=… dg=… ds=…` gives them as the oracle's `p.build` does.

use crate::slices::{list, Filled};
use mujplesten as mj;
use protocol::{bits, bytes, double, expect_words, joined, whole, Complaint, Reply, Words};

pub fn answer(words: Words) -> Result<Reply, Complaint> {
    expect_words(words, &[10])?;
    let text = bytes(words[2])?.ok_or("absent is not allowed here")?;
    let penalties: Vec<f64> = list(words[8], double)?;
    let copied: Vec<usize> = list(words[9], whole)?;
    let lent: Vec<usize> = list(words[10], whole)?;
    let ([penalty_dg, penalty_ds], [quencher, reporter]) = (&penalties[..], &copied[..]) else {
        return Err("two penalties and two strands are wanted".to_string());
    };
    let set = mj::Params {
        build: whole(words[1])?,
        text: &text,
        users: whole(words[3])?,
        strands: &list(words[4], whole)?,
        scaffold: &list(words[5], whole)?,
        entries: &list(words[6], whole)?,
        energies: &list(words[7], double)?,
        penalty_dg: *penalty_dg,
        penalty_ds: *penalty_ds,
        quencher: *quencher,
        reporter: *reporter,
    };
    build(set, &lent)
}

fn build(set: mj::Params, lent: &[usize]) -> Result<Reply, Complaint> {
    let [strand_glues, scaffold_glues, dg, ds] = *lent else {
        return Err("four slices are lent".to_string());
    };
    let mut glues = [Filled::bytes(strand_glues), Filled::bytes(scaffold_glues)];
    let mut tables = [Filled::doubles(dg), Filled::doubles(ds)];
    let [strand_glues, scaffold_glues] = &mut glues;
    let [dg, ds] = &mut tables;
    let into = mj::Built {
        strand_glues: &mut strand_glues.slice,
        scaffold_glues: &mut scaffold_glues.slice,
        dg: &mut dg.slice,
        ds: &mut ds.slice,
    };
    let number = mj::params(set, into);
    if number == 0 {
        let strands = strand_glues.slice.chunks(3).map(|sides| joined(sides, "."));
        return Ok(Reply::Ok(format!(
            "sg={} sc={} dg={} ds={}",
            joined(strands, ","),
            joined(&scaffold_glues.slice, ","),
            cells(&dg.slice),
            cells(&ds.slice)
        )));
    }
    let kept = glues.iter().all(Filled::is_kept) && tables.iter().all(Filled::is_kept);
    match kept {
        true => Ok(Reply::refused(number)),
        false => Err(format!("refused {number} after writing")),
    }
}

/// The cells whose bits are not 0.
fn cells(table: &[f64]) -> String {
    let set = table.iter().enumerate().filter(|(_, x)| x.to_bits() != 0);
    let cell = |(at, x): (usize, &f64)| format!("{}.{}.{}", at / 64, at % 64, bits(*x));
    joined(set.map(cell), ",")
}
