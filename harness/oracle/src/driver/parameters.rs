//! The lines `p.*`: parameters of `from_params`.

use crate::design::describe;
use crate::words::{name, text};
use protocol::{double, expect_words, sequence_word, whole, Complaint, Words};
use rgrow::models::sdc1d::{GsOrSeq, RefOrPair, SDCParams, SDCStrand, SingleOrMultiScaffold, SDC};
use rgrow::models::sdc_common::self_and_inverse;
use rgrow::units::{KcalPerMol, KcalPerMolKelvin};
use std::collections::HashMap;

pub struct Parameters {
    strands: Vec<SDCStrand>,
    quencher: (Option<String>, f64),
    reporter: (Option<String>, f64),
    scaffold: Vec<Option<String>>,
    /// One name or two, and what they are given.
    entries: Vec<(String, Option<String>, GsOrSeq)>,
    penalty: (Option<f64>, Option<f64>),
    celsius: f64,
}

impl Parameters {
    pub fn new() -> Self {
        Parameters {
            strands: vec![],
            quencher: (None, 0.0),
            reporter: (None, 0.0),
            scaffold: vec![],
            entries: vec![],
            penalty: (None, None),
            celsius: 37.0,
        }
    }

    pub fn set(&mut self, words: Words) -> Result<(), Complaint> {
        match words[0] {
            "p.new" => *self = Parameters::new(),
            "p.strand" => self.strands.push(strand(words)?),
            "p.quencher" => self.quencher = named_concentration(words)?,
            "p.reporter" => self.reporter = named_concentration(words)?,
            "p.scaffold" => {
                let names: Result<Vec<_>, _> = words[1..].iter().map(|word| name(word)).collect();
                self.scaffold.extend(names?);
            }
            "p.ref" | "p.pair" => self.entries.push(entry(words)?),
            "p.penalty" => {
                expect_words(words, &[2])?;
                self.penalty = (penalty(words[1])?, penalty(words[2])?);
            }
            "p.temp" => {
                expect_words(words, &[1])?;
                self.celsius = double(words[1])?;
            }
            other => return Err(format!("no such line {other}")),
        }
        Ok(())
    }

    /// `p.build [TIMES]`: the Rust goes through its entries in a hash map's order, which differs
    /// from map to map; built several times, a design that hangs on that order shows as `varies`.
    pub fn build(&self, words: Words) -> Result<(SDC, String), Complaint> {
        expect_words(words, &[0, 1])?;
        let times: usize = words.get(1).map_or(Ok(1), |word| whole(word))?;
        let design = SDC::from_params(self.params());
        let first = describe(&design);
        let again = |_| describe(&SDC::from_params(self.params())) == first;
        let orders = if (1..times).all(again) {
            "stable"
        } else {
            "varies"
        };
        Ok((design, format!("{first} orders={orders}")))
    }

    fn params(&self) -> SDCParams {
        let mut glue_dg_s = HashMap::new();
        for (first, second, given) in &self.entries {
            let key = match second {
                Some(second) => RefOrPair::Pair(first.clone(), second.clone()),
                None => RefOrPair::Ref(first.clone()),
            };
            glue_dg_s.insert(key, given.clone());
        }
        SDCParams {
            strands: self.strands.clone(),
            quencher_name: self.quencher.0.clone(),
            quencher_concentration: self.quencher.1,
            reporter_name: self.reporter.0.clone(),
            fluorophore_concentration: self.reporter.1,
            scaffold: SingleOrMultiScaffold::Single(self.scaffold.clone()),
            scaffold_concentration: 1e-7,
            glue_dg_s,
            k_f: 1e6,
            k_n: 1e5,
            k_c: 1e4,
            temperature: self.celsius,
            junction_penalty_dg: self.penalty.0.map(KcalPerMol::new),
            junction_penalty_ds: self.penalty.1.map(KcalPerMolKelvin::new),
        }
    }
}

/// `name N`: a name's base, and whether the name stands for it or for its inverse.
pub fn base(words: Words) -> Result<String, Complaint> {
    expect_words(words, &[1])?;
    let name = text(words[1])?;
    let (is_from, from, inverse) = self_and_inverse(&name);
    match inverse == format!("{from}*") {
        true => Ok(format!(
            "{} {}",
            sequence_word(from.as_bytes()),
            u8::from(is_from)
        )),
        false => Err(format!("the inverse of {from} is {inverse}")),
    }
}

/// `p.strand NAME WEST BOTTOM EAST CONCENTRATION`
fn strand(words: Words) -> Result<SDCStrand, Complaint> {
    expect_words(words, &[5])?;
    Ok(SDCStrand {
        name: name(words[1])?,
        color: None,
        concentration: double(words[5])?,
        left_glue: name(words[2])?,
        btm_glue: name(words[3])?,
        right_glue: name(words[4])?,
    })
}

fn named_concentration(words: Words) -> Result<(Option<String>, f64), Complaint> {
    expect_words(words, &[2])?;
    Ok((name(words[1])?, double(words[2])?))
}

/// `p.ref NAME …` or `p.pair NAME NAME …`, then `gs DG DS` or `seq SEQUENCE`
fn entry(words: Words) -> Result<(String, Option<String>, GsOrSeq), Complaint> {
    let names = if words[0] == "p.pair" { 2 } else { 1 };
    expect_words(words, &[names + 2, names + 3])?;
    let given = match words[names + 1] {
        "gs" => {
            expect_words(words, &[names + 3])?;
            GsOrSeq::GS((double(words[names + 2])?, double(words[names + 3])?))
        }
        "seq" => {
            expect_words(words, &[names + 2])?;
            GsOrSeq::Seq(text(words[names + 2])?)
        }
        other => return Err(format!("gs or seq, not {other}")),
    };
    let second = if names == 2 {
        Some(text(words[2])?)
    } else {
        None
    };
    Ok((text(words[1])?, second, given))
}

fn penalty(word: &str) -> Result<Option<f64>, Complaint> {
    match word {
        "-" => Ok(None),
        number => double(number).map(Some),
    }
}
