//! Ambients of the oracle's own, by temperature: designs that both programs are given have these.

use crate::designs::Ambient;
use crate::kinds::AskOracle;
use protocol::{bits, double};

/// Between these document 01 admits the Rust's RT and both its excesses.
const COLDEST: f64 = 63.0;
const HOTTEST: f64 = 1334.0;

/// RTs that are powers of two make sums that are exact; some kelvins have exactly these, the least
/// that is admitted among them.
pub const ROUND_RTS: [f64; 5] = [0.125, 0.25, 0.5, 1.0, 2.0];

/// Kelvins, each with its ambient.
pub type Ambients = Vec<(f64, Ambient)>;

pub fn ask(oracle: &mut AskOracle) -> Result<Ambients, String> {
    let mut kelvins = vec![
        COLDEST, 255.3, 256.0, 273.15, 298.15, 310.15, 323.15, 353.15,
    ];
    kelvins.extend((0..100).map(|step| COLDEST + (HOTTEST - COLDEST) * f64::from(step) / 99.0));
    for rt in ROUND_RTS {
        let found = oracle(&format!("findT {rt}"))?;
        let found = found.split(' ').skip(1);
        kelvins.extend(found.filter_map(|word| double(word).ok()));
    }
    let mut ambients = vec![];
    for kelvin in kelvins {
        let lines = format!("d.new 1 1\nd.temp K {}\nd.build", bits(kelvin));
        oracle(&lines)?;
        ambients.push((kelvin, read(&oracle("here")?)?));
    }
    let has = |rt| ambients.iter().any(|(_, ambient)| ambient.rt == rt);
    match ROUND_RTS.into_iter().all(has) {
        true => Ok(ambients),
        false => Err("no temperature has a round RT".to_string()),
    }
}

/// T, RT under a bond, rtval, strand excess, scaffold excess. "Equality is claimed where its RT
/// under a bond and its `rtval` have the same bits."
fn read(answer: &str) -> Result<Ambient, String> {
    let words: Vec<&str> = answer.split(' ').collect();
    let [_, _, rt, rtval, strand, scaffold] = words[..] else {
        return Err(format!("no ambient: {answer}"));
    };
    if rt != rtval {
        return Err(format!("two RTs: {answer}"));
    }
    Ok(Ambient {
        rt: double(rt)?,
        strand_excess: double(strand)?,
        scaffold_excess: double(scaffold)?,
    })
}
