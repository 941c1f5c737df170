//! Lines about sequences and loops (utils.rs).

use crate::temperature::with_libm;
use crate::words::{kelvin, text};
use protocol::{bits, double, expect_words, whole, Complaint, Words};
use rgrow::units::Kelvin;
use rgrow::utils;

/// Loops have a logarithm in them: these lines run with libm's, whatever `mode` says.
pub fn answer(words: Words) -> Result<String, Complaint> {
    with_libm(|| match words[0] {
        "seq" => {
            expect_words(words, &[1])?;
            let (dg, ds) = utils::string_dna_dg_ds(&text(words[1])?);
            Ok(format!("{} {}", bits(dg.into()), bits(ds.into())))
        }
        "pair" => {
            expect_words(words, &[2])?;
            let (dg, ds) = utils::sequence_pair_str_dg_ds(&text(words[1])?, &text(words[2])?);
            Ok(format!("{} {}", bits(dg.into()), bits(ds.into())))
        }
        "loop" => {
            expect_words(words, &[2])?;
            let dg = utils::loop_penalty(whole(words[1])?, loop_kind(words[2]));
            Ok(bits(dg.into()))
        }
        "strength" => {
            expect_words(words, &[3, 4])?;
            let (a, b) = one_or_two(&words[3..])?;
            let t = kelvin(words[1], words[2])?;
            let (strength, excess) = utils::probe::strength(&a, b.as_deref(), t);
            Ok(format!("{} {}", bits(strength), bits(excess)))
        }
        "strengthx" => {
            expect_words(words, &[2, 3])?;
            let (a, b) = one_or_two(&words[2..])?;
            strength_at_excess(double(words[1])?, &a, b.as_deref())
        }
        other => Err(format!("no such line {other}")),
    })
}

fn loop_kind(word: &str) -> &str {
    match word {
        "0" => "internal",
        "1" => "bulge",
        "2" => "hairpin",
        other => other,
    }
}

fn one_or_two(words: Words) -> Result<(String, Option<String>), Complaint> {
    let second = words.get(1).map(|word| text(word)).transpose()?;
    Ok((text(words[0])?, second))
}

/// The Rust takes a temperature. Of those near excess + 310.15 one may have exactly this excess:
/// then its text is run; otherwise only the expression typed again can answer.
fn strength_at_excess(excess: f64, a: &str, b: Option<&str>) -> Result<String, Complaint> {
    let retyped = utils::probe::strength_retyped(a, b, excess);
    let mut t = excess + utils::probe::t37c();
    for _ in 0..4 {
        t = t.next_down();
    }
    for _ in 0..9 {
        let (strength, its_excess) = utils::probe::strength(a, b, Kelvin(t));
        if its_excess.to_bits() == excess.to_bits() {
            if strength.to_bits() != retyped.to_bits() {
                return Err("retyped differs".to_string());
            }
            return Ok(format!("{} rust", bits(strength)));
        }
        t = t.next_up();
    }
    Ok(format!("{} retyped", bits(retyped)))
}
