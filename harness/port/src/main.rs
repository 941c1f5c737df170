//! The port: answers the oracle's lines (../../oracle/PROTOCOL.md) through the C functions of the
//! Rattle crate `exports`, with `refused N` where it refuses. It works out nothing by itself.

mod deck;
mod design;
mod energies;
mod logarithm;
mod names;
mod params;
mod sequences;
mod sheet;
mod short;
mod slices;
mod sums;
mod tables;
mod temperature;

use design::Lent;
use mujplesten as mj;
use protocol::{serve, Complaint, Reply, Words};
use tables::Tables;

fn main() -> std::io::Result<()> {
    let (mut lent, mut tables) = (Lent::default(), Tables::default());
    serve(|words| {
        let answered = answer(&mut lent, &mut tables, words);
        answered.unwrap_or_else(|complaint| Some(Reply::Err(complaint)))
    })
}

/// `None` after a setter. What is neither about sequences, logarithms, temperatures, decks, names nor
/// parameters is about the design that lines have set so far, and the tables beside it.
fn answer(lent: &mut Lent, tables: &mut Tables, words: Words) -> Result<Option<Reply>, Complaint> {
    match words[0] {
        word if word.starts_with("t.") => tables.answer(lent, words),
        "seq" | "published" | "pair" | "loop" | "strengthx" => sequences::answer(words).map(Some),
        "short" => short::answer(words).map(Some),
        "ln" => logarithm::answer(words).map(Some),
        "ambient" => temperature::answer(words).map(Some),
        "exp" => energies::exponential(words).map(Some),
        "weight" => energies::weight(words).map(Some),
        "deck.read" | "deck.write" | "deck.move" => deck::answer(words).map(Some),
        "params" => params::answer(words).map(Some),
        "name" | "raw.name" | "raw.glues" => names::answer(words).map(Some),
        _ => lent.answer(words),
    }
}

/// What a number that a call is to write holds before it: no call answers it.
const WHOLE: u64 = 0xa5a5_a5a5_a5a5_a5a5;
const DOUBLE: f64 = -1.25e-77;

/// The reply to a call that has the number `number` and these figures. A refusal carries no figure,
/// so one that does is told as a fault of the port.
fn reply(number: u32, figures: &[f64]) -> Reply {
    placed(number, mj::NOWHERE, figures)
}

/// The same of a call that has a place.
fn placed(number: u32, place: u64, figures: &[f64]) -> Reply {
    let bits: Vec<u64> = figures.iter().map(|x| x.to_bits()).collect();
    let words: Vec<String> = bits.iter().map(|x| format!("{x:016x}")).collect();
    counted(number, place, words.join(" "), bits.iter().all(|x| *x == 0))
}

/// An answer in words, where the number is 0; `none` says that the call has no figure and kept what
/// it was lent.
fn counted(number: u32, place: u64, words: String, none: bool) -> Reply {
    match (number, place) {
        (0, mj::NOWHERE) => Reply::Ok(words),
        (0, place) => Reply::Err(format!("answered with the place {place}")),
        _ if !none => Reply::Err(format!("refused {number} with figures {words}")),
        (number, mj::NOWHERE) => Reply::refused(number),
        (number, place) => Reply::Refused {
            number,
            place: Some(place),
        },
    }
}

#[cfg(test)]
mod tests {
    use super::*;

    #[test]
    fn a_refusal_with_a_figure_is_a_fault() {
        assert_eq!(reply(2, &[0.0, 0.0]), Reply::refused(2));
        assert!(matches!(reply(2, &[0.0, 1.0]), Reply::Err(_)));
        assert!(matches!(reply(9, &[-0.0]), Reply::Err(_)));
        assert_eq!(reply(0, &[0.0]), Reply::Ok("0000000000000000".to_string()));
    }

    #[test]
    fn a_place_is_told_and_none_is_all_ones() {
        let refused = |place| Reply::Refused { number: 14, place };
        assert_eq!(placed(14, 0, &[]), refused(Some(0)));
        assert_eq!(placed(14, u64::MAX, &[]), refused(None));
        assert!(matches!(placed(0, 0, &[]), Reply::Err(_)));
    }
}
