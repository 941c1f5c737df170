//! Decks of the list, in both forms: read, written, and moved into the other form. The Rust has none, so every answer is the judge's.

use super::designs::places;
use super::{refused, Answered};
use crate::decks;
use crate::judge::deck::{moving, reading, writing, Form, FORMS, READING_LENDS, WRITING_LENDS};
use crate::random::Random;

const SEED: u64 = 129;

/// Random decks of each form, and configurations.
const DECKS: usize = 24;

/// What the program has room for: one word, and one position, more than a deck can have.
const MOST_WORDS: usize = 130;
const MOST_PLACES: usize = 129;

/// A number that names no form.
const NO_FORM: u32 = 2;

pub fn stored() -> Vec<Answered> {
    let random = &mut Random::new(SEED);
    let mut lines = vec![];
    for configuration in configurations(random) {
        for form in FORMS {
            written(&mut lines, form.number(), &configuration);
        }
    }
    written(&mut lines, NO_FORM, &[1, 0]);
    for form in FORMS {
        for deck in all_decks(random, form) {
            about(&mut lines, form.number(), &deck);
        }
    }
    about(&mut lines, NO_FORM, &[0x1000_0000]);
    lines
}

/// Eight hexadecimal digits for each word.
fn word(deck: &[u32]) -> String {
    match deck {
        [] => "-".to_string(),
        words => words.iter().map(|word| format!("{word:08x}")).collect(),
    }
}

fn form_of(number: u32) -> Option<Form> {
    FORMS.into_iter().find(|form| form.number() == number)
}

fn written(lines: &mut Vec<Answered>, form: u32, configuration: &[u8]) {
    let verdict = writing(form, configuration, WRITING_LENDS);
    let answer = refused(verdict).unwrap_or_else(|| {
        let form = form_of(form).expect("admitted");
        format!("ok {}", word(&form.write(configuration)))
    });
    lines.push(Answered {
        question: format!("write {form} {}", places(configuration)),
        answer,
    });
}

fn about(lines: &mut Vec<Answered>, form: u32, deck: &[u32]) {
    let read = refused(reading(form, deck, READING_LENDS)).unwrap_or_else(|| {
        let form = form_of(form).expect("admitted");
        format!("ok {}", places(&form.read(deck).expect("admitted")))
    });
    let moved = refused(moving(form, deck, WRITING_LENDS)).unwrap_or_else(|| {
        let form = form_of(form).expect("admitted");
        format!("ok {}", word(&form.moved(deck).expect("admitted")))
    });
    for (kind, answer) in [("read", read), ("move", moved)] {
        let question = format!("{kind} {form} {}", word(deck));
        lines.push(Answered { question, answer });
    }
}

/// Empty, short, full and too long; strand 63 and the number after it.
fn configurations(random: &mut Random) -> Vec<Vec<u8>> {
    let mut list = vec![
        vec![],
        vec![0],
        vec![63],
        vec![64],
        vec![0, 0, 5, 5, 0, 5],
        vec![0; 128],
        vec![1; 128],
        vec![0; MOST_PLACES],
        vec![64; MOST_PLACES],
    ];
    list.extend((0..DECKS).map(|_| decks::configuration(random)));
    list
}

/// Every deck of up to two words that are at and around a limit, some of three, random ones and damaged ones.
fn all_decks(random: &mut Random, form: Form) -> Vec<Vec<u32>> {
    let mut list = vec![];
    let mut ask = |deck: &[u32]| {
        if deck.len() < 3 || random.once_in(100) {
            list.push(deck.to_vec());
        }
    };
    match form {
        Form::Singles => decks::each_short_deck(3, &mut ask),
        Form::Runs => decks::each_short_deck_with_runs(3, &mut ask),
    }
    for _ in 0..DECKS {
        let whole = match form {
            Form::Singles => decks::deck(random),
            Form::Runs => decks::deck_with_runs(random),
        };
        let damaged = decks::damaged(&whole, random);
        list.extend([whole, damaged]);
    }
    list.extend([vec![1; 128], vec![1; MOST_PLACES]].map(|full| {
        let first = [0x1000_0000 | full.len() as u32];
        let strands: Vec<u32> = full.iter().map(|strand| 0x2000_0000 | strand).collect();
        [&first, strands.as_slice()].concat()
    }));
    list.retain(|deck| deck.len() <= MOST_WORDS);
    list
}

#[cfg(test)]
mod tests {
    use super::*;
    use std::collections::BTreeSet;

    #[test]
    fn a_deck_has_eight_digits_for_each_word() {
        assert_eq!(word(&[]), "-");
        assert_eq!(word(&[0x1000_0001, 63]), "100000010000003f");
    }

    #[test]
    fn every_kind_has_every_reply() {
        let met: BTreeSet<(String, String)> = stored()
            .iter()
            .map(|line| {
                let reply = match line.answer.starts_with("ok") {
                    true => "ok".to_string(),
                    false => line.answer.clone(),
                };
                (line.kind().to_string(), reply)
            })
            .collect();
        for (kind, reply) in [
            ("read", "ok"),
            ("read", "refused 1"),
            ("read", "refused 14"),
            ("write", "ok"),
            ("write", "refused 1"),
            ("write", "refused 9"),
            ("move", "ok"),
            ("move", "refused 1"),
            ("move", "refused 14"),
        ] {
            let owed = (kind.to_string(), reply.to_string());
            assert!(met.contains(&owed), "{kind} {reply}");
        }
    }
}
