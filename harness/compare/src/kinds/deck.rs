//! `deck.read FORM LENT WORDS`, `deck.write FORM LENT ENTRIES` and `deck.move FORM LENT WORDS`: stored
//! configurations in both forms. The Rust has none; the judge's own readers and writers are the other
//! side.

use super::{Ask, Kind};
use crate::decks;
use crate::judge::deck::{self, Form, FORMS, READING_LENDS, WRITING_LENDS};
use crate::question::Question;
use crate::random::Random;
use protocol::joined;

pub struct Decks;

/// Decks of each form and sort, and configurations, in one round.
const IN_A_ROUND: usize = 4_000;

/// Decks of each form, moved there and back, in one round, and as many damaged ones.
const MOVED_IN_A_ROUND: usize = 3_000;

/// What the port fills the lent slices with before a call.
const KEPT_ENTRY: u8 = 0xa5;
const KEPT_WORD: u32 = 0xa5a5_a5a5;

impl Kind for Decks {
    fn name(&self) -> &'static str {
        "deck"
    }

    fn replies(&self) -> &'static [u32] {
        &[0, 1, 9, 14]
    }

    fn fixed(&self, ask: &mut Ask) {
        decks::each_short_deck(4, |words| ask(reading(0, words, READING_LENDS)));
        decks::each_short_deck_with_runs(4, |words| {
            ask(reading(1, words, READING_LENDS));
            ask(moving(1, words, WRITING_LENDS));
        });
        decks::each_short_deck(3, |words| ask(moving(0, words, WRITING_LENDS)));
        for form in 0..=1 {
            decks::each_short_configuration(5, |config| ask(writing(form, config, WRITING_LENDS)));
            lent_lengths(form, ask);
            limits(form, ask);
        }
        for form in [2, 3, 255, u32::MAX] {
            ask(reading(form, &[0x1000_0000], READING_LENDS));
            ask(writing(form, &[64], WRITING_LENDS));
            ask(moving(form, &[0x1000_0000], WRITING_LENDS));
        }
    }

    fn random(&self, random: &mut Random, ask: &mut Ask) {
        for form in FORMS {
            for _ in 0..IN_A_ROUND {
                let valid = valid(form, random);
                ask(reading(
                    form.number(),
                    &decks::damaged(&valid, random),
                    READING_LENDS,
                ));
                ask(reading(form.number(), &valid, READING_LENDS));
                ask(reading(form.number(), &decks::long(random), READING_LENDS));
                let config = decks::configuration(random);
                ask(reading(form.number(), &form.write(&config), READING_LENDS));
                ask(writing(form.number(), &config, WRITING_LENDS));
                let any = decks::any_configuration(random);
                ask(writing(form.number(), &any, WRITING_LENDS));
            }
            for _ in 0..MOVED_IN_A_ROUND {
                let valid = valid(form, random);
                let there = form.moved(&valid).expect("the judge admits it");
                ask(moving(form.number(), &valid, WRITING_LENDS));
                ask(back(form, &there, &valid));
                ask(moving(
                    form.number(),
                    &decks::damaged(&valid, random),
                    WRITING_LENDS,
                ));
            }
        }
    }
}

fn valid(form: Form, random: &mut Random) -> Vec<u32> {
    match form {
        Form::Singles => decks::deck(random),
        Form::Runs => decks::deck_with_runs(random),
    }
}

fn lent_lengths(form: u32, ask: &mut Ask) {
    for lent in [0, 1, 127, 129, 256] {
        ask(reading(form, &[], lent));
        ask(reading(form, &[0x1000_0000], lent));
        ask(reading(form, &[0x1000_0001, 0x2000_0001], lent));
    }
    for lent in [0, 1, 128, 130] {
        ask(writing(form, &[], lent));
        ask(writing(form, &[64], lent));
        ask(writing(form, &[1, 0, 0, 2], lent));
        ask(moving(form, &[], lent));
        ask(moving(form, &[0x1000_0000], lent));
    }
}

/// Configurations and decks of about 128 positions, and runs about the longest.
fn limits(form: u32, ask: &mut Ask) {
    for length in 120..=140 {
        for entry in [0, 1, 63, 64] {
            ask(writing(form, &vec![entry; length], WRITING_LENDS));
        }
        let mut words = vec![0x1000_0080];
        words.resize(length, 0x2000_003f);
        ask(reading(form, &words, READING_LENDS));
        ask(moving(form, &words, WRITING_LENDS));
        for strand in [1, 63] {
            let run = [0x1000_0080, 0x4000_0000 + strand + 64 * (length as u32 - 1)];
            ask(reading(form, &run, READING_LENDS));
            ask(moving(form, &run, WRITING_LENDS));
        }
    }
}

fn reading(form: u32, words: &[u32], lent: usize) -> Question {
    let port = format!("deck.read {form} {lent} {}", hexadecimal(words));
    Question::of_port(port, deck::reading(form, words, lent), || {
        let mut entries = admitted(form).read(words).expect("the judge admits it");
        let count = entries.len();
        entries.resize(lent, KEPT_ENTRY);
        format!("{count} {}", joined(entries, ","))
    })
}

fn writing(form: u32, config: &[u8], lent: usize) -> Question {
    let port = format!("deck.write {form} {lent} {}", joined(config, ","));
    Question::of_port(port, deck::writing(form, config, lent), || {
        lent_words(admitted(form).write(config), lent)
    })
}

fn moving(form: u32, words: &[u32], lent: usize) -> Question {
    let port = format!("deck.move {form} {lent} {}", hexadecimal(words));
    Question::of_port(port, deck::moving(form, words, lent), || {
        let moved = admitted(form).moved(words).expect("the judge admits it");
        lent_words(moved, lent)
    })
}

/// What a deck was moved to, moved back: the words that it had.
fn back(form: Form, there: &[u32], words: &[u32]) -> Question {
    let other = form.other().number();
    let port = format!("deck.move {other} {WRITING_LENDS} {}", hexadecimal(there));
    Question::of_port(port, deck::moving(other, there, WRITING_LENDS), || {
        lent_words(words.to_vec(), WRITING_LENDS)
    })
}

fn admitted(form: u32) -> Form {
    FORMS[form as usize]
}

fn lent_words(mut words: Vec<u32>, lent: usize) -> String {
    let count = words.len();
    words.resize(lent, KEPT_WORD);
    format!("{count} {}", hexadecimal(&words))
}

fn hexadecimal(words: &[u32]) -> String {
    joined(words.iter().map(|word| format!("{word:08x}")), ",")
}
