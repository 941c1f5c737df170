//! Document 02's rules for a deck with runs: words of kind 4 stand where document 01 has kind 2, each
//! for as many neighbours of one strand as there are. The payload is the strand's number, and 64 for
//! each position of the run after its first. Kinds 1 and 3 are as they were.

use super::{join, split, told, EMPTIES, FIRST, MOST_POSITIONS};

const STRAND_RUN: u32 = 4;

/// The word of a run of one strand.
fn strand_run(strand: u32, run: u32) -> u32 {
    join(STRAND_RUN, strand + 64 * (run - 1))
}

/// The deck of a configuration: of 0 to 128 entries, each at most 63.
pub fn write(config: &[u8]) -> Vec<u32> {
    let mut words = vec![join(FIRST, config.len() as u32)];
    let mut at = 0;
    while at < config.len() {
        let same = |entry: &&u8| **entry == config[at];
        let run = config[at..].iter().take_while(same).count();
        words.push(match config[at] {
            0 => join(EMPTIES, run as u32),
            strand => strand_run(u32::from(strand), run as u32),
        });
        at += run;
    }
    words
}

/// What a word after the first says: a strand, or none for empties, and its run.
struct Said {
    strand: Option<u32>,
    run: u64,
}

/// A word's strand and run, for words that the rules admit.
fn said(word: u32) -> Option<Said> {
    match split(word) {
        (EMPTIES, 0) => None,
        (EMPTIES, run) => Some(Said {
            strand: None,
            run: u64::from(run),
        }),
        (STRAND_RUN, payload) => {
            let strand =
                (1..=63).find(|strand| payload >= *strand && (payload - strand) % 64 == 0)?;
            Some(Said {
                strand: Some(strand),
                run: u64::from((payload - strand) / 64) + 1,
            })
        }
        _ => None,
    }
}

/// How many positions a word tells of, 0 for a word that the rules do not admit.
fn run(word: u32) -> u64 {
    said(word).map_or(0, |said| said.run)
}

/// Each rule of the document by itself.
pub fn is_valid(words: &[u32]) -> bool {
    let Some((first, rest)) = words.split_first() else {
        return false;
    };
    let (kind, positions) = split(*first);
    let first_is_right = kind == FIRST && positions <= MOST_POSITIONS;
    let rest_is_right = rest.iter().all(|word| said(*word).is_some());
    let one_goes_on = rest.windows(2).any(|pair| {
        let (left, right) = (said(pair[0]), said(pair[1]));
        matches!((left, right), (Some(left), Some(right)) if left.strand == right.strand)
    });
    let positions_add_up = told(rest, run) == u64::from(positions);
    first_is_right && rest_is_right && !one_goes_on && positions_add_up
}

/// Whether some valid deck begins with the words. If any does, one does that goes on with a single
/// run of strand 1 or of strand 2, whichever the last word does not name.
pub fn can_begin(words: &[u32]) -> bool {
    let Some((first, rest)) = words.split_first() else {
        return true;
    };
    let positions = u64::from(split(*first).1.min(MOST_POSITIONS));
    let missing = positions.saturating_sub(told(rest, run)) as u32;
    let goes_on = |strand: u32| {
        let mut deck = words.to_vec();
        deck.push(strand_run(strand, missing));
        is_valid(&deck)
    };
    is_valid(words) || missing > 0 && (goes_on(1) || goes_on(2))
}

pub fn configuration(deck: &[u32]) -> Vec<u8> {
    let mut config = Vec::new();
    for said in deck[1..].iter().filter_map(|word| said(*word)) {
        let entry = said.strand.unwrap_or(0) as u8;
        config.resize(config.len() + said.run as usize, entry);
    }
    config
}
