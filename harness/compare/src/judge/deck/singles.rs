//! Document 01's rules for a deck: a word for each strand.

use super::{join, split, told, EMPTIES, FIRST, LAST_STRAND, MOST_POSITIONS};

const STRAND: u32 = 2;

/// The deck of a configuration: of 0 to 128 entries, each at most 63.
pub fn write(config: &[u8]) -> Vec<u32> {
    let mut words = vec![join(FIRST, config.len() as u32)];
    for run in config.chunk_by(|left, right| *left == 0 && *right == 0) {
        words.push(match run[0] {
            0 => join(EMPTIES, run.len() as u32),
            strand => join(STRAND, u32::from(strand)),
        });
    }
    words
}

/// Each rule of the document by itself.
pub fn is_valid(words: &[u32]) -> bool {
    let Some((first, rest)) = words.split_first() else {
        return false;
    };
    let (kind, positions) = split(*first);
    let first_is_right = kind == FIRST && positions <= MOST_POSITIONS;
    let rest_is_right = rest.iter().all(|word| match split(*word) {
        (STRAND, strand) => (1..=LAST_STRAND).contains(&strand),
        (EMPTIES, run) => run >= 1,
        _ => false,
    });
    let runs_meet = rest
        .windows(2)
        .any(|pair| pair.iter().all(|word| split(*word).0 == EMPTIES));
    let positions_add_up = told(rest, run) == u64::from(positions);
    first_is_right && rest_is_right && !runs_meet && positions_add_up
}

/// How many positions a word after the first tells of.
fn run(word: u32) -> u64 {
    match split(word) {
        (EMPTIES, run) => u64::from(run),
        _ => 1,
    }
}

/// Whether some valid deck begins with the words. A strand may stand anywhere, so if any deck
/// does, the one does that goes on with a strand at each position that is missing.
pub fn can_begin(words: &[u32]) -> bool {
    let Some((first, rest)) = words.split_first() else {
        return true;
    };
    let positions = u64::from(split(*first).1.min(MOST_POSITIONS));
    let missing = positions.saturating_sub(told(rest, run)) as usize;
    let mut deck = words.to_vec();
    deck.resize(words.len() + missing, join(STRAND, 1));
    is_valid(&deck)
}

pub fn configuration(deck: &[u32]) -> Vec<u8> {
    let mut config = Vec::new();
    for word in &deck[1..] {
        match split(*word) {
            (EMPTIES, run) => config.resize(config.len() + run as usize, 0),
            (_, strand) => config.push(strand as u8),
        }
    }
    config
}
