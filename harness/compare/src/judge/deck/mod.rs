//! Document 01, "Stored configurations", and document 02's form with runs, read once more: a reader and
//! a writer of decks that know the documents and docs/DECISIONS.md alone, never the port.

mod runs;
mod singles;
#[cfg(test)]
mod tests;

use super::Verdict;

const FIRST: u32 = 1;
const EMPTIES: u32 = 3;

const MOST_POSITIONS: u32 = 128;
const LAST_STRAND: u32 = 63;

/// "Reading lends 128 entries, writing 129 words."
pub const READING_LENDS: usize = 128;
pub const WRITING_LENDS: usize = 129;

/// The form, which the caller names.
#[derive(Clone, Copy, Debug, PartialEq)]
pub enum Form {
    Singles,
    Runs,
}

pub const FORMS: [Form; 2] = [Form::Singles, Form::Runs];

impl Form {
    /// The form that a number names; docs/DECISIONS.md has the numbers.
    fn of(number: u32) -> Option<Form> {
        FORMS.get(number as usize).copied()
    }

    pub fn number(self) -> u32 {
        self as u32
    }

    pub fn other(self) -> Form {
        match self {
            Form::Singles => Form::Runs,
            Form::Runs => Form::Singles,
        }
    }

    fn is_valid(self, words: &[u32]) -> bool {
        match self {
            Form::Singles => singles::is_valid(words),
            Form::Runs => runs::is_valid(words),
        }
    }

    fn can_begin(self, words: &[u32]) -> bool {
        match self {
            Form::Singles => singles::can_begin(words),
            Form::Runs => runs::can_begin(words),
        }
    }

    /// The configuration that the words stand for, or the place of refusal 14: "the first word with
    /// which no valid deck can begin so; if every word fits, the word count".
    pub fn read(self, words: &[u32]) -> Result<Vec<u8>, usize> {
        if self.is_valid(words) {
            return Ok(match self {
                Form::Singles => singles::configuration(words),
                Form::Runs => runs::configuration(words),
            });
        }
        let misfit = (0..words.len()).find(|&place| !self.can_begin(&words[..=place]));
        Err(misfit.unwrap_or(words.len()))
    }

    /// The deck of a configuration: of 0 to 128 entries, each at most 63.
    pub fn write(self, config: &[u8]) -> Vec<u32> {
        match self {
            Form::Singles => singles::write(config),
            Form::Runs => runs::write(config),
        }
    }

    /// The deck of the same configuration in the other form, or the place of the fault.
    pub fn moved(self, words: &[u32]) -> Result<Vec<u32>, usize> {
        self.read(words).map(|config| self.other().write(&config))
    }
}

/// "32-bit words, top 4 bits the kind, low 28 the payload."
fn split(word: u32) -> (u32, u32) {
    (word >> 28, word & 0x0fff_ffff)
}

fn join(kind: u32, payload: u32) -> u32 {
    kind << 28 | payload
}

/// The positions that the words after the first tell of, by what one tells of.
fn told(rest: &[u32], run: fn(u32) -> u64) -> u64 {
    rest.iter().map(|word| run(*word)).sum()
}

/// Reading into this many lent entries: 1 if the number names no form or they are not 128, "even
/// where words are faulty"; else 14 with its place.
pub fn reading(form: u32, words: &[u32], lent: usize) -> Verdict {
    match Form::of(form) {
        Some(form) if lent == READING_LENDS => by_fault(form, words),
        _ => Verdict::lowest(&[(1, true)]),
    }
}

/// Moving into this many lent words: 1 if the number names no form or they are not 129; else 14 with
/// its place, by the rules of the form that the deck is in.
pub fn moving(form: u32, words: &[u32], lent: usize) -> Verdict {
    match Form::of(form) {
        Some(form) if lent == WRITING_LENDS => by_fault(form, words),
        _ => Verdict::lowest(&[(1, true)]),
    }
}

fn by_fault(form: Form, words: &[u32]) -> Verdict {
    match form.read(words) {
        Ok(_) => Verdict::Admitted,
        Err(place) => Verdict::Refused {
            number: 14,
            place: Some(place as u64),
        },
    }
}

/// Writing into this many lent words: 1 if the number names no form, over 128 entries or if they are
/// not 129, 9 for an entry above 63.
pub fn writing(form: u32, config: &[u8], lent: usize) -> Verdict {
    let no_form = Form::of(form).is_none();
    let too_long = config.len() > MOST_POSITIONS as usize;
    let too_high = config.iter().any(|entry| u32::from(*entry) > LAST_STRAND);
    let size = no_form || too_long || lent != WRITING_LENDS;
    Verdict::lowest(&[(1, size), (9, too_high)])
}
