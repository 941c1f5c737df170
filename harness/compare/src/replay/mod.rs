//! The fixed list of answers that the Rattle program `replay` reads where no Rust is at hand.
//! `HEADER` has the layout, and says whose the answers are.

mod built;
mod designs;
mod limits;
mod lines;
mod stored;

use crate::judge::{parameters, sequences, temperature, Verdict};
use crate::kinds::ambient::WHOLE_FROM;
use crate::program::Program;
use protocol::{bits, bytes, sequence_word, Reply};
use std::collections::BTreeSet;

pub use lines::lines;

pub const HEADER: &str = "\
# Answers of the Rust (cgevans/rgrow at fd3e69a1ab) for the program replay. Made by: harness/replay-list
# A line is one question and its answer, in words parted by single blanks. A line that begins with # is none.
#   seq S, pair A B                  ok DG DS
#   loop LENGTH KIND                 ok DG
#   strength E S, strength2 E A B    ok STRENGTH
#   ambient KELVIN                   ok RT STRAND_EXCESS SCAFFOLD_EXCESS
#   name N                           ok LENGTH IS_BASE: of its base; 1 where the name stands for the base. In 16 hex digits
# A design is set by lines that are no questions, one number each, and holds for the questions that follow:
#   design POSITIONS STRANDS RT STRAND_EXCESS SCAFFOLD_EXCESS   begins one whose other numbers are all 0
#   scaffold I GLUE, glue I GLUE, potential I X, dg I X, ds I X   set entry I of a slice
#   sbond X Y, cbond POSITION STRAND ok BOND
#   friends POSITION, state RANK     ok PLACES
#   nstates                          ok COUNT, in 16 hex digits
#   gsys PLACES                      ok ENERGY
#   chain PLACES                     ok SUM ENERGY
#   mfe, settled                     ok ENERGY, ok PLACES: what the search answers
# A parameter set is set likewise, and holds for the builds that follow:
#   set USERS POSITIONS ENTRIES QUENCHER REPORTER PENALTY_DG PENALTY_DS   begins one whose other numbers are all 0
#   text LETTERS                     the bytes of its names and sequences
#   side I N, site I N, entry I N, energy I X   set entry I of the rows of strands, scaffold, entries and energies
#   build BUILD CELL                 ok STRAND_GLUES SCAFFOLD_GLUES DG DS: all glues as PLACES, and a cell of both tables; BUILD is
#                                    0 for an ordinary build, 1 for the archive's
# A deck stands by itself. FORM is 0 for document 01's, 1 for the one with runs:
#   read FORM DECK                   ok PLACES
#   write FORM PLACES, move FORM DECK   ok DECK: moved, it is in the other form
# or, in place of ok and its figures, refused NUMBER, without its place. Doubles are 16 hex digits, other numbers decimal.
# A sequence or a name stands as it is, an empty one as -. PLACES are a byte for each place, 48 and the number of its strand, so
# that 0 is an empty place; with no places they are -. A DECK is 8 hex digits for each word; with none it is -. Below 256 K the Rust's strand excess can be another number than
# document 01's T - 310.15; there the Rust's scaffold excess, which is that, stands for both.
# Figures are the Rust's, refusals those of the harness's judge, who reads document 01. The judge's are also the counts and states of
# designs with more than 4096 states, the second figure of chain, decks, and every answer behind the line that says so.
";

pub const FALSE_HEADER: &str = "\
# Lines of the list answers whose answers were falsified, and a line that sets nothing. Made by: harness/replay-list false
";

/// A line of the list: a question with its answer, or what sets a number of a design or a parameter set, with none.
#[derive(Debug, Clone, PartialEq)]
pub struct Answered {
    pub question: String,
    pub answer: String,
}

impl Answered {
    fn setter(line: String) -> Self {
        Answered {
            question: line,
            answer: String::new(),
        }
    }

    fn is_question(&self) -> bool {
        !self.answer.is_empty()
    }

    fn kind(&self) -> &str {
        self.question.split(' ').next().unwrap_or_default()
    }

    fn line(&self) -> String {
        let line = match self.is_question() {
            true => format!("{} {}\n", self.question, self.answer),
            false => format!("{}\n", self.question),
        };
        assert!(line.len() <= LONGEST_LINE + 1, "too long: {line}");
        line
    }

    /// The same question with another answer: the last letter or digit is changed.
    fn falsified(&self) -> Self {
        let mut answer = self.answer.clone();
        let last = answer.pop();
        answer.push(if last == Some('1') { '2' } else { '1' });
        Answered {
            question: self.question.clone(),
            answer,
        }
    }
}

/// A line is at most this long, its newline not counted.
pub const LONGEST_LINE: usize = 2400;

#[derive(Debug, Clone, PartialEq)]
pub enum Line {
    Sequence(Vec<u8>),
    Pair(Vec<u8>, Vec<u8>),
    Loop(u64, u32),
    Strength(f64, Vec<u8>),
    Strength2(f64, Vec<u8>, Vec<u8>),
    Ambient(f64),
    Name(Vec<u8>),
}

impl Line {
    /// The question as the list writes it.
    pub fn question(&self) -> String {
        match self {
            Line::Sequence(s) => format!("seq {}", letters(s)),
            Line::Pair(a, b) => format!("pair {} {}", letters(a), letters(b)),
            Line::Loop(length, kind) => format!("loop {length} {kind}"),
            Line::Strength(excess, s) => format!("strength {} {}", bits(*excess), letters(s)),
            Line::Strength2(excess, a, b) => {
                format!("strength2 {} {} {}", bits(*excess), letters(a), letters(b))
            }
            Line::Ambient(kelvin) => format!("ambient {}", bits(*kelvin)),
            Line::Name(name) => format!("name {}", letters(name)),
        }
    }

    /// The question as the oracle takes it.
    fn oracle_line(&self) -> String {
        let word = |s: &Vec<u8>| sequence_word(s);
        match self {
            Line::Sequence(s) => format!("seq {}", word(s)),
            Line::Pair(a, b) => format!("pair {} {}", word(a), word(b)),
            Line::Loop(length, kind) => format!("loop {length} {kind}"),
            Line::Strength(excess, s) => format!("strengthx {} {}", bits(*excess), word(s)),
            Line::Strength2(excess, a, b) => {
                format!("strengthx {} {} {}", bits(*excess), word(a), word(b))
            }
            Line::Ambient(kelvin) => format!("ambient K {}", bits(*kelvin)),
            Line::Name(name) => format!("name {}", word(name)),
        }
    }

    pub fn verdict(&self) -> Verdict {
        match self {
            Line::Sequence(s) => sequences::sequence(s),
            Line::Pair(a, b) => sequences::pair(a, b),
            Line::Loop(length, kind) => sequences::loop_penalty(*length, *kind),
            Line::Strength(excess, s) => sequences::sequence_strength(s, *excess),
            Line::Strength2(excess, a, b) => sequences::pair_strength(a, b, *excess),
            Line::Ambient(kelvin) => temperature::ambient(*kelvin),
            Line::Name(name) => parameters::name_verdict(name, 0, name.len()),
        }
    }

    /// The figures of the list among the oracle's; None if those are not as they have to be.
    fn figures(&self, oracle: &str) -> Option<String> {
        let figures: Vec<&str> = oracle.split(' ').collect();
        match (self, figures.as_slice()) {
            (Line::Sequence(_) | Line::Pair(..), [dg, ds]) => Some(format!("{dg} {ds}")),
            (Line::Loop(..), [dg]) => Some(dg.to_string()),
            (Line::Strength(..) | Line::Strength2(..), [strength, _]) => Some(strength.to_string()),
            (Line::Ambient(kelvin), [_, rt, rtval, strand, scaffold]) => {
                let one_rt = rt == rtval;
                let one_excess = strand == scaffold || *kelvin < WHOLE_FROM;
                (one_rt && one_excess).then(|| format!("{rt} {scaffold} {scaffold}"))
            }
            (Line::Name(_), [base, is_base]) => {
                let length = bytes(base).ok()??.len();
                let is_base: u8 = is_base.parse().ok()?;
                Some(format!("{length:016x} {is_base:016x}"))
            }
            _ => None,
        }
    }
}

fn letters(s: &[u8]) -> String {
    let stands = |byte: &u8| byte.is_ascii_alphanumeric() || *byte == b'*';
    assert!(s.iter().all(stands), "letters, digits and stars alone");
    match s {
        [] => "-".to_string(),
        letters => letters.iter().map(|byte| *byte as char).collect(),
    }
}

/// A refusal as the list has it: the number alone.
fn refused(verdict: Verdict) -> Option<String> {
    match verdict.number() {
        0 => None,
        number => Some(format!("refused {number}")),
    }
}

/// The whole list, the header included.
pub fn list(oracle: &mut Program) -> Result<String, String> {
    let lines = answered(oracle)?
        .iter()
        .map(Answered::line)
        .collect::<String>();
    Ok(format!("{HEADER}{lines}"))
}

/// Of each kind of line the first that is answered and the first that is refused, each with a false
/// answer, and the lines that set their designs: the program has to report every question.
pub fn false_list(oracle: &mut Program) -> Result<String, String> {
    let mut list = FALSE_HEADER.to_string();
    let mut met = BTreeSet::new();
    let mut setters = String::new();
    for line in answered(oracle)? {
        if ["design", "set"].contains(&line.kind()) {
            setters.clear();
        }
        if !line.is_question() {
            setters.push_str(&line.line());
        } else if met.insert((line.kind().to_string(), line.answer.starts_with("ok"))) {
            list.push_str(&std::mem::take(&mut setters));
            list.push_str(&line.falsified().line());
        }
    }
    list.push_str("glue 192 1\n");
    Ok(list)
}

fn answered(oracle: &mut Program) -> Result<Vec<Answered>, String> {
    let lines = lines();
    let questions: String = lines.iter().map(|l| l.oracle_line() + "\n").collect();
    oracle.send(questions);
    let mut list = vec![];
    for line in &lines {
        let answer = oracle.answer()?;
        let written = match (refused(line.verdict()), Reply::parse(&answer)) {
            (Some(refusal), Some(Reply::Ok(_) | Reply::Panic(_))) => Some(refusal),
            (None, Some(Reply::Ok(figures))) => line.figures(&figures).map(|f| format!("ok {f}")),
            _ => None,
        };
        let question = line.question();
        let answer = written.ok_or_else(|| format!("{question}: the oracle says {answer}"))?;
        list.push(Answered { question, answer });
    }
    list.append(&mut stored::stored());
    list.append(&mut designs::designs(oracle)?);
    list.append(&mut built::built(oracle)?);
    list.append(&mut limits::limits());
    Ok(list)
}

#[cfg(test)]
mod tests {
    use super::*;

    #[test]
    fn a_falsified_answer_is_another() {
        for answer in [
            "ok 3ff0000000000001",
            "ok 0",
            "ok -",
            "ok 1",
            "refused 1",
            "refused 12",
        ] {
            let line = Answered {
                question: "mfe".to_string(),
                answer: answer.to_string(),
            };
            let falsified = line.falsified();
            assert_ne!(falsified.answer, answer);
            assert_eq!(falsified.answer.len(), answer.len());
        }
    }
}
