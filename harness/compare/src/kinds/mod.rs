//! The kinds of lines. A new kind is a file here, an entry in `all`, and a judge.

pub mod ambient;
pub mod blocked;
pub mod ceiling;
pub mod concentration;
pub mod deck;
pub mod design;
pub mod energies;
pub mod exponential;
pub mod logarithm;
pub mod loops;
pub mod names;
pub mod pair;
pub mod parameters;
pub mod published;
pub mod raw;
pub mod ring;
pub mod sequence;
pub mod sheet;
pub mod short;
pub mod strength;
pub mod sums;
pub mod tables;
pub mod ties;

use crate::question::Question;
use crate::random::Random;

/// Takes the next question.
pub type Ask<'a> = dyn FnMut(Question) + 'a;

/// Sends lines to the oracle that it answers with one line, and gives that.
pub type AskOracle<'a> = dyn FnMut(&str) -> Result<String, String> + 'a;

/// The same of the port.
pub type AskPort<'a> = dyn FnMut(&str) -> Result<String, String> + 'a;

pub trait Kind {
    /// As it stands in the last line of a run.
    fn name(&self) -> &'static str;

    /// Every reply that the questions must bring about, 0 for an answer. A run that leaves one
    /// out has not compared what it claims, and fails.
    fn replies(&self) -> &'static [u32];

    /// Asks the oracle for what the questions are made of, before the first of them.
    fn prepare(&self, _oracle: &mut AskOracle) -> Result<(), String> {
        Ok(())
    }

    /// Asks the port for figures whose last bits are open, where the questions are made of them.
    fn prepare_by_port(&self, _port: &mut AskPort) -> Result<(), String> {
        Ok(())
    }

    /// Questions that hang on no seed. They are asked once in a run.
    fn fixed(&self, ask: &mut Ask);

    /// One round of random questions.
    fn random(&self, random: &mut Random, ask: &mut Ask);

    /// Whether the figures of the port are the oracle's.
    fn agree(&self, oracle: &str, port: &str) -> bool {
        oracle == port
    }

    /// How many questions or inputs were made of each sort that the kind owes. A run that made none
    /// of one fails.
    fn made(&self) -> Vec<(&'static str, u64)> {
        vec![]
    }

    /// Sees each answer of the port to a line that is admitted.
    fn watch(&self, _line: &str, _port: &str) {}

    /// What was watched, as a line of the run; an error where it is not as it should be.
    fn watched(&self) -> Option<Result<String, String>> {
        None
    }

    /// Something about the oracle's figures that is worth counting.
    fn note(&self, _oracle: &str) -> Option<&'static str> {
        None
    }
}

pub fn all() -> Vec<Box<dyn Kind>> {
    vec![
        Box::new(sequence::Sequences),
        Box::new(published::Published),
        Box::new(short::ShortSequences),
        Box::new(pair::Pairs),
        Box::new(loops::Loops),
        Box::new(logarithm::Logarithms::default()),
        Box::new(strength::Strengths),
        Box::new(ambient::Ambients),
        Box::new(deck::Decks),
        Box::new(names::Names),
        Box::new(parameters::ParameterSets),
        Box::new(design::Designs::default()),
        Box::new(ties::Ties::default()),
        Box::new(blocked::Blocked::default()),
        Box::new(tables::BondTables::default()),
        Box::new(ring::Rings::default()),
        Box::new(ceiling::Ceilings),
        Box::new(sheet::Sheets::default()),
        Box::new(raw::RawDesigns),
        Box::new(concentration::Concentrations::default()),
        Box::new(sums::Sums::default()),
        Box::new(exponential::Exponentials::default()),
        Box::new(energies::Energies::default()),
    ]
}
