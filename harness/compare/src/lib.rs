//! Port and oracle are asked the same lines, and every answer is compared bit for bit.
//!
//! * `kinds`: one file for each kind of line; it makes the questions and says what of an answer
//!   is compared.
//! * `judge`: document 01's refusals, and answers that the Rust lacks, from the document alone.
//! * `question`: what is asked and expected, and when an answer differs.
//! * `comparison`, `program`, `tally`: the run; `parting`: how far two energies part in it; `sums`,
//!   `logarithms`: how far sums over states and logarithms part from the exact ones.
//! * `random`, `bases`, `doubles`, `decks`, `designs`, `ambients`, `parameters`: what the
//!   generators draw from.
//! * `replay`: the fixed list of answers for the Rattle program of that name.

pub mod ambients;
pub mod bases;
pub mod comparison;
pub mod decks;
pub mod designs;
pub mod doubles;
pub mod judge;
pub mod kinds;
pub mod logarithms;
pub mod parameters;
pub mod parting;
pub mod program;
pub mod question;
pub mod random;
pub mod replay;
pub mod sums;
pub mod tally;
