//! The lines that oracle and port answer (../oracle/PROTOCOL.md): the words of a question, the
//! reply to it, and the loop that reads the one and writes the other.

mod reply;
mod serve;
mod words;

pub use reply::Reply;
pub use serve::serve;
pub use words::{
    bits, bytes, double, expect_words, joined, sequence_word, whole, Complaint, Words,
};
