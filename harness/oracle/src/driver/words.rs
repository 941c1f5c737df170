//! Words that stand for the Rust's own types.

use protocol::{bytes, double, joined, whole, Complaint};
use rgrow::units::{Celsius, Kelvin};

/// A name, which the Rust takes as UTF-8 alone.
pub fn name(word: &str) -> Result<Option<String>, Complaint> {
    match bytes(word)? {
        None => Ok(None),
        Some(bytes) => match String::from_utf8(bytes) {
            Ok(text) => Ok(Some(text)),
            Err(_) => Err("not UTF-8".to_string()),
        },
    }
}

pub fn text(word: &str) -> Result<String, Complaint> {
    name(word)?.ok_or_else(|| "absent is not allowed here".to_string())
}

pub fn kelvin(unit: &str, word: &str) -> Result<Kelvin, Complaint> {
    match unit {
        "K" => Ok(Kelvin(double(word)?)),
        "C" => Ok(Kelvin::from(Celsius(double(word)?))),
        _ => Err("unit K or C".to_string()),
    }
}

pub fn configuration(word: &str) -> Result<Vec<u32>, Complaint> {
    match word {
        "-" => Ok(vec![]),
        list => list.split(',').map(whole).collect(),
    }
}

pub fn configuration_word(configuration: &[u32]) -> String {
    joined(configuration, ",")
}
