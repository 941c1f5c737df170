//! Lists of a line as slices, and slices that are lent to be written.

use crate::sums::POWER;
use crate::{DOUBLE, WHOLE};
use protocol::Complaint;

/// The list of a word: `,` within, `-` for an empty one.
pub fn list<T>(
    word: &str,
    one: impl Fn(&str) -> Result<T, Complaint>,
) -> Result<Vec<T>, Complaint> {
    match word {
        "-" => Ok(vec![]),
        list => list.split(',').map(one).collect(),
    }
}

/// A slice that is lent to be written, with what it held before, which no call writes.
pub struct Filled<T> {
    pub slice: Vec<T>,
    before: T,
}

impl Filled<u8> {
    pub fn bytes(length: usize) -> Self {
        Filled {
            slice: vec![0xa5; length],
            before: 0xa5,
        }
    }
}

impl Filled<u32> {
    pub fn words(length: usize) -> Self {
        Filled {
            slice: vec![0xa5a5_a5a5; length],
            before: 0xa5a5_a5a5,
        }
    }
}

impl Filled<i32> {
    pub fn powers(length: usize) -> Self {
        Filled {
            slice: vec![POWER; length],
            before: POWER,
        }
    }
}

impl Filled<f64> {
    pub fn doubles(length: usize) -> Self {
        Filled {
            slice: vec![DOUBLE; length],
            before: DOUBLE,
        }
    }
}

impl Filled<u64> {
    pub fn wholes(length: usize) -> Self {
        Filled {
            slice: vec![WHOLE; length],
            before: WHOLE,
        }
    }
}

impl<T: PartialEq> Filled<T> {
    pub fn is_kept(&self) -> bool {
        self.slice.iter().all(|entry| *entry == self.before)
    }
}
