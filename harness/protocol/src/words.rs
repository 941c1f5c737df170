//! The words of a line, read and written.

use std::fmt::{Display, Write};

/// What was wrong with a line; it is printed after `err`.
pub type Complaint = String;

/// The words of one line; the first is the command.
pub type Words<'a> = &'a [&'a str];

/// Holds where the command is followed by one of these numbers of words.
pub fn expect_words(words: Words, counts: &[usize]) -> Result<(), Complaint> {
    if counts.contains(&(words.len() - 1)) {
        return Ok(());
    }
    let counts = joined(counts, " or ");
    Err(format!("{} takes {counts} words", words[0]))
}

/// The bits of a double, as 16 hex digits.
pub fn bits(x: f64) -> String {
    format!("{:016x}", x.to_bits())
}

/// Exactly 16 hex digits are the bits of a double; anything else is a decimal.
pub fn double(word: &str) -> Result<f64, Complaint> {
    if word.len() == 16 && word.bytes().all(|b| b.is_ascii_hexdigit()) {
        let bits = u64::from_str_radix(word, 16).map_err(|_| format!("bad bits {word}"))?;
        return Ok(f64::from_bits(bits));
    }
    word.parse().map_err(|_| format!("bad number {word}"))
}

pub fn whole<T: std::str::FromStr>(word: &str) -> Result<T, Complaint> {
    word.parse().map_err(|_| format!("bad integer {word}"))
}

/// The bytes of a name or sequence: `-` is absent, `=text` the text as it stands, `xHEX` any bytes.
pub fn bytes(word: &str) -> Result<Option<Vec<u8>>, Complaint> {
    if word == "-" {
        return Ok(None);
    }
    if let Some(text) = word.strip_prefix('=') {
        return Ok(Some(text.as_bytes().to_vec()));
    }
    let digits = word
        .strip_prefix('x')
        .ok_or_else(|| format!("bad name {word}"))?;
    let digits = digits.as_bytes();
    if digits.len() % 2 != 0 {
        return Err(format!("odd number of hex digits {word}"));
    }
    let byte = |pair: &[u8]| Some((nibble(pair[0])? << 4) | nibble(pair[1])?);
    let read: Option<Vec<u8>> = digits.chunks(2).map(byte).collect();
    read.map(Some).ok_or_else(|| format!("bad hex {word}"))
}

fn nibble(digit: u8) -> Option<u8> {
    (digit as char).to_digit(16).map(|value| value as u8)
}

/// A sequence as a word that `bytes` reads back: letters and digits as they stand, all else in hex.
pub fn sequence_word(sequence: &[u8]) -> String {
    let mut word = String::with_capacity(2 * sequence.len() + 1);
    if sequence.iter().all(u8::is_ascii_alphanumeric) {
        word.push('=');
        word.extend(sequence.iter().map(|&byte| byte as char));
    } else {
        word.push('x');
        for byte in sequence {
            write!(word, "{byte:02x}").expect("a String takes any text");
        }
    }
    word
}

/// A list with a separator; `-` for an empty list.
pub fn joined<T: Display>(items: impl IntoIterator<Item = T>, separator: &str) -> String {
    let mut list = String::new();
    for (index, item) in items.into_iter().enumerate() {
        if index > 0 {
            list.push_str(separator);
        }
        write!(list, "{item}").expect("a String takes any text");
    }
    if list.is_empty() {
        list.push('-');
    }
    list
}

#[cfg(test)]
mod tests {
    use super::*;

    #[test]
    fn every_byte_comes_back_from_its_word() {
        for byte in 0..=255u8 {
            for sequence in [vec![], vec![byte], vec![b'a', byte, b't']] {
                assert_eq!(bytes(&sequence_word(&sequence)), Ok(Some(sequence)));
            }
        }
    }

    #[test]
    fn names_may_be_absent_empty_or_wrong() {
        assert_eq!(bytes("-"), Ok(None));
        assert_eq!(bytes("="), Ok(Some(vec![])));
        assert_eq!(bytes("x"), Ok(Some(vec![])));
        assert_eq!(bytes("=-"), Ok(Some(b"-".to_vec())));
        for word in ["acgt", "x1", "x+1", "xzz", "x\u{e9}"] {
            assert!(bytes(word).is_err(), "{word}");
        }
    }

    #[test]
    fn doubles_are_bits_or_decimals() {
        for x in [0.0, -0.0, 1.5, f64::MIN_POSITIVE / 2.0, f64::INFINITY] {
            assert_eq!(double(&bits(x)).map(f64::to_bits), Ok(x.to_bits()));
        }
        let nan = 0xfff0_0000_0000_0001_u64;
        assert_eq!(double("fff0000000000001").map(f64::to_bits), Ok(nan));
        assert_eq!(double("1e-7"), Ok(1e-7));
        assert_eq!(double("1000000000000000"), Ok(f64::from_bits(1 << 60)));
        assert!(double("one").is_err());
    }

    #[test]
    fn the_number_of_words_is_held() {
        assert!(expect_words(&["pair", "=a", "=t"], &[2]).is_ok());
        assert!(expect_words(&["strengthx", "0", "=a"], &[2, 3]).is_ok());
        assert!(expect_words(&["seq"], &[1]).is_err());
        assert!(expect_words(&["seq", "=a", "=t"], &[1]).is_err());
    }
}
