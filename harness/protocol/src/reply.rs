//! What a program says to one question.

use std::fmt;

#[derive(Debug, Clone, PartialEq, Eq)]
pub enum Reply {
    /// Answered; the figures as they stand on the line.
    Ok(String),
    /// Refused with a number of the documents, and the place that some of them give.
    Refused { number: u32, place: Option<u64> },
    /// The Rust panicked (the oracle alone says this).
    Panic(String),
    /// The line was not understood, or the program found itself at fault.
    Err(String),
}

impl Reply {
    pub fn refused(number: u32) -> Self {
        Reply::Refused {
            number,
            place: None,
        }
    }

    /// Reads a line as `Display` writes it; `None` if neither program writes such a line.
    pub fn parse(line: &str) -> Option<Self> {
        let (word, rest) = line.split_once(' ').unwrap_or((line, ""));
        match word {
            "ok" => Some(Reply::Ok(rest.to_string())),
            "panic" => Some(Reply::Panic(rest.to_string())),
            "err" => Some(Reply::Err(rest.to_string())),
            "refused" => {
                let (number, place) = match rest.split_once(' ') {
                    None => (rest, None),
                    Some((number, place)) => (number, Some(place.parse().ok()?)),
                };
                let number = number.parse().ok()?;
                Some(Reply::Refused { number, place })
            }
            _ => None,
        }
    }
}

impl fmt::Display for Reply {
    fn fmt(&self, out: &mut fmt::Formatter<'_>) -> fmt::Result {
        match self {
            Reply::Ok(figures) => write!(out, "ok {figures}"),
            Reply::Refused {
                number,
                place: None,
            } => write!(out, "refused {number}"),
            Reply::Refused {
                number,
                place: Some(place),
            } => write!(out, "refused {number} {place}"),
            Reply::Panic(message) => write!(out, "panic {}", message.replace('\n', " ")),
            Reply::Err(complaint) => write!(out, "err {}", complaint.replace('\n', " ")),
        }
    }
}

#[cfg(test)]
mod tests {
    use super::Reply;

    #[test]
    fn a_reply_is_read_as_it_was_written() {
        for reply in [
            Reply::Ok("3ff0000000000000 -".to_string()),
            Reply::refused(5),
            Reply::Refused {
                number: 14,
                place: Some(129),
            },
            Reply::Panic("Please enter a valid length".to_string()),
            Reply::Err("bad number".to_string()),
        ] {
            assert_eq!(Reply::parse(&reply.to_string()), Some(reply));
        }
    }

    #[test]
    fn other_lines_are_no_replies() {
        for line in [
            "",
            "OK 1",
            "refused",
            "refused two",
            "refused 14 -1",
            "okay",
        ] {
            assert_eq!(Reply::parse(line), None, "{line}");
        }
    }
}
