//! One question a line on standard input, one reply a line on standard output.

use crate::Reply;
use std::io::{self, BufRead, Write};

/// Runs until standard input ends. `answer` is given the words of a line, at least one, and says
/// `None` for a setter that went well, which prints nothing.
pub fn serve(mut answer: impl FnMut(&[&str]) -> Option<Reply>) -> io::Result<()> {
    let mut input = io::BufReader::with_capacity(1 << 16, io::stdin().lock());
    let mut output = io::BufWriter::with_capacity(1 << 16, io::stdout().lock());
    let mut line = Vec::new();
    loop {
        line.clear();
        if input.read_until(b'\n', &mut line)? == 0 {
            return output.flush();
        }
        let Ok(text) = std::str::from_utf8(&line) else {
            writeln!(output, "{}", Reply::Err("not UTF-8".to_string()))?;
            continue;
        };
        let words: Vec<&str> = text.split_ascii_whitespace().collect();
        match words.first() {
            None => {}
            Some(word) if word.starts_with('#') => {}
            Some(&"flush") => output.flush()?,
            Some(_) => {
                if let Some(reply) = answer(&words) {
                    writeln!(output, "{reply}")?;
                }
            }
        }
    }
}
