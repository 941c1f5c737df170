//! A design file as statements, and as the bytes that they are written in.

use compare::random::Random;

/// The words of one line.
pub type Statement = Vec<Vec<u8>>;

pub fn statement(words: &[&str]) -> Statement {
    words.iter().map(|word| word.as_bytes().to_vec()).collect()
}

/// Statements with blank lines and comments strewn in: the bytes, and the line of each statement.
pub fn written(random: &mut Random, statements: &[Statement]) -> (Vec<u8>, Vec<usize>) {
    let (mut text, mut lines, mut line) = (vec![], vec![], 0);
    let newline: &[u8] = random.pick(&[b"\n".as_slice(), b"\n", b"\r\n"]);
    for words in statements {
        while random.once_in(6) {
            let idle = [
                "",
                "   ",
                "# a comment",
                "\t#",
                "#strand x - - - 1",
                "# \u{e9} \u{3bb} \"",
            ];
            text.extend(random.pick(&idle).as_bytes());
            text.extend(newline);
            line += 1;
        }
        line += 1;
        lines.push(line);
        if random.once_in(8) {
            text.extend(blank(random));
        }
        for (index, word) in words.iter().enumerate() {
            if index > 0 {
                text.extend(blank(random));
            }
            text.extend(word);
        }
        if random.once_in(6) {
            text.extend(blank(random));
            text.extend(random.pick(&["", "# why", "#", "## - 1 0x"]).as_bytes());
        }
        text.extend(newline);
    }
    if random.once_in(4) && text.ends_with(newline) {
        text.truncate(text.len() - newline.len());
    }
    (text, lines)
}

fn blank(random: &mut Random) -> &'static [u8] {
    random.pick(&[b" ".as_slice(), b" ", b" ", b"  ", b"\t", b" \t  "])
}

/// A number as a word that stands for it: short, with 17 digits, or its bits.
pub fn number(random: &mut Random, x: f64) -> Vec<u8> {
    let word = match random.below(6) {
        0 => format!("0x{:016x}", x.to_bits()),
        1 => format!("0x{:016X}", x.to_bits()),
        2 => format!("{x:.16e}"),
        3 => format!("{x:e}").replace('e', "E"),
        _ => format!("{x:?}"),
    };
    match word.as_bytes()[0] {
        b'-' | b'0' => word.into_bytes(),
        _ if random.once_in(8) => format!("+{word}").into_bytes(),
        _ => word.into_bytes(),
    }
}

#[cfg(test)]
mod tests {
    use super::*;

    #[test]
    fn lines_are_where_they_are_said_to_be() {
        let mut random = Random::new(1);
        for _ in 0..200 {
            let statements: Vec<Statement> = (0..random.within(0..=9))
                .map(|index| vec![format!("w{index}").into_bytes(), b"1".to_vec()])
                .collect();
            let (text, lines) = written(&mut random, &statements);
            let text = String::from_utf8(text).unwrap();
            let all: Vec<&str> = text.split('\n').collect();
            for (index, line) in lines.iter().enumerate() {
                assert!(all[line - 1].trim_start().starts_with(&format!("w{index}")));
            }
        }
    }

    #[test]
    fn words_stand_for_their_numbers() {
        let mut random = Random::new(2);
        for _ in 0..2000 {
            let x = random.double(-1e3, 1e3) * random.double(0.0, 1.0).powi(20);
            let word = String::from_utf8(number(&mut random, x)).unwrap();
            let read = match word.strip_prefix("0x") {
                Some(digits) => f64::from_bits(u64::from_str_radix(digits, 16).unwrap()),
                None => word.parse().unwrap(),
            };
            assert_eq!(read.to_bits(), x.to_bits(), "{word}");
        }
    }
}
