//! Strands for the generators: letters in either case, partners, mismatches and wrong bytes.

use crate::random::Random;

/// Bytes next to the letters in the alphabet, in ASCII or by one bit, and letters that other
/// alphabets of bases have.
const NEAR_MISSES: &[u8] = b"bdfhsuvnBDFHSUVN@[`{ *-0x1/\0\x01\x7f\x80\xe1\xe3\xe7\xf4\xc1\xff";

/// Every sequence of up to `longest` letters of `alphabet`, shortest first.
pub fn all_sequences(alphabet: &[u8], longest: usize) -> Vec<Vec<u8>> {
    let mut all = vec![vec![]];
    let mut last = 0..1;
    for _ in 0..longest {
        let from = all.len();
        for index in last {
            for letter in alphabet {
                let mut longer: Vec<u8> = all[index].clone();
                longer.push(*letter);
                all.push(longer);
            }
        }
        last = from..all.len();
    }
    all
}

pub fn in_either_case(random: &mut Random, letter: u8) -> u8 {
    if random.once_in(2) {
        letter.to_ascii_uppercase()
    } else {
        letter.to_ascii_lowercase()
    }
}

/// A strand of this length. Some are of one case, some have few different letters.
pub fn strand(random: &mut Random, length: usize) -> Vec<u8> {
    let letters = random.pick(&[b"acgt", b"acgt", b"acgt", b"aatt", b"ggcc", b"atcg"]);
    let case = random.below(3);
    let letter = |random: &mut Random| {
        let letter = random.pick(letters);
        match case {
            0 => letter,
            1 => letter.to_ascii_uppercase(),
            _ => in_either_case(random, letter),
        }
    };
    (0..length).map(|_| letter(random)).collect()
}

/// The letter that pairs with this one, in lower case.
pub fn partner(letter: u8) -> u8 {
    match letter.to_ascii_lowercase() {
        b'a' => b't',
        b't' => b'a',
        b'c' => b'g',
        b'g' => b'c',
        other => panic!("{other} is no base"),
    }
}

/// One of the three letters that do not pair with this one.
pub fn mismatch(random: &mut Random, letter: u8) -> u8 {
    let others: Vec<u8> = b"acgt"
        .iter()
        .copied()
        .filter(|other| *other != partner(letter))
        .collect();
    let other = random.pick(&others);
    in_either_case(random, other)
}

/// The strand that is read beside `a`: a partner where `pairs` says so, a mismatch elsewhere.
pub fn beside(random: &mut Random, a: &[u8], pairs: &[bool]) -> Vec<u8> {
    assert_eq!(a.len(), pairs.len());
    let mut place = |(letter, pairs): (&u8, &bool)| {
        if *pairs {
            in_either_case(random, partner(*letter))
        } else {
            mismatch(random, *letter)
        }
    };
    a.iter().zip(pairs).map(&mut place).collect()
}

pub fn wrong_byte(random: &mut Random) -> u8 {
    loop {
        let byte = if random.once_in(2) {
            random.pick(NEAR_MISSES)
        } else {
            random.below(256) as u8
        };
        if !b"acgtACGT".contains(&byte) {
            return byte;
        }
    }
}

/// Puts one wrong byte or a few into the strand: often at an end, or at the same place twice.
pub fn spoil(random: &mut Random, strand: &mut [u8]) {
    if strand.is_empty() {
        return;
    }
    for _ in 0..random.within(1..=3) {
        let place = match random.below(4) {
            0 => 0,
            1 => strand.len() - 1,
            _ => random.below(strand.len()),
        };
        strand[place] = wrong_byte(random);
    }
}

/// A length up to 257, the limit and both sides of it more often than others.
pub fn length(random: &mut Random) -> usize {
    match random.below(8) {
        0 => random.within(0..=4),
        1 => random.within(254..=257),
        2..=4 => random.within(0..=48),
        _ => random.within(0..=257),
    }
}

#[cfg(test)]
mod tests {
    use super::*;

    #[test]
    fn every_short_sequence_is_there_once() {
        let all = all_sequences(b"acgtn", 3);
        assert_eq!(all.len(), 1 + 5 + 25 + 125);
        let mut different = all.clone();
        different.sort();
        different.dedup();
        assert_eq!(different.len(), all.len());
        assert!(all.contains(&b"nat".to_vec()) && all.contains(&vec![]));
    }

    #[test]
    fn partners_pair_and_mismatches_never() {
        let mut random = Random::new(3);
        for letter in *b"acgtACGT" {
            assert_eq!(partner(partner(letter)), letter.to_ascii_lowercase());
            let mut met = vec![];
            for _ in 0..200 {
                met.push(mismatch(&mut random, letter));
            }
            met.sort();
            met.dedup();
            assert_eq!(met.len(), 6, "three letters in two cases");
            assert!(!met.contains(&partner(letter)));
        }
    }

    #[test]
    fn a_spoiled_strand_has_a_wrong_byte() {
        let mut random = Random::new(4);
        for length in 1..300 {
            let mut spoiled = strand(&mut random, length);
            assert!(spoiled.iter().all(|byte| b"acgtACGT".contains(byte)));
            spoil(&mut random, &mut spoiled);
            assert!(!spoiled.iter().all(|byte| b"acgtACGT".contains(byte)));
        }
    }
}
