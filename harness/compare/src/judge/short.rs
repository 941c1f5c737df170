//! Document 02's short sequences: all of 2 to 8 bases, shorter first, then alphabetically.

use super::Verdict;

/// So many bytes are lent, and the longest sequence fills them.
pub const LENT: usize = 8;

/// All of them in lower case, made without a rank: each longer one is a shorter one and a letter
/// more, and the list is then sorted.
pub fn all() -> Vec<Vec<u8>> {
    let mut longest: Vec<Vec<u8>> = vec![vec![]];
    let mut all = vec![];
    for bases in 1..=8 {
        let before = std::mem::take(&mut longest);
        for start in before {
            for letter in *b"tgca" {
                longest.push([start.as_slice(), &[letter]].concat());
            }
        }
        if 2 <= bases {
            all.extend(longest.iter().cloned());
        }
    }
    all.sort_by(|a, b| a.len().cmp(&b.len()).then_with(|| a.cmp(b)));
    all
}

/// 1: not 8 bytes; 13: a rank past the last.
pub fn at_rank(rank: u64, lent: usize) -> Verdict {
    let last = (2..=8).map(|bases| 4u64.pow(bases)).sum::<u64>() - 1;
    Verdict::lowest(&[(1, lent != LENT), (13, last < rank)])
}

#[cfg(test)]
mod tests {
    use super::*;

    #[test]
    fn there_are_87376_each_once_and_in_order() {
        let all = all();
        assert_eq!(all.len(), 87_376);
        let strands = |rank: usize| std::str::from_utf8(&all[rank]).unwrap();
        let worked = [
            (0, "aa"),
            (1, "ac"),
            (3, "at"),
            (4, "ca"),
            (15, "tt"),
            (16, "aaa"),
        ];
        for (rank, sequence) in worked {
            assert_eq!(strands(rank), sequence);
        }
        assert_eq!((strands(79), strands(80)), ("ttt", "aaaa"));
        for (rank, bases) in [(336, 5), (1_360, 6), (5_456, 7), (21_840, 8)] {
            assert_eq!(strands(rank), "a".repeat(bases));
        }
        assert_eq!(strands(87_375), "tttttttt");
        assert!(all.windows(2).all(|two| two[0] != two[1]));
    }

    #[test]
    fn the_refusals() {
        assert_eq!(at_rank(87_375, 8).number(), 0);
        assert_eq!(at_rank(87_376, 8).number(), 13);
        assert_eq!(at_rank(87_376, 7).number(), 1);
    }
}
