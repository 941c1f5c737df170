//! `short LENT RANK`: the sequence of 2 to 8 bases at a rank, which the Rust lacks. Every rank is
//! asked; the kinds `seq` and `published` ask for the energies of the sequences.

use super::{Ask, Kind};
use crate::judge::short::{self, LENT};
use crate::question::Question;
use crate::random::Random;
use protocol::joined;

pub struct ShortSequences;

/// Random ranks in one round, most of them beyond the last, one in two with another lent length.
const IN_A_ROUND: usize = 2_000;

/// What the port fills the lent bytes with before a call.
const KEPT: u8 = 0xa5;

impl Kind for ShortSequences {
    fn name(&self) -> &'static str {
        "short"
    }

    fn replies(&self) -> &'static [u32] {
        &[0, 1, 13]
    }

    fn fixed(&self, ask: &mut Ask) {
        let all = short::all();
        for (rank, sequence) in all.iter().enumerate() {
            ask(question(rank as u64, LENT, Some(sequence)));
        }
        let first_past = all.len() as u64;
        for rank in [first_past, first_past + 1, 1 << 17, 1 << 32, u64::MAX] {
            ask(question(rank, LENT, None));
            ask(question(
                rank - first_past,
                LENT,
                all.get((rank - first_past) as usize),
            ));
        }
        for lent in [0, 1, 2, 7, 9, 16, 87_376] {
            ask(question(0, lent, None));
            ask(question(first_past, lent, None));
        }
    }

    fn random(&self, random: &mut Random, ask: &mut Ask) {
        for _ in 0..IN_A_ROUND {
            let rank = random.bits() >> random.below(64);
            let rank = rank.max(87_376);
            let lent = if random.once_in(2) {
                LENT
            } else {
                random.below(20)
            };
            ask(question(rank, lent, None));
        }
    }
}

/// The sequence is `None` where the call is refused.
fn question(rank: u64, lent: usize, sequence: Option<&Vec<u8>>) -> Question {
    let port = format!("short {lent} {rank}");
    Question::of_port(port, short::at_rank(rank, lent), || {
        let sequence = sequence.expect("the judge refuses no rank that has one");
        let mut bytes = [KEPT; LENT];
        bytes[..sequence.len()].copy_from_slice(sequence);
        format!("{} {}", sequence.len(), joined(bytes, ","))
    })
}
