//! Document 02's sheet of jobs: each job by its direct call.

use super::design::{Lent, CONCENTRATIONS, POTENTIALS};
use super::search::Reading;
use super::Verdict;

pub const MOST_JOBS: usize = 64;

/// A word's kind, in its top 4 bits, and its payload.
pub fn parts(word: u32) -> (u32, u64) {
    (word >> 28, u64::from(word & 0x0fff_ffff))
}

/// What stands for one job: its reply, and what a search writes into its stretch. "0 for a figure they
/// don't give."
#[derive(Debug, Default, PartialEq)]
pub struct Job {
    pub number: u32,
    pub energy: f64,
    pub count: u64,
    pub stretch: Option<Vec<u8>>,
}

impl Lent {
    /// "1 for a longer sheet, or for its replies or stretches lent at another length, a sheet's only
    /// refusal." The lengths are those of numbers, energies, counts and stretches. A number that names
    /// no kind of amounts is an argument of the sheet, and 1 as in every call.
    pub fn sheet_verdict(&self, jobs: usize, lent: [usize; 4]) -> Verdict {
        let wanted = [jobs, jobs, jobs, jobs * self.positions()];
        let unnamed = ![POTENTIALS, CONCENTRATIONS].contains(&self.given);
        Verdict::lowest(&[(1, unnamed || jobs > MOST_JOBS || lent != wanted)])
    }

    /// "Kind 8 state energy at the rank in the payload, kind 9 the search (payload 0), kind 10 the
    /// state count (payload 0)"; "22, whatever else holds, for a job word of another kind or payload".
    pub fn job(&self, word: u32) -> Job {
        let positions = self.positions();
        let number = match parts(word) {
            (8, rank) => self.state_verdict(rank, positions).number(),
            (9, 0) => self.search_verdict(positions).number(),
            (10, 0) => self.count_verdict().number(),
            _ => 22,
        };
        let mut job = Job {
            number,
            ..Job::default()
        };
        match parts(word) {
            _ if number != 0 => {}
            (8, rank) => job.energy = self.state_energy(&self.state(rank)),
            (9, _) => {
                let (energy, configuration) = self.search(Reading::Document);
                (job.energy, job.stretch) = (energy, Some(configuration));
            }
            _ => job.count = self.count() as u64,
        }
        job
    }
}

#[cfg(test)]
mod tests {
    use super::*;
    use crate::judge::design::tests::bench;

    const WORKED: [u32; 6] = [
        0x8000_0000,
        0x8000_0004,
        0x9000_0000,
        0xa000_0000,
        0x9000_0001,
        0x3000_0001,
    ];

    fn replies(lent: &Lent) -> Vec<(u32, f64, u64)> {
        let jobs = WORKED.map(|word| lent.job(word));
        jobs.iter()
            .map(|job| (job.number, job.energy, job.count))
            .collect()
    }

    #[test]
    fn the_worked_sheet_holds() {
        let mut two = bench(&[1, 2], &[-0.5, -2.0]);
        let worked = [
            (0, -1.5, 0),
            (13, 0.0, 0),
            (0, -1.5, 0),
            (0, 0.0, 4),
            (22, 0.0, 0),
            (22, 0.0, 0),
        ];
        assert_eq!(replies(&two), worked);
        assert_eq!(two.job(WORKED[2]).stretch, Some(vec![0, 2]));
        assert!([0, 1, 3, 4, 5].map(|at| two.job(WORKED[at]).stretch) == [const { None }; 5]);
        two.dg[65] = f64::NAN;
        assert_eq!(
            replies(&two),
            [9, 9, 9, 9, 22, 22].map(|number| (number, 0.0, 0))
        );
    }

    #[test]
    fn a_sheet_is_refused_by_its_lengths_alone() {
        let mut two = bench(&[1, 2], &[-0.5, -2.0]);
        two.rt = f64::NAN;
        let number = |jobs, lent| two.sheet_verdict(jobs, lent).number();
        assert_eq!(number(0, [0; 4]), 0);
        assert_eq!(number(64, [64, 64, 64, 128]), 0);
        assert_eq!(number(65, [65, 65, 65, 130]), 1);
        assert_eq!(number(3, [3, 3, 3, 5]), 1);
        assert_eq!(number(3, [3, 2, 3, 6]), 1);
    }

    #[test]
    fn too_many_states_are_no_matter_to_a_search() {
        let many = bench(&[1; 21], &[-2.0]);
        let numbers = [0x8000_0000, 0x8fff_ffff, 0x9000_0000, 0xa000_0000];
        assert_eq!(numbers.map(|word| many.job(word).number), [12, 12, 0, 12]);
    }
}
