//! `sheet JOBS LENGTHS`: a sheet of job words, which the Rust lacks. The lengths are those of the lent
//! numbers, energies, counts and stretches.

use crate::counted;
use crate::design::Lent;
use crate::slices::{list, Filled};
use mujplesten as mj;
use protocol::{bits, expect_words, joined, whole, Complaint, Reply, Words};

impl Lent {
    /// All numbers, energies, counts and stretches.
    pub fn sheet(&self, words: Words) -> Result<Reply, Complaint> {
        expect_words(words, &[2])?;
        let jobs: Vec<u32> = list(words[1], whole)?;
        let lengths: Vec<usize> = list(words[2], whole)?;
        let [numbers, energies, counts, stretches] = lengths[..] else {
            return Err("four lengths are wanted".to_string());
        };
        let mut numbers = Filled::words(numbers);
        let mut energies = Filled::doubles(energies);
        let mut counts = Filled::wholes(counts);
        let mut stretches = Filled::bytes(stretches);
        let sheet = mj::Sheet {
            jobs: &jobs,
            numbers: &mut numbers.slice,
            energies: &mut energies.slice,
            counts: &mut counts.slice,
            stretches: &mut stretches.slice,
        };
        let number = mj::job_sheet(self.design(), sheet);
        let told = format!(
            "{} {} {} {}",
            joined(&numbers.slice, ","),
            joined(energies.slice.iter().map(|x| bits(*x)), ","),
            joined(&counts.slice, ","),
            joined(&stretches.slice, ",")
        );
        let replies_kept = numbers.is_kept() && energies.is_kept() && counts.is_kept();
        let kept = replies_kept && stretches.is_kept();
        Ok(counted(number, mj::NOWHERE, told, kept))
    }
}
