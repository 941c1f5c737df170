//! Sheets of jobs: words that are jobs and words that are none, each lent length just in and just out.

use crate::designs::Asked;
use crate::guarded::Guarded;
use crate::{near, Tally, REPLIES};
use compare::judge::design::{CONCENTRATIONS, POTENTIALS};
use compare::random::Random;
use mujplesten as mj;

/// The most jobs of a sheet that is admitted.
const MOST_JOBS: usize = 64;

/// More than these jobs are seldom asked of a large design: each is what a direct call is.
const FEW_JOBS: usize = 6;

fn word(random: &mut Random) -> u32 {
    let any = random.bits() as u32;
    match random.below(6) {
        0 => any,
        1 => 9 << 28,
        2 => 10 << 28,
        _ => 8 << 28 | random.pick(&[0, 1, any % 64, any >> 4]),
    }
}

/// A job's numbers are those of a call, or 22; a refused one has no figures; and only a search that is
/// answered writes its stretch, occupants of the design.
pub fn call(asked: &Asked, random: &mut Random, tally: &mut Tally) {
    let count = match random.below(16) {
        0 => random.pick(&[MOST_JOBS, MOST_JOBS + 1]),
        _ => random.below(FEW_JOBS),
    };
    let jobs: Vec<u32> = (0..count).map(|_| word(random)).collect();
    let positions = asked.design.scaffold.len();
    let wanted = [count, count, count, count * positions];
    let mut lengths = wanted;
    if random.once_in(4) {
        let which = random.below(4);
        lengths[which] = near(random, wanted[which]);
    }
    let mut numbers = Guarded::new(lengths[0], 0xa5a5_a5a5);
    let mut energies = Guarded::new(lengths[1], -1.25e-77);
    let mut counts = Guarded::new(lengths[2], 0xa5a5_a5a5_a5a5_a5a5);
    let mut stretches = Guarded::new(lengths[3], 0xa5);
    let sheet = mj::Sheet {
        jobs: &jobs,
        numbers: numbers.lent(),
        energies: energies.lent(),
        counts: counts.lent(),
        stretches: stretches.lent(),
    };
    let number = mj::job_sheet(asked.design, sheet);
    let kept = numbers.is_fit(number) && energies.is_fit(number) && counts.is_fit(number);
    let mut fit = kept && stretches.is_fit(number);
    let unnamed = ![POTENTIALS, CONCENTRATIONS].contains(&asked.design.given);
    fit &= number == u32::from(unnamed || count > MOST_JOBS || lengths != wanted);
    if number == 0 {
        let told = numbers.lent().iter().zip(energies.lent().iter());
        let told: Vec<_> = told.zip(counts.lent().iter()).collect();
        for (at, ((number, energy), states)) in told.into_iter().enumerate() {
            let figures = energy.to_bits() != 0 || *states != 0;
            let known = REPLIES.contains(number) && energy.is_finite();
            let stretch = &stretches.lent()[at * positions..(at + 1) * positions];
            let filled = *number == 0 && jobs[at] >> 28 == 9;
            let written = |entry: &u8| match filled {
                true => usize::from(*entry) < asked.strands,
                false => *entry == 0xa5,
            };
            let fits = stretch.iter().all(written);
            fit &= known && (*number == 0 || !figures) && fits;
        }
    }
    tally.call("job_sheet", number, fit);
}
