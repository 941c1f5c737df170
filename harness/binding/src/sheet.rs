//! A sheet of jobs on one design.

use crate::design::Design;
use crate::wrapped::wrapped;

/// The job words, and what is lent for the replies and the stretches.
#[derive(Debug)]
pub struct Sheet<'a> {
    pub jobs: &'a [u32],
    pub numbers: &'a mut [u32],
    pub energies: &'a mut [f64],
    pub counts: &'a mut [u64],
    pub stretches: &'a mut [u8],
}

wrapped! {
    job_sheet(design: Design, sheet: Sheet) -> u32;
}
