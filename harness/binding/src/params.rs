//! Strand glues, scaffold glues and both tables from names and energies.

use crate::wrapped::wrapped;

/// A parameter set as the call takes it: slices of any length and content.
#[derive(Debug, Clone, Copy)]
pub struct Params<'a> {
    /// 0 for an ordinary build, 1 for the archive's.
    pub build: u32,
    /// Names and sequences are parts of it.
    pub text: &'a [u8],
    pub users: usize,
    /// West, bottom and east of each user strand. A name is a row of three numbers: its mark, 0
    /// absent, 1 present; its start; its length.
    pub strands: &'a [usize],
    pub scaffold: &'a [usize],
    /// An energy entry is a row of eight numbers: start and length of its first name, which is
    /// always there; mark, start and length of its second, absent where the entry is for one name;
    /// its form, 0 for two doubles, 1 for a sequence; start and length of its sequence.
    pub entries: &'a [usize],
    /// And a row of two doubles: dG and dS.
    pub energies: &'a [f64],
    pub penalty_dg: f64,
    pub penalty_ds: f64,
    /// Numbers of user strands, from 1; 0 for none.
    pub quencher: usize,
    pub reporter: usize,
}

/// What the call writes.
#[derive(Debug)]
pub struct Built<'a> {
    pub strand_glues: &'a mut [u8],
    pub scaffold_glues: &'a mut [u8],
    pub dg: &'a mut [f64],
    pub ds: &'a mut [f64],
}

wrapped! {
    params(set: Params, into: Built) -> u32;
}
