//! Stand-in for `astro_float`: the names that the partition functions of sdc1d.rs use. They are
//! never run.

#[derive(Clone, Debug)]
pub struct BigFloat(());

#[derive(Clone, Copy, Debug, PartialEq)]
pub enum RoundingMode {
    None,
}

#[derive(Clone, Copy, Debug, PartialEq)]
pub enum Sign {
    Pos,
    Neg,
}

#[derive(Debug)]
pub struct Error;

pub struct Consts(());

impl Consts {
    pub fn new() -> Result<Self, Error> {
        unimplemented!("astro_float shim")
    }
}

#[allow(unused_variables)]
impl BigFloat {
    pub fn from_i32(v: i32, p: usize) -> Self {
        unimplemented!("astro_float shim")
    }
    pub fn from_i64(v: i64, p: usize) -> Self {
        unimplemented!("astro_float shim")
    }
    pub fn from_f64(v: f64, p: usize) -> Self {
        unimplemented!("astro_float shim")
    }
    pub fn add(&self, o: &Self, p: usize, rm: RoundingMode) -> Self {
        unimplemented!("astro_float shim")
    }
    pub fn mul(&self, o: &Self, p: usize, rm: RoundingMode) -> Self {
        unimplemented!("astro_float shim")
    }
    pub fn exp(&self, p: usize, rm: RoundingMode, cc: &mut Consts) -> Self {
        unimplemented!("astro_float shim")
    }
    pub fn ln(&self, p: usize, rm: RoundingMode, cc: &mut Consts) -> Self {
        unimplemented!("astro_float shim")
    }
    pub fn set_precision(&mut self, p: usize, rm: RoundingMode) -> Result<(), Error> {
        unimplemented!("astro_float shim")
    }
    pub fn is_zero(&self) -> bool {
        unimplemented!("astro_float shim")
    }
    pub fn is_inf_pos(&self) -> bool {
        unimplemented!("astro_float shim")
    }
    pub fn is_inf_neg(&self) -> bool {
        unimplemented!("astro_float shim")
    }
    pub fn is_nan(&self) -> bool {
        unimplemented!("astro_float shim")
    }
    pub fn sign(&self) -> Option<Sign> {
        unimplemented!("astro_float shim")
    }
    pub fn mantissa_digits(&self) -> Option<&[u64]> {
        unimplemented!("astro_float shim")
    }
    pub fn exponent(&self) -> Option<i32> {
        unimplemented!("astro_float shim")
    }
}
