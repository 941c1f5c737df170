//! Windows onto private items of units.rs.

use super::*;

pub fn r_val() -> f64 {
    R_VAL.0
}

/// The divisor that `times_beta` uses.
pub fn rt_under_a_bond(t: Kelvin) -> f64 {
    (R_VAL * t).0
}
