//! The natural logarithm.

use crate::wrapped::wrapped;

wrapped! {
    ln(x: f64, logarithm: &mut f64) -> u32;
}
