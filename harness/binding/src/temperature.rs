//! The ambient at a temperature.

use crate::wrapped::wrapped;

wrapped! {
    ambient(
        kelvin: f64,
        rt: &mut f64,
        strand_excess: &mut f64,
        scaffold_excess: &mut f64
    ) -> u32;
}
