//! A design on both sides, at one temperature.

use compare::designs::Ambient;
use compare::judge::design::Lent;
use mujplesten as mj;
use rgrow::models::sdc1d::probe::{rtval, scaffold_excess, strand_excess, Given};
use rgrow::models::sdc1d::SDC;
use rgrow::units::Kelvin;
use std::cell::RefCell;

const KELVIN: f64 = 330.0;

/// One design on both sides.
pub struct Both {
    pub lent: Lent,
    pub rust: RefCell<SDC>,
}

impl Both {
    /// The Rust's potentials are logarithms that it takes itself, so they are asked of it.
    pub fn new(mut lent: Lent) -> Self {
        let given = Given {
            scaffold: lent
                .scaffold
                .iter()
                .map(|glue| usize::from(*glue))
                .collect(),
            glues: lent
                .glues
                .chunks(3)
                .map(|sides| [0, 1, 2].map(|side| usize::from(sides[side])))
                .collect(),
            concentrations: lent
                .potentials
                .iter()
                .map(|potential| potential.exp())
                .collect(),
            glue_count: 64,
            dg: lent.dg.clone(),
            ds: lent.ds.clone(),
            kelvin: KELVIN,
        };
        let rust = given.make();
        lent.potentials = (0..lent.strands() as u32)
            .map(|strand| rust.p_potential(strand))
            .collect();
        Both {
            lent,
            rust: RefCell::new(rust),
        }
    }

    pub fn port(&self) -> mj::Design<'_> {
        mj::Design {
            scaffold: &self.lent.scaffold,
            marks: &self.lent.marks,
            glues: &self.lent.glues,
            dg: &self.lent.dg,
            ds: &self.lent.ds,
            amounts: &self.lent.potentials,
            given: 0,
            rt: self.lent.rt,
            strand_excess: self.lent.strand_excess,
            scaffold_excess: self.lent.scaffold_excess,
        }
    }
}

pub fn ambient() -> Ambient {
    Ambient {
        rt: rtval(Kelvin(KELVIN)),
        strand_excess: strand_excess(Kelvin(KELVIN)),
        scaffold_excess: scaffold_excess(Kelvin(KELVIN)),
    }
}
