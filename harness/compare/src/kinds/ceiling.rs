//! `under LENT CEILING`: the first state under a ceiling, which the Rust lacks. Ceilings are the state
//! energies of the design itself, their neighbours, and any number.

use super::raw::damage;
use super::{Ask, Kind};
use crate::designs::{blocks, marked, raw_lines, Ambient, Shape, SORTS};
use crate::doubles::{around, not_finite, of_any_size};
use crate::judge::design::{Lent, CELLS, MOST_STATES};
use crate::judge::Verdict;
use crate::question::Question;
use crate::random::Random;
use protocol::{bits, joined};
use std::rc::Rc;

pub struct Ceilings;

/// Designs in one round, and ceilings for each.
const IN_A_ROUND: usize = 200;
const CEILINGS: usize = 8;

/// The judge goes through so many states.
const LISTED: u128 = 2_000;

impl Kind for Ceilings {
    fn name(&self) -> &'static str {
        "ceiling"
    }

    fn replies(&self) -> &'static [u32] {
        &[0, 1, 9, 10, 12, 16, 17, 23]
    }

    /// The worked ceilings of two positions and of none, and a listing at the limit and beyond it.
    fn fixed(&self, ask: &mut Ask) {
        let finite = [-1.5, -1.6, 0.0, -0.0, -1.0, f64::MAX, f64::MIN];
        let ceilings: Vec<f64> = finite.into_iter().chain(not_finite()).collect();
        for positions in 0..=2 {
            let lent = worked(&[1, 2][..positions]);
            for lent_entries in [positions, positions + 1] {
                ask_under(&lent, &ceilings, lent_entries, ask);
            }
        }
        let many = worked(&[1; 21]);
        ask_under(&many, &ceilings, 21, ask);
        let mut unfit = worked(&[1, 2]);
        unfit.ds[4095] = 9.0;
        ask_under(&unfit, &ceilings, 2, ask);
        unfit.ds[4095] = 0.0;
        unfit.rt = 9.0;
        ask_under(&unfit, &ceilings, 2, ask);
    }

    fn random(&self, random: &mut Random, ask: &mut Ask) {
        for _ in 0..IN_A_ROUND {
            let shape = match random.once_in(10) {
                true => Shape::middling(random),
                false => Shape::small(random),
            };
            let marks = match random.once_in(2) {
                true => blocks(random, shape.positions),
                false => vec![0; shape.positions],
            };
            let (sort, ambient) = (random.pick(&SORTS), Ambient::any(random));
            let mut lent = marked(random, sort, &shape, ambient, marks);
            let count = lent.count();
            if (LISTED + 1..=MOST_STATES).contains(&count) {
                continue;
            }
            let ceilings: Vec<f64> = (0..CEILINGS)
                .map(|_| ceiling(random, &lent, count))
                .collect();
            if random.once_in(4) {
                damage::of_a_design(random, &mut lent);
            }
            let entries = match random.once_in(20) {
                true => random.below(6),
                false => lent.positions(),
            };
            ask_under(&lent, &ceilings, entries, ask);
        }
    }
}

/// The bench table's strands 1 and 2 on these positions, RT 0.5.
pub(super) fn worked(scaffold: &[u8]) -> Lent {
    let mut lent = Lent {
        scaffold: scaffold.to_vec(),
        marks: vec![0; scaffold.len()],
        glues: vec![0, 0, 0, 0, 1, 0, 0, 2, 0],
        dg: vec![0.0; CELLS],
        ds: vec![0.0; CELLS],
        potentials: vec![0.0, -1.0, -1.0],
        rt: 0.5,
        ..Lent::default()
    };
    (lent.dg[65], lent.dg[130]) = (-0.5, -2.0);
    lent
}

/// Most often the energy of a state, or a neighbour of it.
fn ceiling(random: &mut Random, lent: &Lent, count: u128) -> f64 {
    match random.below(8) {
        0 => of_any_size(random),
        1 => random.pick(&not_finite()),
        _ if count > MOST_STATES => random.double(-1e4, 1e4),
        _ => {
            let state = lent.state(random.below(count as usize) as u64);
            random.pick(&around(lent.state_energy(&state)))
        }
    }
}

/// The slices go with the first question and hold for the rest.
pub(super) fn ask_under(lent: &Lent, ceilings: &[f64], entries: usize, ask: &mut Ask) {
    let lines: Rc<str> = raw_lines(lent).into();
    for (index, ceiling) in ceilings.iter().enumerate() {
        let line = format!("under {entries} {}", bits(*ceiling));
        let verdict: Verdict = lent.ceiling_verdict(*ceiling, entries);
        let mut question = Question::of_port(line, verdict, || {
            let state = lent.first_under(*ceiling).expect("else 23");
            let energy = bits(lent.state_energy(&state));
            format!("{energy} {}", joined(state, ","))
        });
        match index {
            0 => question.port = format!("{lines}{}", question.port),
            _ => question.about = Some(lines.clone()),
        }
        ask(question);
    }
}
