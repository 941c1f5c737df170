//! Calls that take a design.

use crate::guarded::{Figure, Guarded};
use crate::{near, sheets, sums, Tally};
use compare::designs::{blocks, marked, Ambient, Shape, SORTS};
use compare::doubles::not_finite;
use compare::judge::design::{Lent, CONCENTRATIONS, POTENTIALS};
use compare::judge::logarithm::is_dilute;
use compare::logarithms::{in_range, out_of_range};
use compare::random::Random;
use mujplesten as mj;

/// Designs to draw from. Each slice has one entry more than the design.
const DESIGNS: usize = 200;

/// More positions than a middling design has.
const LONG: usize = 24;

pub struct Designs(Vec<Lent>);

/// The lengths of scaffold, glues, both tables, amounts and marks.
type Lengths = [usize; 6];

fn lent(lent: &Lent, lengths: Lengths, given: u32) -> mj::Design<'_> {
    mj::Design {
        scaffold: &lent.scaffold[..lengths[0]],
        marks: &lent.marks[..lengths[5]],
        glues: &lent.glues[..lengths[1]],
        dg: &lent.dg[..lengths[2]],
        ds: &lent.ds[..lengths[3]],
        amounts: &lent.amounts()[..lengths[4]],
        given,
        rt: lent.rt,
        strand_excess: lent.strand_excess,
        scaffold_excess: lent.scaffold_excess,
    }
}

impl Designs {
    pub fn new(random: &mut Random) -> Self {
        let mut designs = vec![];
        for number in 0..DESIGNS {
            let shape = match number % 20 {
                0 => Shape::full(random),
                1 | 2 => Shape::middling(random),
                _ => Shape::small(random),
            };
            let ambient = Ambient::any(random);
            let sort = random.pick(&SORTS);
            let marks = match random.once_in(3) {
                true => blocks(random, shape.positions),
                false => vec![0; shape.positions],
            };
            let mut one = marked(random, sort, &shape, ambient, marks);
            spoil(random, &mut one);
            if random.once_in(3) {
                give_concentrations(random, &mut one);
            }
            one.scaffold.push(0);
            one.marks.push(0);
            one.glues.push(0);
            one.dg.push(0.0);
            one.ds.push(0.0);
            one.potentials.push(0.0);
            one.concentrations.push(1.0);
            designs.push(one);
        }
        Designs(designs)
    }

    pub fn call(&self, random: &mut Random, tally: &mut Tally) {
        let whole = &self.0[random.below(DESIGNS)];
        let wanted = [
            whole.scaffold.len() - 1,
            whole.glues.len() - 1,
            whole.dg.len() - 1,
            whole.ds.len() - 1,
            whole.amounts().len() - 1,
            whole.marks.len() - 1,
        ];
        let mut lengths = wanted;
        if random.once_in(4) {
            let which = random.below(6);
            lengths[which] = near(random, wanted[which]);
        }
        let given = match random.once_in(20) {
            true => random.pick(&[0, 1, 2, 257, u32::MAX]),
            false => whole.given,
        };
        let asked = Asked {
            design: lent(whole, lengths, given),
            positions: wanted[0],
            strands: wanted[4],
        };
        match random.once_in(3) {
            true => asked.call_over(random, tally),
            false => asked.call(random, tally),
        }
    }
}

/// Two designs in five have a fault.
fn spoil(random: &mut Random, one: &mut Lent) {
    match random.below(20) {
        0 => one.dg[random.below(4096)] = random.pick(&not_finite()),
        1 => one.rt = 9.0,
        2 => one.glues[0] = 1,
        3 => one.ds[64 * random.below(64)] = 1.0,
        4 => one.ds[random.below(4096)] = -9.0,
        5 => one.strand_excess = random.pick(&not_finite()),
        6 => one.scaffold_excess = 1025.0,
        7 => one.potentials[1..].fill(random.pick(&not_finite())),
        8 => one.marks.fill(2),
        _ => {}
    }
}

/// In one of eight some are out of range.
fn give_concentrations(random: &mut Random, one: &mut Lent) {
    let some_out = random.once_in(8);
    let concentration = |_| match some_out && random.once_in(4) {
        true => random.pick(&out_of_range()),
        false => in_range(random),
    };
    one.concentrations = (0..one.potentials.len()).map(concentration).collect();
    one.given = CONCENTRATIONS;
}

fn out(x: f64, low: f64, high: f64) -> bool {
    !(low..=high).contains(&x)
}

/// The place of the first that is at fault.
fn first(mut faults: impl Iterator<Item = bool>) -> Option<u64> {
    faults.position(|fault| fault).map(|place| place as u64)
}

pub struct Asked<'a> {
    pub design: mj::Design<'a>,
    pub positions: usize,
    pub strands: usize,
}

impl Asked<'_> {
    /// The place of a number that has one is the first that is out: a cell, a number of the ambient.
    /// Of the potentials it is one that is out, and not strand 0's; of concentrations there is none.
    pub fn is_placed(&self, place: &Figure<u64>, number: u32) -> bool {
        let (design, told) = (self.design, place.told());
        let fits = match number {
            9 => self.bad_cell() == Some(told),
            16 => {
                let excesses = [design.strand_excess, design.scaffold_excess];
                let excesses = excesses.map(|x| out(x, -1024.0, 1024.0));
                first([out(design.rt, 0.125, 8.0)].into_iter().chain(excesses)) == Some(told)
            }
            15 => {
                let dilute = design.amounts.iter().any(|x| is_dilute(*x));
                told == mj::NOWHERE && design.given == CONCENTRATIONS && dilute
            }
            17 => {
                let potential = design.amounts.get(told as usize);
                let is_out = potential.is_some_and(|x| out(*x, -1024.0, 1024.0));
                told > 0 && design.given == POTENTIALS && is_out
            }
            _ => told == mj::NOWHERE,
        };
        place.is_place(number) && fits
    }

    /// The lowest cell that is out.
    pub fn bad_cell(&self) -> Option<u64> {
        let dg = self.design.dg.iter().map(|x| out(*x, -1024.0, 1024.0));
        first(dg.chain(self.design.ds.iter().map(|x| out(*x, -8.0, 8.0))))
    }

    fn call(&self, random: &mut Random, tally: &mut Tally) {
        let design = self.design;
        let (x, y) = (self.strand(random), self.strand(random));
        let position = near(random, self.positions.saturating_sub(1));
        match random.below(12) {
            0 => self.figure(tally, "strand_bond", Figure::double(), |place, bond| {
                mj::strand_bond(design, x, y, place, bond)
            }),
            1 => self.figure(tally, "scaffold_bond", Figure::double(), |place, bond| {
                mj::scaffold_bond(design, position, x, place, bond)
            }),
            2 => self.figure(tally, "states", Figure::whole(), |place, count| {
                mj::states(design, place, count)
            }),
            3 => self.friends(random, position, tally),
            4 => {
                let any = random.bits();
                let rank = random.pick(&[0, 1, any, u64::MAX]);
                let mut entries = Guarded::new(near(random, self.positions), 0xa5);
                let mut place = Figure::whole();
                let number = mj::state(design, rank, entries.lent(), place.lent());
                let fit = self.is_placed(&place, number) && entries.is_fit(number);
                tally.call("state", number, fit);
            }
            5 | 6 => self.energies(random, tally),
            7 => self.ring(random, tally),
            8 if random.once_in(2) => sums::call(self, random, tally),
            8 if random.once_in(2) => sums::call_of_energies(self, random, tally),
            8 => sums::call_of_occupants(self, random, tally),
            9 => self.first_under(random, tally),
            10 => sheets::call(self, random, tally),
            _ => self.found(random, tally, "search", mj::search),
        }
    }

    /// A call that answers one figure.
    fn figure<T: Copy + PartialEq + Default>(
        &self,
        tally: &mut Tally,
        function: &'static str,
        mut figure: Figure<T>,
        ask: impl FnOnce(&mut u64, &mut T) -> u32,
    ) {
        let mut place = Figure::whole();
        let number = ask(place.lent(), figure.lent());
        let fit = self.is_placed(&place, number) && figure.is_fit(number);
        tally.call(function, number, fit);
    }

    /// A call that writes a state and answers its energy.
    fn found(
        &self,
        random: &mut Random,
        tally: &mut Tally,
        function: &'static str,
        ask: impl FnOnce(mj::Design, &mut [u8], &mut u64, &mut f64) -> u32,
    ) {
        let mut entries = Guarded::new(near(random, self.positions), 0xa5);
        let (mut place, mut energy) = (Figure::whole(), Figure::double());
        let number = ask(self.design, entries.lent(), place.lent(), energy.lent());
        let written = entries.is_fit(number) && energy.is_fit(number);
        tally.call(function, number, self.is_placed(&place, number) && written);
    }

    fn strand(&self, random: &mut Random) -> u8 {
        let any = random.below(self.strands + 1) as u8;
        random.pick(&[0, 1, self.strands as u8, any, 255])
    }

    fn first_under(&self, random: &mut Random, tally: &mut Tally) {
        let any = f64::from_bits(random.bits());
        let any = if any.is_finite() { any } else { 0.0 };
        let ceiling = random.pick(&[-1.0, 0.0, 1e300, any]);
        let under = |design: mj::Design, entries: &mut [u8], place: &mut u64, energy: &mut f64| {
            mj::first_state_under(design, ceiling, entries, place, energy)
        };
        self.found(random, tally, "first_state_under", under);
    }

    fn friends(&self, random: &mut Random, position: usize, tally: &mut Tally) {
        let mut entries = Guarded::new(near(random, 64), 0xa5);
        let [mut place, mut count] = [Figure::whole(), Figure::whole()];
        let slice = entries.lent();
        let number = mj::friends(self.design, position, slice, place.lent(), count.lent());
        let counted = count.is_fit(number) && count.told() <= 64;
        let fit = self.is_placed(&place, number) && counted && entries.is_fit(number);
        tally.call("friends", number, fit);
    }

    fn energies(&self, random: &mut Random, tally: &mut Tally) {
        let length = near(random, self.positions);
        let empty = random.once_in(2);
        let place = |random: &mut Random| match empty {
            true => 0,
            false => random.below(self.strands + 1) as u8,
        };
        let configuration: Vec<u8> = (0..length).map(|_| place(random)).collect();
        let (design, configuration) = (self.design, &configuration);
        self.figure(tally, "state_energy", Figure::double(), |place, energy| {
            mj::state_energy(design, configuration, place, energy)
        });
        let [mut sum, mut energy] = [Figure::double(), Figure::double()];
        let mut place = Figure::whole();
        let (at, told) = (place.lent(), energy.lent());
        let number = mj::chain_energy(design, configuration, at, sum.lent(), told);
        let fit = self.is_placed(&place, number) && sum.is_fit(number) && energy.is_fit(number);
        tally.call("chain_energy", number, fit);
        self.figure(tally, "ring_energy", Figure::double(), |place, energy| {
            mj::ring_energy(design, configuration, place, energy)
        });
    }

    /// Large ones now and then: their search is many of the chain's.
    fn ring(&self, random: &mut Random, tally: &mut Tally) {
        if self.positions > LONG && !random.once_in(20) {
            return;
        }
        self.found(random, tally, "ring_search", mj::ring_search);
    }
}
