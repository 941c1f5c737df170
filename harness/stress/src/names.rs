//! Names, strand glues and `from_params`.

use crate::guarded::{Figure, Guarded};
use crate::{near, Tally};
use compare::judge::parameters::{Lent, CELLS};
use compare::parameters::{damage, parameters, Shape};
use compare::random::Random;
use mujplesten as mj;

/// Sets to draw from.
const SETS: usize = 400;

pub struct Sets(Vec<Lent>);

impl Sets {
    pub fn new(random: &mut Random) -> Self {
        let mut sets = vec![];
        for number in 0..SETS {
            let shape = match number % 20 {
                0 => Shape::full(random),
                1 | 2 => Shape::middling(random),
                _ => Shape::small(random),
            };
            let mut set = parameters(random, &shape, false);
            for _ in 0..random.below(2) {
                damage(random, &mut set);
            }
            sets.push(set.laid_out(random));
        }
        Sets(sets)
    }

    pub fn call(&self, random: &mut Random, tally: &mut Tally) {
        let set = &self.0[random.below(SETS)];
        match random.below(4) {
            0 => name(random, set, tally),
            1 => glues(random, set, tally),
            _ => params(random, set, tally),
        }
    }
}

/// Any number, often one about the text's end.
fn any_number(random: &mut Random, end: usize) -> usize {
    let near = random.below(70);
    random.pick(&[
        near,
        near,
        end,
        end + 1,
        end.saturating_sub(near),
        usize::MAX,
    ])
}

fn name(random: &mut Random, set: &Lent, tally: &mut Tally) {
    let text = &set.text[..];
    let (start, length) = (
        any_number(random, text.len()),
        any_number(random, text.len()),
    );
    let [mut from, mut size, mut is_base] = [Figure::whole(), Figure::whole(), Figure::whole()];
    let number = mj::name(
        text,
        start,
        length,
        from.lent(),
        size.lent(),
        is_base.lent(),
    );
    let fit = from.is_fit(number) && size.is_fit(number) && is_base.is_fit(number);
    tally.call("name", number, fit && is_base.told() <= 1);
}

/// The first so many entries; one more is a 0.
fn part<T: Clone + Default>(random: &mut Random, whole: &[T]) -> Vec<T> {
    let mut part = whole.to_vec();
    part.resize(near_mostly(random, whole.len()), T::default());
    part
}

/// As `near`, but most often the wanted one: a set has nine slices.
fn near_mostly(random: &mut Random, wanted: usize) -> usize {
    match random.once_in(24) {
        true => near(random, wanted),
        false => wanted,
    }
}

fn glues(random: &mut Random, set: &Lent, tally: &mut Tally) {
    let strands = part(random, &set.strands);
    let users = near_mostly(random, set.users);
    let mut glues = Guarded::new(near_mostly(random, 3 * set.users), 0xa5);
    let text = part(random, &set.text);
    let number = mj::strand_glues(&text, users, &strands, glues.lent());
    tally.call("strand_glues", number, glues.is_fit(number));
}

fn params(random: &mut Random, set: &Lent, tally: &mut Tally) {
    let text = part(random, &set.text);
    let [strands, scaffold, entries] =
        [&set.strands, &set.scaffold, &set.entries].map(|rows| part(random, rows));
    let energies = part(random, &set.energies);
    let lent = mj::Params {
        build: random.pick(&[0, 1, 1, 2, u32::MAX]),
        text: &text,
        users: near_mostly(random, set.users),
        strands: &strands,
        scaffold: &scaffold,
        entries: &entries,
        energies: &energies,
        penalty_dg: set.penalty_dg,
        penalty_ds: set.penalty_ds,
        quencher: near_mostly(random, set.quencher),
        reporter: near_mostly(random, set.reporter),
    };
    let mut strand_glues = Guarded::new(near_mostly(random, set.written[0]), 0xa5);
    let mut scaffold_glues = Guarded::new(near_mostly(random, set.written[1]), 0xa5);
    let mut dg = Guarded::new(near_mostly(random, CELLS), -1.25e-77);
    let mut ds = Guarded::new(near_mostly(random, CELLS), -1.25e-77);
    let into = mj::Built {
        strand_glues: strand_glues.lent(),
        scaffold_glues: scaffold_glues.lent(),
        dg: dg.lent(),
        ds: ds.lent(),
    };
    let number = mj::params(lent, into);
    let glues_fit = strand_glues.is_fit(number) && scaffold_glues.is_fit(number);
    let fit = glues_fit && dg.is_fit(number) && ds.is_fit(number);
    tally.call("params", number, fit);
}
