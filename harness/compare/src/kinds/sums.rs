//! Sums over the states of a design, over weights at the ends of their form: `sum` and `sum.lists`,
//! which the Rust's own partition functions are not held against. The judge has the exact sums.

use super::{Ask, Kind};
use crate::designs::{blocks, lines_of_port, marked, raw_lines, Ambient, Shape, SORTS};
use crate::judge::design::Lent;
use crate::judge::sums::{self, Lists, Weights};
use crate::judge::Verdict;
use crate::question::{Expected, Question};
use crate::random::Random;
use crate::sums::{Asked, Seen};
use protocol::joined;
use std::cell::Cell;
use std::rc::Rc;

/// Designs of each size in one round.
const SMALL: usize = 2780;
const MIDDLING: usize = 60;
const FULL: usize = 2;

pub struct Sums {
    designs: Cell<u64>,
    constrained: Cell<u64>,
    seen: Rc<Seen>,
}

impl Default for Sums {
    fn default() -> Self {
        Sums {
            designs: Cell::default(),
            constrained: Cell::default(),
            seen: Seen::of("sums", 15),
        }
    }
}

/// What exponents are drawn from. Where they lie far apart, an exact sum is as long as the states are
/// many, so that of many positions they are near one another or of few values.
#[derive(Clone, Copy)]
enum Powers {
    /// Of the whole range.
    Any,
    /// At its two ends.
    Ends,
    /// So many from one of its ends, or of weights near 1.
    Near(i32),
}

impl Powers {
    fn of(random: &mut Random, shape: &Shape) -> Self {
        let near = Powers::Near(random.pick(&[-400_000, -30, -30, 399_960]));
        match shape.positions {
            0..=4 => random.pick(&[Powers::Any, Powers::Ends, Powers::Ends, near]),
            5..=24 => random.pick(&[Powers::Ends, near]),
            _ if shape.cells <= 64 => near,
            _ => Powers::Near(-30),
        }
    }

    fn one(self, random: &mut Random) -> i32 {
        match self {
            Powers::Any => random.below(800_001) as i32 - 400_000,
            Powers::Ends => random.pick(&[-400_000, 400_000]),
            Powers::Near(low) => low + random.below(41) as i32,
        }
    }
}

fn digits(random: &mut Random) -> u32 {
    let any = (1 << 30) + random.below(1 << 30) as u32;
    random.pick(&[1 << 30, (1 << 30) + 1, (1 << 31) - 1, any, any, any])
}

/// Of a number of cells. What no state uses holds anything.
fn cells(random: &mut Random, powers: Powers, used: &[bool]) -> (Vec<u32>, Vec<i32>) {
    let one = |used: &bool| match used {
        true => (digits(random), powers.one(random)),
        false => (random.bits() as u32, random.bits() as i32),
    };
    used.iter().map(one).unzip()
}

fn weights(random: &mut Random, powers: Powers, lent: &Lent) -> Weights {
    let (positions, strands) = (lent.positions(), lent.strands());
    let mut places = vec![false; positions * strands];
    let mut pairs = vec![false; strands * strands];
    let friends: Vec<Vec<u8>> = (0..positions).map(|i| lent.friends(i)).collect();
    for (position, here) in friends.iter().enumerate() {
        for x in here {
            places[position * strands + usize::from(*x)] = true;
            for y in friends.get(position + 1).into_iter().flatten() {
                pairs[usize::from(*x) * strands + usize::from(*y)] = true;
            }
        }
    }
    let (place_digits, place_powers) = cells(random, powers, &places);
    let (pair_digits, pair_powers) = cells(random, powers, &pairs);
    Weights {
        place_digits,
        place_powers,
        pair_digits,
        pair_powers,
    }
}

/// One cell out of its form, or just in.
fn spoil(random: &mut Random, weights: &mut Weights) {
    let pair = random.once_in(2);
    let (digits, powers) = match pair {
        true => (&mut weights.pair_digits, &mut weights.pair_powers),
        false => (&mut weights.place_digits, &mut weights.place_powers),
    };
    if digits.is_empty() {
        return;
    }
    let cell = random.below(digits.len());
    if random.once_in(2) {
        digits[cell] = random.pick(&[0, (1 << 30) - 1, 1 << 31, u32::MAX]);
    } else {
        powers[cell] = random.pick(&[-400_001, 400_001, i32::MIN, i32::MAX]);
    }
}

/// Empty lists, some of the options, some of them twice, strangers among them or alone; strewn over
/// the numbers, and now and then one list for two positions.
pub fn lists(random: &mut Random, lent: &Lent) -> Lists {
    let mut lists = Lists::default();
    for position in 0..lent.positions() {
        let mut options = lent.friends(position);
        options.push(0);
        let mut list = vec![];
        match random.below(24) {
            0 => list.extend([random.pick(&[63, 64, 255]), 200]),
            1..=7 => {}
            _ => {
                for _ in 0..random.within(1..=2 * options.len()) {
                    list.push(random.pick(&options));
                }
                if random.once_in(3) {
                    list.insert(0, random.bits() as u8);
                }
            }
        }
        if random.once_in(4) {
            lists.numbers.push(random.bits() as u8);
        }
        match lists.starts.last().copied() {
            Some(before) if random.once_in(16) => {
                lists.starts.push(before);
                lists.lengths.push(lists.lengths[position - 1]);
            }
            _ => {
                lists.starts.push(lists.numbers.len());
                lists.lengths.push(list.len());
                lists.numbers.extend(list);
            }
        }
    }
    lists
}

fn weights_lines(weights: &Weights) -> String {
    let of =
        |digits: &[u32], powers: &[i32]| format!("{} {}", joined(digits, ","), joined(powers, ","));
    let place = of(&weights.place_digits, &weights.place_powers);
    let pair = of(&weights.pair_digits, &weights.pair_powers);
    format!("w.place {place}\nw.pair {pair}\n")
}

/// The line of a word and the three lists that a constraint is lent as.
pub fn lists_line(word: &str, lists: &Lists) -> String {
    let [starts, lengths] = [&lists.starts, &lists.lengths].map(|list| joined(list, ","));
    let numbers = joined(&lists.numbers, ",");
    format!("{word} {numbers} {starts} {lengths}")
}

impl Sums {
    /// The free sum where there are no lists.
    fn question(
        &self,
        setters: String,
        lent: &Lent,
        weights: &Weights,
        lists: Option<&Lists>,
    ) -> Question {
        let line = lists.map_or("sum".to_string(), |lists| lists_line("sum.lists", lists));
        let expected = match sums::verdict(lent, weights, lists) {
            Verdict::Admitted => {
                let exact = sums::sum(lent, weights, lists);
                Expected::Sum(Rc::new(Asked::sum(exact, &self.seen)))
            }
            refused => Expected::Judged(refused),
        };
        Question {
            port: format!("{setters}{line}"),
            oracle: None,
            expected,
            about: None,
        }
    }

    fn about(&self, random: &mut Random, shape: &Shape, with_lists: bool, ask: &mut Ask) {
        let ambient = Ambient::any(random);
        let sort = random.pick(&SORTS);
        let marks = match random.once_in(4) {
            true => blocks(random, shape.positions),
            false => vec![0; shape.positions],
        };
        let lent = marked(random, sort, shape, ambient, marks);
        let powers = Powers::of(random, shape);
        let mut weights = weights(random, powers, &lent);
        if random.once_in(10) {
            spoil(random, &mut weights);
        }
        let lists = with_lists.then(|| lists(random, &lent));
        let lines = lines_of_port(&lent, shape.glues);
        self.over(&lent, lines, &weights, lists.as_ref(), ask);
    }

    /// Of a design that these lines send.
    fn over(
        &self,
        lent: &Lent,
        lines: String,
        weights: &Weights,
        lists: Option<&Lists>,
        ask: &mut Ask,
    ) {
        self.designs.set(self.designs.get() + 1);
        let constrained = self.constrained.get() + u64::from(lists.is_some());
        self.constrained.set(constrained);
        let setters = lines + &weights_lines(weights);
        ask(self.question(setters, lent, weights, lists));
    }

    /// Both sums of a design whose sizes are in order, over weights that are in form and over others.
    pub(super) fn all_of(&self, random: &mut Random, lent: &Lent, ask: &mut Ask) {
        let mut weights = weights(random, Powers::Near(-30), lent);
        let lists = lists(random, lent);
        for _ in 0..2 {
            for lists in [None, Some(&lists)] {
                self.over(lent, raw_lines(lent), &weights, lists, ask);
            }
            weights.place_powers.fill(i32::MAX);
        }
    }

    /// A small design with every fault by itself, and each two of them.
    fn faults(&self, ask: &mut Ask) {
        let random = &mut Random::new(19);
        type Change = fn(&mut Lent, &mut Weights, &mut Lists);
        let changes: [Change; 22] = [
            |_, _, _| {},
            |lent, _, _| lent.dg[65] = f64::NAN,
            |lent, _, _| lent.ds[4095] = 9.0,
            |lent, _, _| lent.glues[1] = 1,
            |lent, _, _| lent.rt = 9.0,
            |lent, _, _| lent.potentials[1] = f64::INFINITY,
            |lent, weights, lists| {
                lent.open(vec![]);
                (weights.place_digits, weights.place_powers) = (vec![], vec![]);
                (lists.starts, lists.lengths) = (vec![], vec![]);
            },
            |_, weights, _| weights.place_digits[1] = 0,
            |_, weights, _| weights.place_powers[1] = 400_001,
            |_, weights, _| weights.pair_digits[5] = u32::MAX,
            |_, weights, _| weights.pair_powers[5] = -400_001,
            |_, weights, _| weights.pair_digits[7] = 0,
            |_, weights, _| weights.place_digits.push(1 << 30),
            |_, weights, _| weights.place_powers.truncate(1),
            |_, weights, _| weights.pair_digits.push(1 << 30),
            |_, weights, _| weights.pair_powers.truncate(8),
            |_, _, lists| lists.starts.push(0),
            |_, _, lists| lists.lengths.push(0),
            |_, _, lists| lists.starts.truncate(1),
            |_, _, lists| lists.starts[0] = 4,
            |_, _, lists| lists.lengths[0] = usize::MAX,
            |_, _, lists| (lists.starts[0], lists.lengths[0]) = (usize::MAX, 2),
        ];
        for first in 0..changes.len() {
            for second in first..changes.len() {
                let mut lent = self.two_friends(random);
                let mut weights = weights(random, Powers::Ends, &lent);
                let mut lists = Lists {
                    numbers: vec![1, 0, 2],
                    starts: vec![0, 1],
                    lengths: vec![1, 2],
                };
                if ![first, second].contains(&6) {
                    changes[first](&mut lent, &mut weights, &mut lists);
                    changes[second](&mut lent, &mut weights, &mut lists);
                } else if first < 6 && first != 5 {
                    changes[first](&mut lent, &mut weights, &mut lists);
                    changes[6](&mut lent, &mut weights, &mut lists);
                } else {
                    changes[6](&mut lent, &mut weights, &mut lists);
                }
                let setters = raw_lines(&lent) + &weights_lines(&weights);
                ask(self.question(setters.clone(), &lent, &weights, None));
                ask(self.question(setters, &lent, &weights, Some(&lists)));
            }
        }
    }

    /// Two positions with a friend each.
    fn two_friends(&self, random: &mut Random) -> Lent {
        let ambient = Ambient::any(random);
        let mut lent = Lent {
            scaffold: vec![1, 2],
            marks: vec![0; 2],
            glues: vec![0, 0, 0, 0, 1, 0, 0, 2, 0],
            dg: vec![0.0; 4096],
            ds: vec![0.0; 4096],
            potentials: vec![0.0, -1.0, -1.0],
            rt: ambient.rt,
            strand_excess: ambient.strand_excess,
            scaffold_excess: ambient.scaffold_excess,
            ..Lent::default()
        };
        (lent.dg[65], lent.dg[130]) = (-0.5, -2.0);
        lent
    }
}

impl Kind for Sums {
    fn name(&self) -> &'static str {
        "sum"
    }

    fn replies(&self) -> &'static [u32] {
        &[0, 1, 9, 10, 16, 17, 18, 19]
    }

    fn fixed(&self, ask: &mut Ask) {
        self.faults(ask);
        let random = &mut Random::new(23);
        for positions in 1..=128 {
            let shape = Shape {
                positions,
                strands: 4,
                glues: 4,
                cells: 3,
            };
            self.about(random, &shape, positions % 2 == 0, ask);
        }
    }

    fn random(&self, random: &mut Random, ask: &mut Ask) {
        for number in 0..SMALL + MIDDLING + FULL {
            let mut shape = match number {
                ..SMALL => Shape::small(random),
                number if number < SMALL + MIDDLING => Shape::middling(random),
                _ => Shape::full(random),
            };
            if !random.once_in(100) {
                shape.positions = shape.positions.max(1);
            }
            self.about(random, &shape, number % 2 == 0, ask);
        }
    }

    fn made(&self) -> Vec<(&'static str, u64)> {
        vec![
            ("designs", self.designs.get()),
            ("with constraints", self.constrained.get()),
            ("sums of no state", self.seen.zeros()),
        ]
    }

    fn watched(&self) -> Option<Result<String, String>> {
        Some(self.seen.said())
    }
}
