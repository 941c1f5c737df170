//! Ring scaffolds, which the Rust lacks: the port alone is asked, and held against the judge. Beside a
//! listing of up to 2,000 states the least of all of them is compared too.

use super::design::WALKED;
use super::{Ask, Kind};
use crate::ambients::ROUND_RTS;
use crate::designs::{blocks, marked, raw_lines, Ambient, Shape, Sort, SORTS};
use crate::doubles::not_finite;
use crate::judge::design::{Lent, CELLS};
use crate::judge::ring::RingReading;
use crate::judge::search::Reading;
use crate::judge::Verdict;
use crate::question::Question;
use crate::random::Random;
use protocol::{bits, joined};
use std::cell::Cell;
use std::rc::Rc;

#[derive(Default)]
pub struct Rings {
    rings: Cell<u64>,
    /// Those that settle otherwise than the chain.
    moved: Cell<u64>,
    /// Those on which each wrong reading ends elsewhere.
    parted: [Cell<u64>; 3],
}

/// Designs of each size in one round.
const SMALL: usize = 2900;
const MIDDLING: usize = 60;
const FULL: usize = 2;

/// One small design in so many has fewer than 3 positions, and one has a fault.
const SHORT: usize = 25;
const FAULTY: usize = 25;

const WRONG: [(&str, RingReading); 3] = [
    (
        "where empty first would end elsewhere",
        RingReading::EmptyFirst,
    ),
    (
        "where closing afterwards would",
        RingReading::ClosedAfterwards,
    ),
    ("where sums compared would", RingReading::SumsCompared),
];

impl Kind for Rings {
    fn name(&self) -> &'static str {
        "ring"
    }

    fn replies(&self) -> &'static [u32] {
        &[0, 1, 9, 10, 11, 16, 17, 20]
    }

    /// The worked cases, and each number of positions.
    fn fixed(&self, ask: &mut Ask) {
        let random = &mut Random::new(12);
        for lent in worked() {
            self.about(random, lent, ask);
        }
        for positions in 0..=128 {
            let shape = Shape {
                positions,
                strands: 4,
                glues: 4,
                cells: 4,
            };
            let lent = drawn(random, &shape);
            self.about(random, lent, ask);
        }
        short_and_unfit(ask);
    }

    fn random(&self, random: &mut Random, ask: &mut Ask) {
        for number in 0..SMALL + MIDDLING + FULL {
            let mut shape = match number {
                ..SMALL => Shape::small(random),
                number if number < SMALL + MIDDLING => Shape::middling(random),
                _ => Shape::full(random),
            };
            if number < SMALL && !random.once_in(SHORT) {
                shape.positions = random.within(3..=6);
            }
            let mut lent = drawn(random, &shape);
            if random.once_in(FAULTY) {
                spoil(random, &mut lent);
            }
            self.about(random, lent, ask);
        }
    }

    fn made(&self) -> Vec<(&'static str, u64)> {
        let wrong = WRONG.iter().map(|(name, _)| *name);
        let mut made = vec![
            ("rings", self.rings.get()),
            ("that settle otherwise than the chain", self.moved.get()),
        ];
        made.extend(wrong.zip(self.parted.iter().map(Cell::get)));
        made
    }
}

impl Rings {
    /// The slices go with the first question and hold for the rest.
    pub(super) fn about(&self, random: &mut Random, lent: Lent, ask: &mut Ask) {
        let lines: Rc<str> = raw_lines(&lent).into();
        let entries = match random.once_in(40) {
            true => lent.positions() + 1,
            false => lent.positions(),
        };
        let mut questions = self.searches(&lent, entries);
        for _ in 0..2 {
            let configuration = any_configuration(random, &lent);
            let verdict = lent.ring_energy_verdict(&configuration);
            let line = format!("ring {}", joined(&configuration, ","));
            let energy = || bits(lent.ring_energy(&configuration));
            questions.push(Question::of_port(line, verdict, energy));
        }
        for (index, mut question) in questions.into_iter().enumerate() {
            match index {
                0 => question.port = format!("{lines}{}", question.port),
                _ => question.about = Some(lines.clone()),
            }
            ask(question);
        }
    }

    fn searches(&self, lent: &Lent, entries: usize) -> Vec<Question> {
        let verdict = lent.ring_search_verdict(entries);
        let mut questions = vec![];
        let line = format!("ring.mfe {entries}");
        questions.push(Question::of_port(line, verdict, || {
            let (energy, configuration) = lent.ring_search(RingReading::Document);
            self.count(lent, energy, &configuration);
            format!("{} {}", bits(energy), joined(configuration, ","))
        }));
        if verdict == Verdict::Admitted && lent.count() <= WALKED {
            let least = || bits(lent.ring_walk() + 0.0);
            questions.push(Question::of_port("ring.level".to_string(), verdict, least));
        }
        questions
    }

    fn count(&self, lent: &Lent, energy: f64, configuration: &[u8]) {
        let add = |count: &Cell<u64>, one: bool| count.set(count.get() + u64::from(one));
        add(&self.rings, true);
        add(
            &self.moved,
            lent.search(Reading::Document).1 != configuration,
        );
        if lent.positions() > 24 {
            return;
        }
        for (count, (_, wrong)) in self.parted.iter().zip(WRONG) {
            let (other, place) = lent.ring_search(wrong);
            add(
                count,
                (other.to_bits(), &place[..]) != (energy.to_bits(), configuration),
            );
        }
    }
}

/// At an ambient that document 01 admits; quarters tie at round RTs alone. Some have blocked positions.
fn drawn(random: &mut Random, shape: &Shape) -> Lent {
    let sort = random.pick(&SORTS);
    let mut ambient = Ambient::any(random);
    if sort == Sort::Dyadic {
        ambient.rt = random.pick(&ROUND_RTS);
    }
    let marks = match random.once_in(4) {
        true => blocks(random, shape.positions),
        false => vec![0; shape.positions],
    };
    marked(random, sort, shape, ambient, marks)
}

/// Mostly a state, whose ends are mostly occupied; at times with any strand on a place, or with a
/// place more.
fn any_configuration(random: &mut Random, lent: &Lent) -> Vec<u8> {
    if lent.ring_search_verdict(lent.positions()).number() == 1 {
        return vec![0; lent.positions()];
    }
    let one = |position| {
        let mut options = lent.friends(position);
        if options.is_empty() || random.once_in(4) {
            options.push(0);
        }
        random.pick(&options)
    };
    let mut configuration: Vec<u8> = (0..lent.positions()).map(one).collect();
    match (random.below(20), configuration.last_mut()) {
        (0, Some(last)) => *last = random.below(lent.strands() + 1) as u8,
        (1, _) => configuration.push(0),
        _ => {}
    }
    configuration
}

fn spoil(random: &mut Random, lent: &mut Lent) {
    match random.below(6) {
        0 => lent.dg[random.below(CELLS)] = random.pick(&not_finite()),
        1 => lent.rt = random.pick(&[0.0, 9.0]),
        2 => lent.scaffold_excess = random.pick(&not_finite()),
        3 => lent.potentials.fill(random.pick(&not_finite())),
        4 => lent.glues[0] = 1,
        _ => lent.marks.push(0),
    }
}

/// Three positions of glues 1, 2, 3 with these dGs for strand 1, whose bottom glue is 4; its west and
/// east are glue 5, for which `pair` stands; RT 0.5.
fn one_strand(potential: f64, dg: [f64; 3], pair: f64) -> Lent {
    let mut lent = Lent {
        scaffold: vec![1, 2, 3],
        marks: vec![0; 3],
        glues: vec![0, 0, 0, 5, 4, 5],
        dg: vec![0.0; CELLS],
        ds: vec![0.0; CELLS],
        potentials: vec![f64::NAN, potential],
        rt: 0.5,
        ..Lent::default()
    };
    for (position, energy) in dg.into_iter().enumerate() {
        lent.dg[64 * (position + 1) + 4] = energy;
    }
    lent.dg[64 * 5 + 5] = pair;
    lent
}

/// Rings on which two readings of the document part.
fn worked() -> Vec<Lent> {
    let mut rounded = one_strand(0.0, [0.0; 3], 0.0);
    rounded.rt = 0.7;
    rounded.glues = vec![0, 0, 0, 0, 6, 0, 0, 6, 0];
    rounded.potentials = vec![0.0, -1.0, -0.9999999999999998];
    rounded.dg[64 + 6] = -2.0;
    let mut unlike = one_strand(0.0, [0.0; 3], 0.0);
    unlike.rt = 1.0;
    unlike.glues = vec![0, 0, 0, 13, 4, 10, 11, 5, 12, 14, 6, 15];
    unlike.potentials = vec![0.0; 4];
    for (row, column) in [(1, 4), (2, 5), (3, 6), (10, 11), (12, 14)] {
        unlike.dg[64 * row + column] = 0.1;
    }
    unlike.dg[64 * 15 + 13] = 0.3;
    vec![
        one_strand(-1.0, [-0.5, -1.0, -0.5], 0.0),
        one_strand(0.0, [0.25, -0.25, -0.5], -0.25),
        one_strand(-1.0, [-1.0, -0.75, -0.5], 0.5),
        one_strand(-1.0, [-0.75, -0.5, -1.0], 0.0),
        one_strand(0.0, [-0.25, 0.5, -0.25], 0.5),
        rounded,
        unlike,
    ]
}

/// Fewer than 3 positions beside each other fault: which is told.
fn short_and_unfit(ask: &mut Ask) {
    const FAULTS: [fn(&mut Lent); 8] = [
        |_| {},
        |lent| lent.dg[0] = f64::NAN,
        |lent| lent.dg[7] = 1.0,
        |lent| lent.rt = 0.0,
        |lent| lent.potentials[1] = f64::NAN,
        |lent| lent.marks.push(0),
        |lent| lent.scaffold.fill(64),
        |lent| lent.marks.fill(1),
    ];
    for positions in 0..=3 {
        for (index, first) in FAULTS.iter().enumerate() {
            for second in &FAULTS[..=index] {
                let mut lent = one_strand(-1.0, [-0.5, -1.0, -0.5], 0.25);
                lent.open((1..=positions).collect());
                first(&mut lent);
                second(&mut lent);
                let lines: Rc<str> = raw_lines(&lent).into();
                let entries = lent.positions();
                let line = format!("{lines}ring.mfe {entries}");
                let verdict = lent.ring_search_verdict(entries);
                ask(Question::of_port(line, verdict, || {
                    let (energy, configuration) = lent.ring_search(RingReading::Document);
                    format!("{} {}", bits(energy), joined(configuration, ","))
                }));
                for occupant in [0, 1, 2] {
                    let configuration = vec![occupant; entries];
                    let line = format!("ring {}", joined(&configuration, ","));
                    let verdict = lent.ring_energy_verdict(&configuration);
                    let energy = || bits(lent.ring_energy(&configuration));
                    let mut question = Question::of_port(line, verdict, energy);
                    question.about = Some(lines.clone());
                    ask(question);
                }
            }
        }
    }
}
