//! Calls on designs that are lent slices of any length and content, for the refusals that a
//! well-formed design cannot reach, and for ambients that no temperature gives. The port alone is
//! asked; the judge has refusals and figures.

pub(super) mod damage;
mod faults;
mod fixed;

use super::design::WALKED;
use super::{Ask, Kind};
use crate::designs::{blocks, marked, raw_lines, Ambient, Shape, SORTS};
use crate::judge::design::{Lent, FRIENDS_LENT};
use crate::judge::search::Reading;
use crate::judge::Verdict;
use crate::question::Question;
use crate::random::Random;
pub(super) use fixed::base;
use protocol::{bits, joined};
use std::rc::Rc;

pub struct RawDesigns;

/// Designs in one round; each is asked for every call.
const IN_A_ROUND: usize = 400;

/// What the port fills a lent slice with before a call.
const KEPT: u8 = 0xa5;

impl Kind for RawDesigns {
    fn name(&self) -> &'static str {
        "raw"
    }

    fn replies(&self) -> &'static [u32] {
        &[0, 1, 9, 10, 11, 12, 13, 16, 17]
    }

    fn fixed(&self, ask: &mut Ask) {
        fixed::every_size(ask);
        fixed::every_number(ask);
        fixed::every_cell(ask);
        fixed::every_null(ask);
        fixed::every_argument(ask);
        fixed::counts(ask);
        faults::two_at_once(ask);
    }

    fn random(&self, random: &mut Random, ask: &mut Ask) {
        for _ in 0..IN_A_ROUND {
            let shape = match random.once_in(10) {
                true => Shape::middling(random),
                false => Shape::small(random),
            };
            let ambient = Ambient::any(random);
            let sort = random.pick(&SORTS);
            let marks = match random.once_in(2) {
                true => blocks(random, shape.positions),
                false => vec![0; shape.positions],
            };
            let mut lent = marked(random, sort, &shape, ambient, marks);
            for _ in 0..random.below(4) {
                damage::of_a_design(random, &mut lent);
            }
            let mut arguments = Arguments::usual(&lent);
            for _ in 0..random.below(3) {
                damage::of_arguments(random, &lent, &mut arguments);
            }
            ask_every_call(&lent, &arguments, ask);
        }
    }
}

/// What is asked of a design: one call's arguments after the other's.
#[derive(Clone)]
pub(super) struct Arguments {
    /// Of the strand bond, then position and strand of the scaffold bond.
    pair: (usize, usize),
    site: (usize, usize),
    /// Position and lent entries of the friends, rank and lent entries of the state.
    friends: (usize, usize),
    pub state: (u64, usize),
    /// Of both energies.
    pub configuration: Vec<u8>,
}

impl Arguments {
    /// Refused only where the design is, or has no position. Places are occupied where they can
    /// be, so that every energy has terms.
    pub fn usual(lent: &Lent) -> Self {
        let last = lent.strands().saturating_sub(1);
        let mut configuration = vec![0; lent.positions()];
        if lent.energy_verdict(&configuration) == Verdict::Admitted {
            for (position, place) in configuration.iter_mut().enumerate() {
                *place = lent.friends(position).first().copied().unwrap_or(0);
            }
        }
        Arguments {
            pair: (last.min(1), last.min(2)),
            site: (0, last.min(1)),
            friends: (0, FRIENDS_LENT),
            state: (0, lent.positions()),
            configuration,
        }
    }
}

/// The slices go with the first question and hold for the rest.
pub(super) fn ask_every_call(lent: &Lent, arguments: &Arguments, ask: &mut Ask) {
    let lines: Rc<str> = raw_lines(lent).into();
    let questions = bonds(lent, arguments)
        .into_iter()
        .chain(friends_and_states(lent, arguments))
        .chain(energies(lent, arguments))
        .chain(search(lent, arguments));
    for (index, mut question) in questions.enumerate() {
        match index {
            0 => question.port = format!("{lines}{}", question.port),
            _ => question.about = Some(lines.clone()),
        }
        ask(question);
    }
}

fn bonds(lent: &Lent, arguments: &Arguments) -> [Question; 2] {
    let (x, y) = arguments.pair;
    let (position, strand) = arguments.site;
    let of_strands = format!("sbond {x} {y}");
    let of_scaffold = format!("cbond {position} {strand}");
    [
        Question::of_port(of_strands, lent.strand_bond_verdict(x, y), || {
            bits(lent.strand_bond(x, y))
        }),
        Question::of_port(
            of_scaffold,
            lent.scaffold_bond_verdict(position, strand),
            || bits(lent.scaffold_bond(position, strand)),
        ),
    ]
}

fn friends_and_states(lent: &Lent, arguments: &Arguments) -> [Question; 3] {
    let (position, for_friends) = arguments.friends;
    let (rank, for_state) = arguments.state;
    let friends = format!("raw.friends {position} {for_friends}");
    let count = "nstates".to_string();
    let state = format!("raw.state {rank} {for_state}");
    [
        Question::of_port(friends, lent.friends_verdict(position, for_friends), || {
            let mut friends = lent.friends(position);
            let count = friends.len();
            friends.resize(for_friends, KEPT);
            format!("{count} {}", joined(friends, ","))
        }),
        Question::of_port(count, lent.count_verdict(), || lent.count().to_string()),
        Question::of_port(state, lent.state_verdict(rank, for_state), || {
            joined(lent.state(rank), ",")
        }),
    ]
}

fn energies(lent: &Lent, arguments: &Arguments) -> [Question; 2] {
    let configuration = &arguments.configuration;
    let word = joined(configuration, ",");
    let verdict = lent.energy_verdict(configuration);
    [
        Question::of_port(format!("gsys {word}"), verdict, || {
            bits(lent.state_energy(configuration))
        }),
        Question::of_port(format!("raw.chain {word}"), verdict, || {
            let sum = lent.chain_energy(configuration);
            format!("{} {}", bits(sum), bits(sum * lent.rt))
        }),
    ]
}

/// Energy and configuration, or the refusal; beside a short listing the walk's energy too.
fn search(lent: &Lent, arguments: &Arguments) -> Vec<Question> {
    let entries = arguments.state.1;
    let verdict = lent.search_verdict(entries);
    let line = format!("raw.mfe {entries}");
    let mut questions = vec![Question::of_port(line, verdict, || {
        let (energy, configuration) = lent.search(Reading::Document);
        format!("{} {}", bits(energy), joined(configuration, ","))
    })];
    if verdict == Verdict::Admitted && lent.count() <= WALKED {
        let least = || bits(lent.walk() + 0.0);
        questions.push(Question::of_port("mfe.level".to_string(), verdict, least));
    }
    questions
}
