//! Questions about designs that both programs are given: friends, both bond tables, states and
//! their count, state energies, chain energies, and the search. A design is sent once, with
//! `d.build`; what is asked after it is about that design.

use super::{Ask, AskOracle, Kind};
use crate::ambients::{self, Ambients, ROUND_RTS};
use crate::designs::{design, lines_of_both, lines_of_port, Ambient, Shape, Sort, SORTS};
use crate::judge::design::{Lent, CELLS, MOST_STATES};
use crate::judge::Verdict;
use crate::parting::Parting;
use crate::question::{Expected, Question};
use crate::random::Random;
use protocol::{bits, joined};
use std::cell::RefCell;
use std::rc::Rc;

/// The ambients are the oracle's own, by temperature.
#[derive(Default)]
pub struct Designs {
    ambients: RefCell<Ambients>,
    parting: Parting,
}

/// Designs of each size in one round.
const SMALL: usize = 2500;
const MIDDLING: usize = 40;
const FULL: usize = 15;

/// A listing up to this long is asked for whole, with the state energy of each state.
const WHOLE_LISTING: u128 = 64;

/// The Rust lists all states for each question about states, so it is asked only up to here;
/// beyond, the judge's figures are held against the port's.
const LISTED_BY_THE_RUST: u128 = 4096;

/// A listing up to this long is walked through beside the search.
pub const WALKED: u128 = 2000;

impl Kind for Designs {
    fn name(&self) -> &'static str {
        "design"
    }

    fn replies(&self) -> &'static [u32] {
        &[0, 12]
    }

    fn prepare(&self, oracle: &mut AskOracle) -> Result<(), String> {
        *self.ambients.borrow_mut() = ambients::ask(oracle)?;
        Ok(())
    }

    /// One design of each number of positions, and of strands.
    fn fixed(&self, ask: &mut Ask) {
        let random = &mut Random::new(1);
        let mut put = |positions, strands, glues, cells| {
            let shape = Shape {
                positions,
                strands,
                glues,
                cells,
            };
            let sort = random.pick(&SORTS);
            self.about(random, sort, &shape, ask);
        };
        for positions in 0..=128 {
            put(positions, 4, 4, 2);
        }
        for strands in 1..=64 {
            put(2, strands, 12, 20);
        }
        self.zeros_of_two_signs(random, ask);
    }

    fn random(&self, random: &mut Random, ask: &mut Ask) {
        for number in 0..SMALL + MIDDLING + FULL {
            let shape = match number {
                ..SMALL => Shape::small(random),
                number if number < SMALL + MIDDLING => Shape::middling(random),
                _ => Shape::full(random),
            };
            let sort = random.pick(&SORTS);
            self.about(random, sort, &shape, ask);
        }
    }

    fn watch(&self, line: &str, port: &str) {
        self.parting.see(line, port);
    }

    fn watched(&self) -> Option<Result<String, String>> {
        Some(self.parting.said())
    }
}

impl Designs {
    /// Dyadic designs tie at round RTs alone.
    fn ambient(&self, random: &mut Random, sort: Sort) -> (f64, Ambient) {
        let mut ambients = self.ambients.borrow().clone();
        if sort == Sort::Dyadic {
            ambients.retain(|(_, ambient)| ROUND_RTS.contains(&ambient.rt));
        }
        random.pick(&ambients)
    }

    fn about(&self, random: &mut Random, sort: Sort, shape: &Shape, ask: &mut Ask) {
        let (kelvin, ambient) = self.ambient(random, sort);
        let lent = design(random, sort, shape, ambient);
        ask_about(random, kelvin, lent, shape.glues, ask);
    }

    /// The search gives 0.0 with [0, 2], and the walk −0.0: the two are equal as doubles alone.
    fn zeros_of_two_signs(&self, random: &mut Random, ask: &mut Ask) {
        let ambients = self.ambients.borrow();
        let least = ambients.iter().find(|(_, ambient)| ambient.rt == 0.125);
        let (kelvin, ambient) = *least.expect("prepared");
        let mut lent = Lent {
            scaffold: vec![1, 2],
            marks: vec![0; 2],
            glues: vec![0, 0, 0, 0, 1, 3, 3, 2, 0],
            dg: vec![0.0; CELLS],
            ds: vec![0.0; CELLS],
            potentials: vec![0.0, -3.5e-323, 4e-323],
            rt: ambient.rt,
            strand_excess: ambient.strand_excess,
            scaffold_excess: ambient.scaffold_excess,
            ..Lent::default()
        };
        for (glue, dg) in [(1, -5e-324), (2, 5e-324), (3, 1.0)] {
            lent.dg[64 * glue + glue] = dg;
        }
        ask_about(random, kelvin, lent, 4, ask);
    }
}

/// All that is asked of a design that is admitted. The Rust knows no blocked positions: it is asked
/// for the bonds of the design as it is, and for all else of the one whose blocked positions have no
/// glue. Where concentrations are given, it is asked with the port's logarithms of them.
pub fn ask_about(random: &mut Random, kelvin: f64, lent: Lent, glues: usize, ask: &mut Ask) {
    let lines = lines_of_both(&lent, glues);
    let sent: Rc<str> = lines_of_port(&lent, glues).into();
    let built = format!("d.temp K {}\nd.build", bits(kelvin));
    let build = |port: String, lines: String, about: Option<Rc<str>>| Question {
        port,
        oracle: Some(format!("{lines}{built}")),
        expected: Expected::Judged(Verdict::Admitted),
        about,
    };
    ask(build(format!("{sent}d.build"), lines, None));
    let asked = Asked { lent, sent };
    asked.bonds(random, ask);
    if asked.lent.has_blocked() {
        let lines = lines_of_both(&asked.lent.without_blocked(), glues);
        let about = Some(asked.sent.clone());
        ask(build("d.build".to_string(), lines, about));
    }
    asked.states(random, ask);
    asked.energies(random, ask);
    asked.search(ask);
}

/// A design that both programs hold.
struct Asked {
    lent: Lent,
    sent: Rc<str>,
}

impl Asked {
    fn both(&self, line: String, verdict: Verdict) -> Question {
        let mut question = Question::of_both(line, verdict);
        question.about = Some(self.sent.clone());
        question
    }

    /// To the port alone, with the judge's figures where it admits.
    fn port(&self, line: String, verdict: Verdict, figures: impl FnOnce() -> String) -> Question {
        let mut question = Question::of_port(line, verdict, figures);
        question.about = Some(self.sent.clone());
        question
    }

    /// Whole tables of small designs and now and then of large ones; of the rest some bonds.
    fn bonds(&self, random: &mut Random, ask: &mut Ask) {
        let (positions, strands) = (self.lent.positions(), self.lent.strands());
        if strands * (strands + positions) <= 80 || random.once_in(20) {
            ask(self.both("sbonds".to_string(), Verdict::Admitted));
            ask(self.both("cbonds".to_string(), Verdict::Admitted));
            return;
        }
        for _ in 0..16 {
            let (x, y) = (random.below(strands), random.below(strands));
            ask(self.both(format!("sbond {x} {y}"), Verdict::Admitted));
            if positions > 0 {
                let position = random.below(positions);
                ask(self.both(format!("cbond {position} {x}"), Verdict::Admitted));
            }
        }
    }

    fn states(&self, random: &mut Random, ask: &mut Ask) {
        ask(self.both("friends".to_string(), Verdict::Admitted));
        let count = self.lent.count();
        if count <= WHOLE_LISTING {
            ask(self.both("states".to_string(), Verdict::Admitted));
            ask(self.both("gsysall".to_string(), Verdict::Admitted));
        }
        let verdict = self.lent.count_verdict();
        if count <= LISTED_BY_THE_RUST {
            ask(self.both("nstates".to_string(), verdict));
        } else {
            ask(self.port("nstates".to_string(), verdict, || count.to_string()));
        }
        if count > MOST_STATES {
            ask(self.port("state 0".to_string(), verdict, String::new));
            return;
        }
        let rank = random.below(count as usize) as u64;
        let last = count as u64 - 1;
        for rank in [rank, last] {
            let line = format!("state {rank}");
            ask(match count <= LISTED_BY_THE_RUST {
                true => self.both(line, Verdict::Admitted),
                false => self.port(line, Verdict::Admitted, || {
                    joined(self.lent.state(rank), ",")
                }),
            });
        }
    }

    fn energies(&self, random: &mut Random, ask: &mut Ask) {
        let times = if self.lent.positions() > 8 { 6 } else { 2 };
        for _ in 0..times {
            let state = self.any_state(random);
            let word = joined(&state, ",");
            ask(self.both(format!("gsys {word}"), Verdict::Admitted));
            ask(self.both(format!("chain {word}"), Verdict::Admitted));
            ask(
                self.port(format!("raw.chain {word}"), Verdict::Admitted, || {
                    let sum = self.lent.chain_energy(&state);
                    format!("{} {}", bits(sum), bits(sum * self.lent.rt))
                }),
            );
        }
    }

    /// Beside a short listing, the walk through it: its least, compared as a double.
    fn search(&self, ask: &mut Ask) {
        ask(self.both("mfe".to_string(), Verdict::Admitted));
        if self.lent.count() <= WALKED {
            let level = "mfe.level".to_string();
            ask(self.port(level, Verdict::Admitted, || bits(self.lent.walk() + 0.0)));
        }
    }

    /// Mostly occupied, so that sums are long.
    fn any_state(&self, random: &mut Random) -> Vec<u8> {
        let one = |position| {
            let mut options = self.lent.friends(position);
            if options.is_empty() || random.once_in(4) {
                options.push(0);
            }
            random.pick(&options)
        };
        (0..self.lent.positions()).map(one).collect()
    }
}
