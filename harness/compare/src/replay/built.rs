//! Parameter sets of the list: the lines that set one, and what is built of it in both builds. Figures are the oracle's, refusals the
//! judge's; where the Rust can't take a set, or builds what an ordinary build refuses, only a refusal is asked.

use super::designs::places;
use super::{refused, Answered};
use crate::judge::parameters::{Lent, ARCHIVE, ORDINARY};
use crate::parameters::{damage, parameters, Energy, Key, Name, Parameters, Shape};
use crate::program::Program;
use crate::random::Random;
use protocol::{bits, Reply};

const SEED: u64 = 61;

/// Random sets.
const SETS: usize = 24;

/// What the program has room for.
const MOST_USERS: usize = 12;
const MOST: usize = 8;
const LONGEST_TEXT: usize = 256;

/// A number that names no build.
const NO_BUILD: u32 = 2;

pub fn built(oracle: &mut Program) -> Result<Vec<Answered>, String> {
    let random = &mut Random::new(SEED);
    let mut sets = chosen();
    while sets.len() < chosen().len() + SETS {
        let set = drawn(random, sets.len());
        if fits(&set) {
            sets.push(set);
        }
    }
    let mut lines = vec![];
    for set in sets {
        let lent = laid_out(random, &set);
        lines.append(&mut setting(&lent));
        for build in [ORDINARY, ARCHIVE, NO_BUILD] {
            let lent = Lent {
                build,
                ..lent.clone()
            };
            lines.append(&mut questions(random, oracle, &set, &lent)?);
        }
    }
    Ok(lines)
}

fn name(text: &str) -> Option<Name> {
    Some(text.into())
}

fn one(text: &str, energy: Energy) -> (Key, Energy) {
    (Key::One(text.into()), energy)
}

fn pair(x: &str, y: &str, energy: Energy) -> (Key, Energy) {
    (Key::Pair(x.into(), y.into()), energy)
}

fn sequence(letters: &str) -> Energy {
    Energy::Sequence(letters.into())
}

/// Three strands, of which the first can be a quencher's and the third a reporter's.
fn plain() -> Parameters {
    Parameters {
        strands: vec![
            [name("a"), name("b*"), name("c")],
            [name("c*"), None, name("")],
            [name("d"), name("b"), name("a*")],
        ],
        scaffold: vec![name("b"), None, name("*"), name("b*")],
        entries: vec![
            one("b", sequence("acgtacgt")),
            pair("a", "c", Energy::Given(-1.5, -0.0)),
            pair("a", "unused", Energy::Given(f64::NAN, 1e308)),
            one("*", Energy::Given(-0.0, 0.25)),
        ],
        ..Parameters::default()
    }
}

fn with(change: impl FnOnce(&mut Parameters)) -> Parameters {
    let mut set = plain();
    change(&mut set);
    set
}

/// Eleven strands whose glues have so many bases.
fn with_bases(count: usize) -> Parameters {
    let side = |index: usize| name(&format!("g{}", index.min(count - 1)));
    Parameters {
        strands: (0..11)
            .map(|strand| [0, 1, 2].map(|of| side(3 * strand + of)))
            .collect(),
        scaffold: vec![name("g0*"), name(&format!("g{}", count - 1))],
        entries: vec![one("g0", sequence("gattacag"))],
        ..Parameters::default()
    }
}

/// Numbers whose sum with a penalty is at, just inside and just past the end of a range.
fn about_the_end(end: f64, penalty: f64) -> Vec<f64> {
    [end.next_down(), end, end.next_up()]
        .iter()
        .flat_map(|x| [x - penalty, -x - penalty])
        .collect()
}

/// Sets in which one thing is as it only just may be, or may not.
fn chosen() -> Vec<Parameters> {
    let mut sets = vec![Parameters::default(), plain()];
    // The penalty in both numbers, and signs of zero.
    for penalty in [(0.5, -0.25), (-0.0, -0.0), (0.1, 0.0), (0.0, 0.1)] {
        sets.push(with(|set| set.penalty = penalty));
    }
    // Copies: of the same strand, of different ones, of one alone.
    for (quencher, reporter) in [(1, 1), (1, 3), (3, 1), (1, 0), (0, 3)] {
        sets.push(with(|set| {
            (set.quencher, set.reporter) = (quencher, reporter)
        }));
    }
    sets.extend([30, 31, 32].map(with_bases));
    // Sequences of 8 bases, of 1 and of none, and a letter that is no base.
    for letters in [
        "acgtacgt", "GGGGGGGG", "aattccgg", "ac", "a", "", "acgtncgt",
    ] {
        sets.push(with(|set| set.entries[0].1 = sequence(letters)));
    }
    // The same pair in other spellings, and the pair of a name with itself, which is another.
    for again in [
        pair("b*", "b", Energy::Given(1.0, 0.0)),
        pair("b", "b", Energy::Given(1.0, 0.0)),
    ] {
        sets.push(with(|set| set.entries.push(again)));
    }
    // Sums at and past the ends of both ranges.
    for penalty in [(0.0, -0.0), (0.5, 0.125)] {
        let dg = about_the_end(1024.0, penalty.0)
            .into_iter()
            .map(|x| (x, 0.25));
        let ds = about_the_end(8.0, penalty.1).into_iter().map(|x| (1.0, x));
        for (dg, ds) in dg.chain(ds) {
            sets.push(with(|set| {
                set.penalty = penalty;
                set.entries[1].1 = Energy::Given(dg, ds);
            }));
        }
    }
    // Names that end in two stars, of a strand and of both names of entries, and on the scaffold.
    for (strand, first, second, site) in [
        ("a**", "b", "c", "b"),
        ("a", "b**", "c", "b"),
        ("a", "b", "c**", "b"),
        ("a", "b", "unused**", "b"),
        ("a", "b", "c", "b**"),
        ("a***", "b", "**", "b*"),
        ("**a", "b", "c", "**a"),
        ("**a", "b", "c", "**a*"),
    ] {
        sets.push(with(|set| {
            set.strands[0][0] = name(strand);
            set.entries[0].0 = Key::One(first.into());
            set.entries[1].0 = Key::Pair("d".into(), second.into());
            set.scaffold[0] = name(site);
        }));
    }
    sets
}

fn drawn(random: &mut Random, number: usize) -> Parameters {
    let shape = Shape {
        users: random.within(1..=MOST_USERS),
        bases: random.within(1..=6),
        positions: random.within(0..=MOST),
        entries: random.within(0..=MOST),
        most_stars: [1, 5][number % 2],
    };
    let mut set = parameters(random, &shape, true);
    if number % 3 == 2 {
        damage(random, &mut set);
    }
    set
}

fn stands(text: &[u8]) -> bool {
    text.iter()
        .all(|byte| byte.is_ascii_alphanumeric() || *byte == b'*')
}

/// Whether the list can write a set, and the Rust can take it.
fn fits(set: &Parameters) -> bool {
    let names = set.strands.iter().flatten().chain(&set.scaffold).flatten();
    let entries = set.entries.iter().all(|(key, energy)| {
        let names = match key {
            Key::One(name) => stands(name),
            Key::Pair(x, y) => stands(x) && stands(y),
        };
        names && !matches!(energy, Energy::Sequence(s) if !stands(s) || s.len() > 24)
    });
    let length: usize = names.clone().map(Vec::len).sum();
    names.into_iter().all(|name| stands(name))
        && entries
        && length <= LONGEST_TEXT / 4
        && set.scaffold.len() <= MOST
        && set.entries.len() <= MOST
        && set.is_valid_to_the_rust()
        && !set.has_a_key_twice()
}

/// As a call is lent it. Bytes that no name reads are made letters.
fn laid_out(random: &mut Random, set: &Parameters) -> Lent {
    let mut lent = set.laid_out(random);
    for byte in &mut lent.text {
        if !stands(&[*byte]) {
            *byte = b'x';
        }
    }
    assert!(lent.text.len() <= LONGEST_TEXT, "{}", lent.text.len());
    lent
}

/// The lines that set a parameter set. What is 0 is left out.
fn setting(lent: &Lent) -> Vec<Answered> {
    let begun = format!(
        "set {} {} {} {} {} {} {}",
        lent.users,
        lent.scaffold.len() / 3,
        lent.entries.len() / 8,
        lent.quencher,
        lent.reporter,
        bits(lent.penalty_dg),
        bits(lent.penalty_ds)
    );
    let text = format!("text {}", super::letters(&lent.text));
    let mut lines = vec![Answered::setter(begun), Answered::setter(text)];
    for (name, numbers) in [
        ("side", &lent.strands),
        ("site", &lent.scaffold),
        ("entry", &lent.entries),
    ] {
        let set = numbers
            .iter()
            .enumerate()
            .filter(|(_, number)| **number != 0);
        lines.extend(
            set.map(|(index, number)| Answered::setter(format!("{name} {index} {number}"))),
        );
    }
    let set = lent
        .energies
        .iter()
        .enumerate()
        .filter(|(_, x)| x.to_bits() != 0);
    lines.extend(set.map(|(index, x)| Answered::setter(format!("energy {index} {}", bits(*x)))));
    lines
}

/// What the Rust settles, part by part.
struct Settled {
    strand_glues: String,
    scaffold_glues: String,
    /// Place and bits of each cell that is not 0.
    tables: [Vec<(usize, String)>; 2],
}

impl Settled {
    fn read(figures: &str) -> Option<Self> {
        let part = |name: &str| figures.split(' ').find_map(|word| word.strip_prefix(name));
        let glues = |list: &str| -> Option<String> {
            let words = list
                .split([',', '.'])
                .filter(|word| !word.is_empty() && *word != "-");
            let glues: Result<Vec<u8>, _> = words.map(str::parse).collect();
            glues.ok().map(|glues| places(&glues))
        };
        let cells = |list: &str| -> Option<Vec<(usize, String)>> {
            let words = list.split(',').filter(|word| word.contains('.'));
            let cell = |word: &str| {
                let mut parts = word.split('.');
                let row: usize = parts.next()?.parse().ok()?;
                let column: usize = parts.next()?.parse().ok()?;
                Some((64 * row + column, parts.next()?.to_string()))
            };
            words.map(cell).collect()
        };
        Some(Settled {
            strand_glues: glues(part("sg=")?)?,
            scaffold_glues: glues(part("sc=")?)?,
            tables: [cells(part("dg=")?)?, cells(part("ds=")?)?],
        })
    }

    /// All glues, and a cell of both tables.
    fn figures(&self, cell: usize) -> String {
        let [dg, ds] = [0, 1].map(|table: usize| {
            let found = self.tables[table].iter().find(|(at, _)| *at == cell);
            found.map_or(bits(0.0), |(_, bits)| bits.clone())
        });
        format!("ok {} {} {dg} {ds}", self.strand_glues, self.scaffold_glues)
    }

    /// Each cell that is written, and three that may not be.
    fn cells(&self) -> Vec<usize> {
        let written = self.tables.iter().flatten().map(|(at, _)| *at);
        let mut cells: Vec<usize> = written.chain([0, 66, 4095]).collect();
        cells.sort_unstable();
        cells.dedup();
        cells
    }
}

fn questions(
    random: &mut Random,
    oracle: &mut Program,
    set: &Parameters,
    lent: &Lent,
) -> Result<Vec<Answered>, String> {
    let build = lent.build;
    if let Some(answer) = refused(lent.verdict()) {
        let question = format!("build {build} 66");
        return Ok(vec![Answered { question, answer }]);
    }
    let lines = set.oracle_lines(random);
    let answer = oracle.ask(&format!("{lines}p.build 1"))?;
    let settled = match Reply::parse(&answer) {
        Some(Reply::Ok(figures)) => Settled::read(&figures),
        _ => None,
    };
    let settled = settled.ok_or_else(|| format!("{lines}: the oracle says {answer}"))?;
    let asked = settled.cells().into_iter().map(|cell| Answered {
        question: format!("build {build} {cell}"),
        answer: settled.figures(cell),
    });
    Ok(asked.collect())
}

#[cfg(test)]
mod tests {
    use super::*;
    use std::collections::BTreeSet;

    #[test]
    fn every_reply_of_a_build_is_met() {
        let random = &mut Random::new(1);
        let met: BTreeSet<(u32, u32)> = chosen()
            .iter()
            .flat_map(|set| {
                let lent = laid_out(random, set);
                [ORDINARY, ARCHIVE].map(|build| {
                    let lent = Lent {
                        build,
                        ..lent.clone()
                    };
                    (build, lent.verdict().number())
                })
            })
            .collect();
        for number in [0, 2, 3, 6, 7, 8, 9] {
            for build in [ORDINARY, ARCHIVE] {
                assert!(met.contains(&(build, number)), "{build} {number}");
            }
        }
        assert!(met.contains(&(ORDINARY, 21)));
        assert!(!met.contains(&(ARCHIVE, 21)));
    }

    #[test]
    fn the_program_has_room_for_the_chosen_sets() {
        let random = &mut Random::new(1);
        for set in chosen() {
            assert!(set.strands.len() <= MOST_USERS, "{set:?}");
            assert!(
                set.scaffold.len() <= MOST && set.entries.len() <= MOST,
                "{set:?}"
            );
            assert!(
                set.is_valid_to_the_rust() && !set.has_a_key_twice(),
                "{set:?}"
            );
            laid_out(random, &set);
        }
    }
}
