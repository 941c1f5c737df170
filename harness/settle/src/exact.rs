//! Designs with two excess temperatures, which the Rust does not take: it has one temperature for both.
//!
//! At 37 °C the Rust's excesses are 0, so a bond is dG / RT. All figures here are small multiples of powers of two, so that
//! dG + penalty and (dG + penalty) − excess × (dS + penalty) are exact. The Rust is asked for a design whose dG is that difference;
//! the file states dG, dS, the penalty and both excesses, and its bonds are the same doubles. Glues of the scaffold and glues between
//! neighbours have names of their own, so that each energy belongs to one excess.

use crate::design::{pair, Design, Energy, Entry, Name, Strand};
use compare::random::Random;

/// A design for the Rust, and the same for a file, with its strand and scaffold excess.
pub struct Exact {
    pub asked: Design,
    pub stated: Design,
    pub excesses: [f64; 2],
}

/// A multiple of 1 / parts, from −most to most.
fn dyadic(random: &mut Random, most: usize, parts: usize) -> f64 {
    (random.below(2 * most * parts + 1) as f64 - (most * parts) as f64) / parts as f64
}

/// Glues on the scaffold, and glues between neighbours.
fn glue(random: &mut Random, of_scaffold: bool) -> Name {
    let kind = if of_scaffold { 's' } else { 'n' };
    format!("{kind}{}", random.below(5)).into_bytes()
}

fn starred(random: &mut Random, mut name: Name) -> Name {
    name.extend(vec![b'*'; random.below(2)]);
    name
}

impl Exact {
    pub fn random(random: &mut Random) -> Self {
        let strand_excess = dyadic(random, 40, 2);
        let scaffold_excess = strand_excess + 1.0 + random.below(60) as f64 / 2.0;
        let penalty = (dyadic(random, 2, 16), dyadic(random, 1, 64) / 16.0);
        let (mut asked, mut stated) = (empty(None), empty(Some(penalty)));
        let mut potential = -1.0 - random.below(8) as f64;
        let mut next = |random: &mut Random| {
            potential -= (1 + random.below(9)) as f64 / 8.0;
            potential
        };
        for index in 0..random.within(1..=8) {
            let sides = [false, true, false].map(|of_scaffold| {
                let name = glue(random, of_scaffold);
                Some(starred(random, name))
            });
            let potential = next(random);
            for design in [&mut asked, &mut stated] {
                design.strands.push(Strand {
                    name: format!("s{index}").into_bytes(),
                    sides: sides.clone(),
                    potential,
                });
            }
        }
        let users = stated.strands.len();
        let quencher = Some((Some(random.below(users)), next(random)));
        let reporter = Some((Some(random.below(users)), next(random)));
        let known: Vec<Name> = stated
            .known()
            .into_iter()
            .filter(|base| base[0] == b's')
            .collect();
        for design in [&mut asked, &mut stated] {
            (design.quencher, design.reporter) = (quencher, reporter);
        }
        for _ in 0..random.within(1..=10) {
            let name = known[random.below(known.len())].clone();
            let name = starred(random, name);
            let blocked = random.once_in(9);
            for design in [&mut asked, &mut stated] {
                design.scaffold.push(Some(name.clone()));
                design.blocked.push(blocked);
            }
        }
        for _ in 0..random.within(4..=24) {
            let of_scaffold = random.once_in(2);
            let count = random.within(1..=2);
            let names: Vec<Name> = (0..count)
                .map(|_| {
                    let name = glue(random, of_scaffold);
                    starred(random, name)
                })
                .collect();
            if stated
                .entries
                .iter()
                .any(|entry| pair(&entry.names) == pair(&names))
            {
                continue;
            }
            let (dg, ds) = (dyadic(random, 12, 16), dyadic(random, 4, 64) / 16.0);
            let excess = if of_scaffold {
                scaffold_excess
            } else {
                strand_excess
            };
            let whole = (dg + penalty.0, ds + penalty.1);
            let difference = whole.0 - excess * whole.1;
            asked.entries.push(Entry {
                names: names.clone(),
                energy: Energy::Given(difference, whole.1),
            });
            stated.entries.push(Entry {
                names,
                energy: Energy::Given(dg, ds),
            });
        }
        Exact {
            asked,
            stated,
            excesses: [strand_excess, scaffold_excess],
        }
    }
}

fn empty(penalty: Option<(f64, f64)>) -> Design {
    Design {
        celsius: 37.0,
        strands: vec![],
        quencher: None,
        reporter: None,
        scaffold: vec![],
        blocked: vec![],
        entries: vec![],
        penalty,
    }
}
