//! Designs at and just past each limit of document 01, and small ones in which a rule decides: a friend
//! whose bond is 0, sums that end in other bits in any other order. No temperature gives their ambients,
//! so figures and refusals are the judge's.

use super::designs::{places, setting};
use super::Answered;
use crate::doubles::not_finite;
use crate::judge::design::{Lent, CELLS, FRIENDS_LENT};
use crate::judge::search::Reading;
use crate::judge::Verdict;
use crate::random::Random;
use protocol::bits;

const SEED: u64 = 1024;

/// Designs of three places whose sums depend on the order of their terms.
const ORDERED: usize = 8;

/// A cell of a glue table.
fn cell(row: usize, column: usize) -> usize {
    row * 64 + column
}

/// One position, one strand beside strand 0: dG −2, potential −1, RT 1/2.
fn plain() -> Lent {
    let mut lent = Lent {
        scaffold: vec![1],
        marks: vec![0; 1],
        glues: vec![0, 0, 0, 2, 1, 3],
        dg: vec![0.0; CELLS],
        ds: vec![0.0; CELLS],
        potentials: vec![0.0, -1.0],
        rt: 0.5,
        ..Lent::default()
    };
    lent.dg[cell(1, 1)] = -2.0;
    lent
}

fn with(change: impl FnOnce(&mut Lent)) -> Lent {
    let mut lent = plain();
    change(&mut lent);
    lent
}

/// The ends of a range, and the doubles just inside and just past them.
fn ends(low: f64, high: f64) -> Vec<f64> {
    vec![
        low,
        low.next_up(),
        low.next_down(),
        high,
        high.next_down(),
        high.next_up(),
    ]
}

fn at_the_ranges() -> Vec<Lent> {
    let mut designs = vec![];
    for x in ends(-1024.0, 1024.0) {
        designs.push(with(|lent| lent.dg[cell(1, 1)] = x));
        designs.push(with(|lent| lent.dg[cell(63, 63)] = x));
        designs.push(with(|lent| lent.strand_excess = x));
        designs.push(with(|lent| lent.scaffold_excess = x));
        designs.push(with(|lent| lent.potentials[1] = x));
    }
    for x in ends(-8.0, 8.0) {
        designs.push(with(|lent| lent.ds[cell(1, 1)] = x));
        designs.push(with(|lent| lent.ds[cell(63, 63)] = x));
    }
    for x in ends(0.125, 8.0) {
        designs.push(with(|lent| lent.rt = x));
    }
    for x in not_finite().into_iter().step_by(3) {
        designs.push(with(|lent| lent.rt = x));
        designs.push(with(|lent| lent.dg[cell(5, 9)] = x));
        designs.push(with(|lent| lent.potentials[1] = x));
        // Strand 0 is no friend, and its potential is not read.
        designs.push(with(|lent| lent.potentials[0] = x));
    }
    // All at once at the far ends: no sum overflows.
    designs.push(with(|lent| {
        lent.open(vec![1; 128]);
        lent.rt = 0.125;
        lent.strand_excess = -1024.0;
        lent.scaffold_excess = -1024.0;
        for at in [cell(1, 1), cell(3, 2)] {
            lent.dg[at] = 1024.0;
            lent.ds[at] = 8.0;
        }
        lent.potentials[1] = -1024.0;
    }));
    designs
}

/// The list has no way to write a design that is larger than the largest.
fn at_the_sizes() -> Vec<Lent> {
    let mut designs = vec![];
    for positions in [0, 1, 20, 21, 127, 128] {
        designs.push(with(|lent| lent.open(vec![1; positions])));
    }
    for strands in [0, 1, 63, 64] {
        designs.push(with(|lent| {
            lent.glues = [vec![0; 3], [2, 1, 3].repeat(64)].concat();
            lent.glues.truncate(3 * strands);
            lent.potentials = vec![-1.0; strands];
        }));
    }
    for glue in [62, 63, 64, 255] {
        designs.push(with(|lent| lent.scaffold[0] = glue));
        for side in 3..6 {
            designs.push(with(|lent| lent.glues[side] = glue));
        }
    }
    designs
}

/// Each way in which strand 0 or glue 0 can take part in a bond, and a zero with a sign, which can't.
fn nulls() -> Vec<Lent> {
    let mut designs = vec![];
    for side in 0..3 {
        designs.push(with(|lent| lent.glues[side] = 1));
    }
    for at in [cell(0, 0), cell(0, 1), cell(1, 0), cell(0, 63), cell(63, 0)] {
        designs.push(with(|lent| lent.dg[at] = 1.0));
        designs.push(with(|lent| lent.ds[at] = -1.0));
        designs.push(with(|lent| lent.dg[at] = -0.0));
    }
    designs
}

/// A cell makes a friend though the bond is 0.0 or −0.0, and one of −0.0 makes none.
fn friends_without_a_bond() -> Vec<Lent> {
    let mut designs = vec![];
    for (dg, ds, excess) in [
        (0.0, 1.0, 0.0),
        (0.0, -1.0, 0.0),
        (3.0, 1.0, 3.0),
        (-0.0, 0.0, 1.0),
        (0.0, -0.0, 1.0),
    ] {
        for potential in [-1.0, 0.0, 1.0] {
            designs.push(with(|lent| {
                lent.dg[cell(1, 1)] = dg;
                lent.ds[cell(1, 1)] = ds;
                lent.scaffold_excess = excess;
                lent.potentials[1] = potential;
            }));
        }
    }
    designs
}

/// Three places, a strand for each, and two bonds between them.
fn three_places(random: &mut Random) -> Lent {
    let mut lent = plain();
    lent.open(vec![1, 2, 3]);
    lent.glues = vec![0, 0, 0, 10, 1, 11, 12, 2, 13, 14, 3, 15];
    lent.potentials = vec![0.0; 4];
    lent.rt = random.double(0.5, 0.7);
    for at in [
        cell(1, 1),
        cell(2, 2),
        cell(3, 3),
        cell(11, 12),
        cell(13, 14),
    ] {
        lent.dg[at] = random.double(-12.0, -4.0);
        lent.ds[at] = random.double(-0.2, 0.0);
    }
    for strand in 1..4 {
        lent.potentials[strand] = random.double(-20.0, -14.0);
    }
    lent.strand_excess = random.double(-20.0, 20.0);
    lent.scaffold_excess = random.double(-20.0, 20.0);
    lent
}

/// Whether each other order of a place's three terms, and each sum that gathers the terms of a sort
/// first, ends in other bits than both energies of the three strands do.
fn depends_on_the_order(lent: &Lent) -> bool {
    let site = |i: usize| lent.scaffold_bond(i, i + 1);
    let pair = |i: usize| {
        if i < 2 {
            lent.strand_bond(i + 1, i + 2)
        } else {
            0.0
        }
    };
    let left = |i: usize| {
        if i > 0 {
            lent.strand_bond(i, i + 1)
        } else {
            0.0
        }
    };
    let potential = |i: usize| -lent.potentials[i + 1];
    let differs = |right: f64, terms: [&dyn Fn(usize) -> f64; 3]| {
        let by_place = |order: [usize; 3]| {
            let places = (0..3).flat_map(|i| order.map(|sort| terms[sort](i)));
            places.fold(0.0, |sum, term| sum + term)
        };
        let by_sort = |order: [usize; 3]| {
            let sorts = order
                .iter()
                .flat_map(|sort| [0, 1, 2].map(|i| terms[*sort](i)));
            sorts.fold(0.0, |sum, term| sum + term)
        };
        let orders = [
            [0, 1, 2],
            [0, 2, 1],
            [1, 0, 2],
            [1, 2, 0],
            [2, 0, 1],
            [2, 1, 0],
        ];
        by_place(orders[0]) == right
            && orders[1..].iter().all(|order| by_place(*order) != right)
            && orders.iter().all(|order| by_sort(*order) != right)
    };
    let (state, chain) = ([1, 2, 3], lent.chain_energy(&[1, 2, 3]));
    let product = lent.state_energy(&state);
    let sum = [&site as &dyn Fn(usize) -> f64, &pair, &potential];
    let state_sum = (0..3).fold(0.0, |total, i| ((total + site(i)) + pair(i)) + potential(i));
    state_sum * lent.rt == product
        && differs(state_sum, sum)
        && differs(chain, [&left, &site, &potential])
}

/// The lines of a design and every question about it, as the judge answers.
fn asked(lent: &Lent) -> Vec<Answered> {
    let mut lines = setting(lent);
    let mut put = |question: String, verdict: Verdict, figures: &dyn Fn() -> String| {
        let answer = match super::refused(verdict) {
            Some(refusal) => refusal,
            None => format!("ok {}", figures()),
        };
        lines.push(Answered { question, answer });
    };
    let positions = lent.positions();
    let full: Vec<u8> = (0..positions)
        .map(|position| match positions {
            3 => position as u8 + 1,
            _ => 1,
        })
        .collect();
    put("sbond 1 1".into(), lent.strand_bond_verdict(1, 1), &|| {
        bits(lent.strand_bond(1, 1))
    });
    put(
        "cbond 0 1".into(),
        lent.scaffold_bond_verdict(0, 1),
        &|| bits(lent.scaffold_bond(0, 1)),
    );
    put(
        "friends 0".into(),
        lent.friends_verdict(0, FRIENDS_LENT),
        &|| places(&lent.friends(0)),
    );
    put("nstates".into(), lent.count_verdict(), &|| {
        format!("{:016x}", lent.count())
    });
    for rank in [0, 1, 2] {
        put(
            format!("state {rank}"),
            lent.state_verdict(rank, positions),
            &|| places(&lent.state(rank)),
        );
    }
    put(
        format!("gsys {}", places(&full)),
        lent.energy_verdict(&full),
        &|| bits(lent.state_energy(&full)),
    );
    put(
        format!("chain {}", places(&full)),
        lent.energy_verdict(&full),
        &|| {
            let sum = lent.chain_energy(&full);
            format!("{} {}", bits(sum), bits(sum * lent.rt))
        },
    );
    put("mfe".into(), lent.search_verdict(positions), &|| {
        bits(lent.search(Reading::Document).0)
    });
    put("settled".into(), lent.search_verdict(positions), &|| {
        places(&lent.search(Reading::Document).1)
    });
    lines
}

fn designs() -> Vec<Lent> {
    let random = &mut Random::new(SEED);
    let mut designs = [
        at_the_ranges(),
        at_the_sizes(),
        nulls(),
        friends_without_a_bond(),
    ]
    .concat();
    let mut ordered = 0;
    while ordered < ORDERED {
        let lent = three_places(random);
        if depends_on_the_order(&lent) {
            designs.push(lent);
            ordered += 1;
        }
    }
    designs
}

pub fn limits() -> Vec<Answered> {
    let head = "# From here on every answer is the judge's: designs at and just past each limit.";
    let mut lines = vec![Answered::setter(head.to_string())];
    lines.extend(designs().iter().flat_map(asked));
    lines
}

#[cfg(test)]
mod tests {
    use super::*;
    use std::collections::BTreeSet;

    #[test]
    fn every_reply_of_a_design_is_met() {
        let met: BTreeSet<String> = limits()
            .iter()
            .filter(|line| !line.answer.is_empty())
            .map(|line| match line.answer.starts_with("ok") {
                true => "ok".to_string(),
                false => line.answer.clone(),
            })
            .collect();
        for reply in [
            "ok",
            "refused 1",
            "refused 9",
            "refused 10",
            "refused 11",
            "refused 12",
            "refused 13",
            "refused 16",
            "refused 17",
        ] {
            assert!(met.contains(reply), "{reply}: {met:?}");
        }
    }

    #[test]
    fn a_friend_may_have_no_bond() {
        let lent = &friends_without_a_bond()[0];
        assert_eq!(lent.friends(0), [1]);
        assert_eq!(lent.scaffold_bond(0, 1), 0.0);
    }
}
