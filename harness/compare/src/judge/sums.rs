//! Document 02's partition sums over given weights, read once more: refusals, and the exact sum, over
//! the listed states where these are few, and else by a pass from the first position to the last.

use super::design::Lent;
use super::exact::Exact;
use super::Verdict;

/// Up to so many states are gone through one by one.
const LISTED: u128 = 2_000;

/// Digits and exponents, as they are lent.
#[derive(Debug, Clone, Default)]
pub struct Weights {
    /// Of each position and strand.
    pub place_digits: Vec<u32>,
    pub place_powers: Vec<i32>,
    /// Of each left and right strand.
    pub pair_digits: Vec<u32>,
    pub pair_powers: Vec<i32>,
}

/// The lists of a constraint, as they are lent.
#[derive(Debug, Clone, Default)]
pub struct Lists {
    pub numbers: Vec<u8>,
    pub starts: Vec<usize>,
    pub lengths: Vec<usize>,
}

/// "A whole number from 2 to the 30 up to, not including, 2 to the 31, times a power of two with a
/// signed exponent from −400,000 to 400,000."
fn unformed(digits: u32, power: i32) -> bool {
    !(1 << 30..1 << 31).contains(&digits) || !(-400_000..=400_000).contains(&power)
}

/// What the states multiply: "an empty place, and a pair with one, has the factor 1".
pub trait Factors {
    /// The weight of a strand at a position.
    fn times_place(&self, lent: &Lent, sum: &Exact, position: usize, strand: u8) -> Exact;

    /// The weight of a left and a right strand.
    fn times_pair(&self, lent: &Lent, sum: &Exact, left: u8, right: u8) -> Exact;
}

fn with_place(
    factors: &impl Factors,
    lent: &Lent,
    sum: &Exact,
    position: usize,
    strand: u8,
) -> Exact {
    match strand {
        0 => sum.clone(),
        _ => factors.times_place(lent, sum, position, strand),
    }
}

fn with_pair(factors: &impl Factors, lent: &Lent, sum: &Exact, left: u8, right: u8) -> Exact {
    match (left, right) {
        (0, _) | (_, 0) => sum.clone(),
        _ => factors.times_pair(lent, sum, left, right),
    }
}

fn product(factors: &impl Factors, lent: &Lent, state: &[u8]) -> Exact {
    let mut product = Exact::one();
    for (position, strand) in state.iter().enumerate() {
        product = with_place(factors, lent, &product, position, *strand);
    }
    for two in state.windows(2) {
        product = with_pair(factors, lent, &product, two[0], two[1]);
    }
    product
}

impl Factors for Weights {
    fn times_place(&self, lent: &Lent, sum: &Exact, position: usize, strand: u8) -> Exact {
        let (digits, power) = self.place(lent, position, strand);
        sum.times(digits, i64::from(power))
    }

    fn times_pair(&self, lent: &Lent, sum: &Exact, left: u8, right: u8) -> Exact {
        let (digits, power) = self.pair(lent, left, right);
        sum.times(digits, i64::from(power))
    }
}

impl Weights {
    fn wrong_sizes(&self, lent: &Lent) -> bool {
        let (places, pairs) = (
            lent.positions() * lent.strands(),
            lent.strands() * lent.strands(),
        );
        self.place_digits.len() != places
            || self.place_powers.len() != places
            || self.pair_digits.len() != pairs
            || self.pair_powers.len() != pairs
    }

    fn place(&self, lent: &Lent, position: usize, strand: u8) -> (u32, i32) {
        let cell = position * lent.strands() + usize::from(strand);
        (self.place_digits[cell], self.place_powers[cell])
    }

    fn pair(&self, lent: &Lent, left: u8, right: u8) -> (u32, i32) {
        let cell = usize::from(left) * lent.strands() + usize::from(right);
        (self.pair_digits[cell], self.pair_powers[cell])
    }

    /// "A friend's at its position, or a pair's where they are friends of neighbouring positions, in
    /// that order."
    fn out(&self, lent: &Lent) -> bool {
        let friends: Vec<Vec<u8>> = (0..lent.positions()).map(|i| lent.friends(i)).collect();
        let bad = |(digits, power)| unformed(digits, power);
        let place =
            |(i, here): (usize, &Vec<u8>)| here.iter().any(|x| bad(self.place(lent, i, *x)));
        let pair = |two: &[Vec<u8>]| {
            let of_left = |x: &u8| two[1].iter().any(|y| bad(self.pair(lent, *x, *y)));
            two[0].iter().any(of_left)
        };
        friends.iter().enumerate().any(place) || friends.windows(2).any(pair)
    }
}

impl Lists {
    /// "1 if the lists are not one per position"; a list that leaves the numbers is none.
    pub(super) fn wrong_sizes(&self, lent: &Lent) -> bool {
        let inside = |(start, length): (&usize, &usize)| {
            start
                .checked_add(*length)
                .is_some_and(|end| end <= self.numbers.len())
        };
        self.starts.len() != lent.positions()
            || self.lengths.len() != lent.positions()
            || !self.starts.iter().zip(&self.lengths).all(inside)
    }

    /// "An empty list leaves the place free."
    fn allows(&self, position: usize, occupant: u8) -> bool {
        let start = self.starts[position];
        let list = &self.numbers[start..start + self.lengths[position]];
        list.is_empty() || list.contains(&occupant)
    }
}

/// Refusals of the free sum, and with lists of the constrained one.
pub fn verdict(lent: &Lent, weights: &Weights, lists: Option<&Lists>) -> Verdict {
    let own_size = weights.wrong_sizes(lent) || lists.is_some_and(|lists| lists.wrong_sizes(lent));
    lent.verdict(own_size, || {
        vec![(18, lent.positions() == 0), (19, weights.out(lent))]
    })
}

/// The exact sum over the states that meet the lists, all of them without lists.
pub fn sum(lent: &Lent, factors: &impl Factors, lists: Option<&Lists>) -> Exact {
    match lent.count() <= LISTED {
        true => listed(lent, factors, lists),
        false => passed(lent, factors, lists),
    }
}

fn listed(lent: &Lent, factors: &impl Factors, lists: Option<&Lists>) -> Exact {
    let meets = |state: &[u8]| {
        let mut places = state.iter().enumerate();
        lists.is_none_or(|lists| places.all(|(position, x)| lists.allows(position, *x)))
    };
    let states = (0..lent.count() as u64).map(|rank| lent.state(rank));
    let products = states
        .filter(|state| meets(state))
        .map(|state| product(factors, lent, &state));
    products.fold(Exact::default(), |sum, product| sum.plus(&product))
}

/// What stands at a position, with the sum over all that can stand before it.
type Row = Vec<(u8, Exact)>;

fn passed(lent: &Lent, factors: &impl Factors, lists: Option<&Lists>) -> Exact {
    let options = |position: usize| {
        let mut options = lent.friends(position);
        options.push(0);
        options.retain(|x| lists.is_none_or(|lists| lists.allows(position, *x)));
        options
    };
    let mut row: Row = vec![];
    for position in 0..lent.positions() {
        let before = |right: u8| match position {
            0 => Exact::one(),
            _ => {
                let terms = row
                    .iter()
                    .map(|(x, sum)| with_pair(factors, lent, sum, *x, right));
                terms.fold(Exact::default(), |sum, term| sum.plus(&term))
            }
        };
        let of_option = |x: u8| (x, with_place(factors, lent, &before(x), position, x));
        row = options(position).into_iter().map(of_option).collect();
    }
    row.iter()
        .fold(Exact::default(), |sum, (_, term)| sum.plus(term))
}

#[cfg(test)]
mod tests {
    use super::*;
    use crate::judge::design::tests::bench;
    use crate::random::Random;

    const ONE: u32 = 1 << 30;

    /// Two positions of a friend each, and weights with these exponents: a place's, a pair's.
    fn two(place: [i32; 2], pair: i32) -> (Lent, Weights) {
        let lent = bench(&[1, 2], &[-1.0, -1.0]);
        let mut weights = Weights {
            place_digits: vec![0; 6],
            place_powers: vec![0; 6],
            pair_digits: vec![0; 9],
            pair_powers: vec![0; 9],
        };
        for (cell, power) in [(1, place[0]), (5, place[1])] {
            (weights.place_digits[cell], weights.place_powers[cell]) = (ONE, power);
        }
        (weights.pair_digits[5], weights.pair_powers[5]) = (ONE, pair);
        (lent, weights)
    }

    fn lists(of_each: &[&[u8]]) -> Lists {
        let lengths: Vec<usize> = of_each.iter().map(|list| list.len()).collect();
        let starts = (0..lengths.len())
            .map(|i| lengths[..i].iter().sum())
            .collect();
        Lists {
            numbers: of_each.concat(),
            starts,
            lengths,
        }
    }

    /// 1 + a + b + a b c, with a = 1, b = 2, c = 4.
    #[test]
    fn a_sum_of_four_states() {
        let (lent, weights) = two([-30, -29], -28);
        assert_eq!(verdict(&lent, &weights, None), Verdict::Admitted);
        let is = |lists: Option<&Lists>, digits, power: i64| {
            assert_eq!(verdict(&lent, &weights, lists), Verdict::Admitted);
            let exact = Exact::one().times(digits, power);
            let exact = if digits == 0 { Exact::default() } else { exact };
            assert_eq!(sum(&lent, &weights, lists), exact);
            assert_eq!(passed(&lent, &weights, lists), exact);
        };
        is(None, 12, 0);
        is(Some(&lists(&[&[], &[]])), 12, 0);
        is(Some(&lists(&[&[1], &[2]])), 8, 0);
        is(Some(&lists(&[&[1, 1, 1], &[2, 7, 255]])), 8, 0);
        is(Some(&lists(&[&[0], &[]])), 3, 0);
        is(Some(&lists(&[&[2], &[]])), 0, 0);
        is(Some(&lists(&[&[], &[9, 64]])), 0, 0);
    }

    #[test]
    fn only_weights_that_a_state_uses_are_looked_at() {
        let (lent, mut weights) = two([400_000, -400_000], 0);
        assert_eq!(verdict(&lent, &weights, None), Verdict::Admitted);
        // Strand 2 is no friend of position 0, nor 1 of position 1; (2, 1) are no neighbours.
        (weights.place_digits[2], weights.pair_digits[7]) = (u32::MAX, 1);
        weights.place_powers[4] = i32::MIN;
        assert_eq!(verdict(&lent, &weights, None), Verdict::Admitted);
        let number = |change: &dyn Fn(&mut Weights)| {
            let mut changed = weights.clone();
            change(&mut changed);
            let constrained = lists(&[&[2], &[]]);
            let free = verdict(&lent, &changed, None);
            assert_eq!(verdict(&lent, &changed, Some(&constrained)), free);
            free.number()
        };
        assert_eq!(number(&|w| w.place_powers[1] = 400_001), 19);
        assert_eq!(number(&|w| w.place_powers[5] = -400_001), 19);
        assert_eq!(number(&|w| w.place_digits[1] = ONE - 1), 19);
        assert_eq!(number(&|w| w.place_digits[5] = 2 * ONE), 19);
        assert_eq!(number(&|w| w.pair_digits[5] = 0), 19);
        assert_eq!(number(&|w| w.pair_powers[5] = i32::MAX), 19);
        assert_eq!(number(&|w| w.pair_powers[5] = 400_000), 0);
    }

    #[test]
    fn sizes_come_first_and_a_bare_scaffold_after_the_design() {
        let (lent, weights) = two([0, 0], 0);
        let number = |lists: &Lists| verdict(&lent, &weights, Some(lists)).number();
        assert_eq!(number(&lists(&[&[], &[], &[]])), 1);
        assert_eq!(number(&lists(&[&[]])), 1);
        let past = Lists {
            numbers: vec![0; 3],
            starts: vec![4, 0],
            lengths: vec![0, 0],
        };
        assert_eq!(number(&past), 1);
        let mut empty = bench(&[], &[-1.0, -1.0]);
        let mut none = weights.clone();
        (none.place_digits, none.place_powers) = (vec![], vec![]);
        assert_eq!(verdict(&empty, &none, None).number(), 18);
        assert_eq!(verdict(&empty, &weights, None).number(), 1);
        empty.rt = 9.0;
        assert_eq!(verdict(&empty, &none, None).number(), 16);
    }

    #[test]
    fn the_pass_is_the_sum_over_the_states() {
        let random = &mut Random::new(5);
        for _ in 0..200 {
            let lent = bench(&[1, 1, 2, 3, 1], &[-1.0, -1.0, -1.0]);
            let mut drawn = |many: usize| {
                let digits = (0..many).map(|_| ONE + random.below(1 << 30) as u32);
                let digits: Vec<u32> = digits.collect();
                let powers = (0..many).map(|_| random.below(800_001) as i32 - 400_000);
                (digits, powers.collect::<Vec<i32>>())
            };
            let ((place_digits, place_powers), (pair_digits, pair_powers)) = (drawn(20), drawn(16));
            let weights = Weights {
                place_digits,
                place_powers,
                pair_digits,
                pair_powers,
            };
            assert_eq!(listed(&lent, &weights, None), passed(&lent, &weights, None));
        }
    }
}
