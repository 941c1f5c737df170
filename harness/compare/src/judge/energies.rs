//! Document 02's weights and probabilities from energies, read once more: the exponential by whole
//! numbers of its own, and exact sums over these.

use super::design::Lent;
use super::exact::Exact;
use super::sums::{sum, Factors, Lists};
use super::Verdict;

/// digits × 2^power, far nearer to an exponential than one part in 2^40.
#[derive(Debug, Clone, Copy, PartialEq, Eq)]
pub struct Exponential {
    pub digits: u64,
    pub power: i64,
}

/// Arguments have so many digits behind the point, what is left of them after the powers of two so many.
const POINT: u32 = 100;
const REST: u32 = 62;

/// ln 2 = Σ 1 / (k 2^k), in units of 2^-100.
fn ln_2() -> i128 {
    const FINER: u32 = 20;
    let terms = (1..=POINT + FINER).map(|k| (1i128 << (POINT + FINER - k)) / i128::from(k));
    terms.sum::<i128>() >> FINER
}

/// A double of at most 2^17 in size in units of 2^-100, cut to a whole number.
fn fixed(x: f64) -> i128 {
    let bits = x.abs().to_bits();
    let (exponent, fraction) = ((bits >> 52) as i32, bits & ((1 << 52) - 1));
    let digits = i128::from(match exponent {
        0 => fraction,
        _ => fraction | 1 << 52,
    });
    let size = match exponent.max(1) - 1075 + POINT as i32 {
        up @ 0.. => digits << up,
        down => digits.checked_shr(down.unsigned_abs()).unwrap_or(0),
    };
    match x < 0.0 {
        true => -size,
        false => size,
    }
}

/// e^x: the multiples of ln 2 are powers of two, and the series does the rest.
pub fn exponential(x: f64) -> Exponential {
    let (argument, ln_2) = (fixed(x), ln_2());
    let (power, rest) = (argument.div_euclid(ln_2), argument.rem_euclid(ln_2));
    let rest = (rest >> (POINT - REST)) as u128;
    let (mut term, mut sum) = (1u128 << REST, 1u128 << REST);
    for j in 1.. {
        term = ((term * rest) >> REST) / j;
        if term == 0 {
            break;
        }
        sum += term;
    }
    Exponential {
        digits: sum as u64,
        power: power as i64 - i64::from(REST),
    }
}

/// "9 for an argument that is not finite or too large."
pub fn exponential_verdict(x: f64) -> Verdict {
    let taken = x.is_finite() && x.abs() <= 80_000.0;
    Verdict::lowest(&[(9, !taken)])
}

impl Exponential {
    pub fn exact(self) -> Exact {
        Exact::one().times_long(self.digits, self.power)
    }
}

/// The weights of a design: of each position and friend, and of each two strands that are friends.
pub struct Energies {
    places: Vec<Option<Exponential>>,
    pairs: Vec<Option<Exponential>>,
}

impl Energies {
    pub fn of(lent: &Lent) -> Self {
        let strands = lent.strands();
        let mut places = vec![None; lent.positions() * strands];
        for position in 0..lent.positions() {
            for strand in lent.friends(position).into_iter().map(usize::from) {
                let argument = -(lent.scaffold_bond(position, strand) - lent.potentials[strand]);
                places[position * strands + strand] = Some(exponential(argument));
            }
        }
        let mut pairs = vec![None; strands * strands];
        let known: Vec<usize> = (0..strands)
            .filter(|strand| lent.is_somewhere_friend(*strand))
            .collect();
        for left in &known {
            for right in &known {
                let bond = lent.strand_bond(*left, *right);
                pairs[left * strands + right] = Some(exponential(-bond));
            }
        }
        Energies { places, pairs }
    }
}

impl Factors for Energies {
    fn times_place(&self, lent: &Lent, sum: &Exact, position: usize, strand: u8) -> Exact {
        let weight = self.places[position * lent.strands() + usize::from(strand)];
        let weight = weight.expect("a friend");
        sum.times_long(weight.digits, weight.power)
    }

    fn times_pair(&self, lent: &Lent, sum: &Exact, left: u8, right: u8) -> Exact {
        let weight = self.pairs[usize::from(left) * lent.strands() + usize::from(right)];
        let weight = weight.expect("two friends");
        sum.times_long(weight.digits, weight.power)
    }
}

/// digits × 2^power as a double, by whole numbers: the nearest, of two equally near the even one, and the
/// smallest above 0 for what is not zero.
pub fn weight_double(digits: u32, power: i32) -> f64 {
    const SMALLEST: i64 = -1074;
    let (long, power) = (i64::from(32 - digits.leading_zeros()), i64::from(power));
    let digits = u64::from(digits);
    if digits == 0 {
        return 0.0;
    }
    if long + power > 1024 {
        return f64::INFINITY;
    }
    let bits = match power - SMALLEST {
        // No digit is lost; 53 digits from the first on, without the first.
        0.. if long + power > SMALLEST + 52 => {
            let exponent = (long + power - 1 + 1023) as u64;
            (exponent << 52) | ((digits << (53 - long)) & ((1 << 52) - 1))
        }
        up @ 0.. => digits << up,
        down @ -63.. => {
            let (kept, lost) = (digits >> -down, digits & ((1 << -down) - 1));
            let half = 1u64 << (-down - 1);
            kept + u64::from(lost > half || lost == half && kept % 2 == 1)
        }
        _ => 0,
    };
    f64::from_bits(bits.max(1))
}

/// Refusals of the free sum, and with lists of the constrained one and of the probability: "18 as before".
pub fn verdict(lent: &Lent, lists: Option<&Lists>) -> Verdict {
    let own_size = lists.is_some_and(|lists| lists.wrong_sizes(lent));
    lent.verdict(own_size, || vec![(18, lent.positions() == 0)])
}

/// Refusals of the probabilities of all occupants, into so many cells: one digit and one power for each
/// position and strand.
pub fn occupants_verdict(lent: &Lent, digits: usize, powers: usize) -> Verdict {
    let cells = lent.positions() * lent.strands();
    lent.verdict(digits != cells || powers != cells, || {
        vec![(18, lent.positions() == 0)]
    })
}

/// The exact sum over the states that have each occupant at each position, row first.
pub fn occupants(lent: &Lent, weights: &Energies) -> Vec<Exact> {
    let alone = |position: usize, occupant: usize| {
        let mut lengths = vec![0; lent.positions()];
        lengths[position] = 1;
        Lists {
            numbers: vec![occupant as u8],
            starts: vec![0; lent.positions()],
            lengths,
        }
    };
    let cells = 0..lent.positions() * lent.strands();
    let places = cells.map(|cell| (cell / lent.strands(), cell % lent.strands()));
    places
        .map(|(position, occupant)| sum(lent, weights, Some(&alone(position, occupant))))
        .collect()
}

#[cfg(test)]
mod tests {
    use super::*;
    use crate::judge::design::tests::bench;
    use crate::random::Random;

    fn double(x: Exponential) -> f64 {
        x.digits as f64 * (x.power as f64).exp2()
    }

    #[test]
    fn exponentials_are_as_the_machine_has_them() {
        assert_eq!(
            ln_2() >> 47,
            (std::f64::consts::LN_2 * 2f64.powi(53)) as i128
        );
        for x in [0.0, -0.0] {
            let one = exponential(x);
            assert_eq!((one.digits, one.power), (1 << 62, -62));
        }
        let random = &mut Random::new(7);
        for _ in 0..10_000 {
            let x = (random.bits() as f64 / 2f64.powi(64) - 0.5) * 1000.0;
            let near = double(exponential(x)) / x.exp();
            assert!((near - 1.0).abs() < 2f64.powi(-50), "{x} {near}");
        }
        for x in [5e-324, 1e-40, 2f64.powi(-60), -2f64.powi(-30)] {
            assert!(
                (double(exponential(x)) - x.exp()).abs() < 2f64.powi(-52),
                "{x}"
            );
        }
    }

    /// e^(a + b) = e^a e^b, for arguments whose sum is a double.
    #[test]
    fn exponentials_of_sums_are_products() {
        let random = &mut Random::new(8);
        for _ in 0..1000 {
            let mut whole = || random.below(80_001) as f64 / 2.0 - 20_000.0;
            let (a, b) = (whole(), whole());
            let (left, right) = (exponential(a), exponential(b));
            let product = left.exact().times_long(right.digits, right.power);
            let parting = product.parting(&exponential(a + b).exact());
            assert!(parting < 2f64.powi(-48), "{a} {b} {parting:e}");
        }
    }

    #[test]
    fn weights_are_as_the_machine_has_them() {
        let random = &mut Random::new(9);
        for _ in 0..20_000 {
            let digits = (random.bits() >> random.within(32..=63)) as u32;
            let power = random.below(2_300) as i32 - 1_150;
            // Both factors are doubles, so the product rounds once.
            let low = power.clamp(-1_000, 900);
            let exact = f64::from(digits) * 2f64.powi(low) * 2f64.powi(power - low);
            let least = if digits == 0 { 0.0 } else { 5e-324 };
            assert_eq!(weight_double(digits, power), exact.max(least));
        }
        assert_eq!(weight_double(1, i32::MIN), 5e-324);
        assert_eq!(weight_double(0, i32::MAX), 0.0);
        assert_eq!(weight_double(1, i32::MAX), f64::INFINITY);
    }

    #[test]
    fn ends_are_taken_and_nothing_past_them() {
        let number = |x| exponential_verdict(x).number();
        for x in [0.0, -0.0, 80_000.0, -80_000.0, 5e-324] {
            assert_eq!(number(x), 0);
        }
        let past = f64::from_bits(80_000f64.to_bits() + 1);
        for x in [past, -past, f64::NAN, f64::INFINITY, f64::NEG_INFINITY] {
            assert_eq!(number(x), 9);
        }
    }

    /// 1 + a + b + a b c, of the bench table's two positions.
    #[test]
    fn the_sum_of_the_bench_table() {
        let mut lent = bench(&[1, 2], &[-1.0, -2.0]);
        lent.potentials[2] = -3.5;
        let weight = |argument: f64| argument.exp();
        let a = weight(-(lent.scaffold_bond(0, 1) - lent.potentials[1]));
        let b = weight(-(lent.scaffold_bond(1, 2) - lent.potentials[2]));
        let c = weight(-lent.strand_bond(1, 2));
        let all = sum(&lent, &Energies::of(&lent), None);
        let expected = 1.0 + a + b + a * b * c;
        let digits = (expected.to_bits() & ((1 << 52) - 1)) | 1 << 52;
        let power = (expected.to_bits() >> 52) as i64 - 1075;
        assert!(all.parting(&Exact::one().times_long(digits, power)) < 1e-12);
        assert_eq!(verdict(&lent, None), Verdict::Admitted);
    }

    /// Each state has one occupant at a position: the sums of a row are the sum over all states.
    #[test]
    fn a_row_of_occupants_is_the_whole() {
        let mut lent = bench(&[1, 2, 1], &[-1.0, -2.0]);
        lent.potentials[2] = -3.5;
        let weights = Energies::of(&lent);
        let cells = occupants(&lent, &weights);
        assert_eq!(cells.len(), 9);
        for row in cells.chunks(3) {
            let whole = row.iter().fold(Exact::default(), |sum, x| sum.plus(x));
            assert_eq!(whole, sum(&lent, &weights, None));
        }
        let stranger = [2, 4, 8].map(|cell| cells[cell].is_zero());
        assert_eq!(stranger, [true; 3]);
        assert_eq!(occupants_verdict(&lent, 9, 9), Verdict::Admitted);
        assert_eq!(occupants_verdict(&lent, 9, 8).number(), 1);
    }
}
