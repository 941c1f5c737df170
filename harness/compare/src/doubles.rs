//! Doubles for the generators: the ends of a range, what lies just beyond, and the odd ones.

use crate::random::Random;

/// Neither ordinary nor in any range: infinities and NaNs of several patterns, both signs.
pub fn not_finite() -> Vec<f64> {
    let patterns: [u64; 6] = [
        0x7ff0_0000_0000_0000,
        0x7ff0_0000_0000_0001,
        0x7ff7_ffff_ffff_ffff,
        0x7ff8_0000_0000_0000,
        0x7ff8_0000_0000_0001,
        0x7fff_ffff_ffff_ffff,
    ];
    let sign = 1 << 63;
    patterns
        .iter()
        .flat_map(|bits| [f64::from_bits(*bits), f64::from_bits(bits | sign)])
        .collect()
}

/// Zeros, subnormals, the smallest and largest doubles, both signs.
pub fn extreme() -> Vec<f64> {
    let sizes = [
        0.0,
        5e-324,
        f64::MIN_POSITIVE / 2.0,
        f64::MIN_POSITIVE.next_down(),
        f64::MIN_POSITIVE,
        f64::EPSILON,
        1.0,
        f64::MAX,
    ];
    sizes.iter().flat_map(|x| [*x, -*x]).collect()
}

/// A number with a few doubles on either side.
pub fn around(x: f64) -> Vec<f64> {
    let (mut up, mut down) = (x, x);
    let mut all = vec![x];
    for _ in 0..3 {
        up = up.next_up();
        down = down.next_down();
        all.extend([up, down]);
    }
    all
}

/// Of either sign and of any size up to 2¹², each power of two as likely as the next.
pub fn of_any_size(random: &mut Random) -> f64 {
    let fraction = random.bits() >> 12;
    let exponent = random.within(0..=1023 + 11) as u64;
    let sign = random.bits() & (1 << 63);
    f64::from_bits(sign | (exponent << 52) | fraction)
}

#[cfg(test)]
mod tests {
    use super::*;

    #[test]
    fn odd_doubles_are_what_they_are_said_to_be() {
        assert!(not_finite().iter().all(|x| !x.is_finite()));
        assert_eq!(not_finite().iter().filter(|x| x.is_nan()).count(), 10);
        assert!(extreme().iter().all(|x| x.is_finite()));
        assert!(extreme().iter().any(|x| x.is_subnormal()));
        assert!(extreme().iter().any(|x| *x == 0.0 && x.is_sign_negative()));
        let near = around(1024.0);
        assert!(near.contains(&1024.0f64.next_up()) && near.contains(&1024.0f64.next_down()));
    }

    #[test]
    fn sizes_run_from_subnormals_to_beyond_the_excess() {
        let mut random = Random::new(5);
        let drawn: Vec<f64> = (0..20000).map(|_| of_any_size(&mut random)).collect();
        assert!(drawn.iter().all(|x| x.abs() < 4096.0));
        assert!(drawn.iter().any(|x| x.abs() > 1024.0));
        assert!(drawn.iter().any(|x| x.is_subnormal()));
        assert!(drawn.iter().any(|x| *x < 0.0) && drawn.iter().any(|x| *x > 0.0));
    }
}
