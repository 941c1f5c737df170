//! Seeded random numbers: xoshiro256** with its state filled by splitmix64. The same seed gives
//! the same questions on every machine.

pub struct Random {
    state: [u64; 4],
}

fn splitmix64(state: &mut u64) -> u64 {
    *state = state.wrapping_add(0x9e37_79b9_7f4a_7c15);
    let mut z = *state;
    z = (z ^ (z >> 30)).wrapping_mul(0xbf58_476d_1ce4_e5b9);
    z = (z ^ (z >> 27)).wrapping_mul(0x94d0_49bb_1331_11eb);
    z ^ (z >> 31)
}

impl Random {
    pub fn new(seed: u64) -> Self {
        let mut filler = seed;
        Random {
            state: std::array::from_fn(|_| splitmix64(&mut filler)),
        }
    }

    /// A stream of its own for each name and round, so that a new kind of line leaves the
    /// questions of the others as they are.
    pub fn stream(seed: u64, name: &str, round: u64) -> Self {
        let mut mixed = seed;
        for byte in name.bytes() {
            mixed = splitmix64(&mut mixed) ^ u64::from(byte);
        }
        Random::new(splitmix64(&mut mixed) ^ round)
    }

    pub fn bits(&mut self) -> u64 {
        let s = &mut self.state;
        let drawn = s[1].wrapping_mul(5).rotate_left(7).wrapping_mul(9);
        let shifted = s[1] << 17;
        s[2] ^= s[0];
        s[3] ^= s[1];
        s[1] ^= s[2];
        s[0] ^= s[3];
        s[2] ^= shifted;
        s[3] = s[3].rotate_left(45);
        drawn
    }

    /// A number below `limit`. The high word of the product favours none noticeably.
    pub fn below(&mut self, limit: usize) -> usize {
        assert!(limit > 0, "there is no number below 0");
        ((u128::from(self.bits()) * limit as u128) >> 64) as usize
    }

    pub fn within(&mut self, range: std::ops::RangeInclusive<usize>) -> usize {
        range.start() + self.below(range.end() - range.start() + 1)
    }

    /// True once in `times`.
    pub fn once_in(&mut self, times: usize) -> bool {
        self.below(times) == 0
    }

    pub fn pick<T: Copy>(&mut self, items: &[T]) -> T {
        items[self.below(items.len())]
    }

    /// A double from `low` up to `high`.
    pub fn double(&mut self, low: f64, high: f64) -> f64 {
        let unit = (self.bits() >> 11) as f64 / (1u64 << 53) as f64;
        low + (high - low) * unit
    }
}

#[cfg(test)]
mod tests {
    use super::*;

    #[test]
    fn splitmix64_gives_its_published_numbers() {
        let mut state = 1234567;
        let drawn: Vec<u64> = (0..3).map(|_| splitmix64(&mut state)).collect();
        assert_eq!(
            drawn,
            [
                6457827717110365317,
                3203168211198807973,
                9817491932198370423
            ]
        );
    }

    #[test]
    fn xoshiro256_gives_its_published_numbers() {
        let mut random = Random {
            state: [1, 2, 3, 4],
        };
        let drawn: Vec<u64> = (0..4).map(|_| random.bits()).collect();
        assert_eq!(drawn, [11520, 0, 1509978240, 1215971899390074240]);
    }

    #[test]
    fn a_range_is_reached_whole_and_never_left() {
        let mut random = Random::new(1);
        let mut met = [0; 5];
        for _ in 0..1000 {
            met[random.within(3..=7) - 3] += 1;
        }
        assert!(met.iter().all(|count| *count > 100), "{met:?}");
    }

    #[test]
    fn streams_differ_by_seed_name_and_round() {
        let first = |seed, name, round| Random::stream(seed, name, round).bits();
        let drawn = [
            first(1, "seq", 0),
            first(2, "seq", 0),
            first(1, "pair", 0),
            first(1, "seq", 1),
        ];
        for (index, x) in drawn.iter().enumerate() {
            assert!(!drawn[..index].contains(x));
        }
        assert_eq!(first(1, "seq", 0), drawn[0]);
    }
}
