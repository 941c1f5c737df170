//! Stand-in for `num_traits`: `Zero`, as its own crate defines it.

pub mod identities {
    pub trait Zero: Sized + std::ops::Add<Self, Output = Self> {
        fn zero() -> Self;
        fn set_zero(&mut self) {
            *self = Zero::zero();
        }
        fn is_zero(&self) -> bool;
    }
    impl Zero for f64 {
        fn zero() -> f64 {
            0.0
        }
        fn is_zero(&self) -> bool {
            *self == 0.0
        }
    }
    impl Zero for usize {
        fn zero() -> usize {
            0
        }
        fn is_zero(&self) -> bool {
            *self == 0
        }
    }
}

pub use identities::Zero;
