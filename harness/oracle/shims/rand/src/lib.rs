//! Stand-in for `rand`: the names that units.rs and sdc1d.rs use. Drawing a number belongs to
//! simulation and is never run.

pub mod distr {
    pub mod weighted {
        #[allow(clippy::result_unit_err)]
        pub trait Weight: Clone {
            const ZERO: Self;
            fn checked_add_assign(&mut self, v: &Self) -> Result<(), ()>;
        }
        impl Weight for f64 {
            const ZERO: f64 = 0.0;
            fn checked_add_assign(&mut self, v: &f64) -> Result<(), ()> {
                *self += v;
                Ok(())
            }
        }
    }
}

pub struct ThreadRng(());

pub fn rng() -> ThreadRng {
    ThreadRng(())
}

pub trait Rng {
    fn random<T>(&mut self) -> T {
        unimplemented!("rand shim")
    }
}

impl Rng for ThreadRng {}
pub fn random_range(_: std::ops::Range<f64>) -> f64 {
    unimplemented!("rand shim")
}
