//! Stand-in for `approx`: the traits that units.rs implements. Nothing here is ever run.

pub trait AbsDiffEq<Rhs: ?Sized = Self>: PartialEq<Rhs> {
    type Epsilon;
    fn default_epsilon() -> Self::Epsilon;
    fn abs_diff_eq(&self, other: &Rhs, epsilon: Self::Epsilon) -> bool;
}

pub trait RelativeEq<Rhs: ?Sized = Self>: AbsDiffEq<Rhs> {
    fn default_max_relative() -> Self::Epsilon;
    fn relative_eq(&self, other: &Rhs, epsilon: Self::Epsilon, max_relative: Self::Epsilon)
        -> bool;
}

pub trait UlpsEq<Rhs: ?Sized = Self>: AbsDiffEq<Rhs> {
    fn default_max_ulps() -> u32;
    fn ulps_eq(&self, other: &Rhs, epsilon: Self::Epsilon, max_ulps: u32) -> bool;
}

impl AbsDiffEq for f64 {
    type Epsilon = f64;
    fn default_epsilon() -> f64 {
        unimplemented!("approx shim")
    }
    fn abs_diff_eq(&self, _: &f64, _: f64) -> bool {
        unimplemented!("approx shim")
    }
}

impl RelativeEq for f64 {
    fn default_max_relative() -> f64 {
        unimplemented!("approx shim")
    }
    fn relative_eq(&self, _: &f64, _: f64, _: f64) -> bool {
        unimplemented!("approx shim")
    }
}

impl UlpsEq for f64 {
    fn default_max_ulps() -> u32 {
        unimplemented!("approx shim")
    }
    fn ulps_eq(&self, _: &f64, _: f64, _: u32) -> bool {
        unimplemented!("approx shim")
    }
}
