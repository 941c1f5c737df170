//! Document 01's range of the ambient helper.

use super::{out_of_range, Verdict};

pub fn ambient(kelvin: f64) -> Verdict {
    Verdict::lowest(&[(9, out_of_range(kelvin, 200.0, 500.0))])
}

#[cfg(test)]
mod tests {
    use super::*;

    #[test]
    fn kelvins_from_200_to_500_are_admitted() {
        for kelvin in [200.0, 310.15, 500.0] {
            assert_eq!(ambient(kelvin), Verdict::Admitted);
        }
        let outside = [
            200.0f64.next_down(),
            500.0f64.next_up(),
            0.0,
            -310.15,
            f64::NAN,
            f64::INFINITY,
            f64::NEG_INFINITY,
        ];
        for kelvin in outside {
            assert_eq!(ambient(kelvin).number(), 9, "{kelvin}");
        }
    }
}
