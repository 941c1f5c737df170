//! Lines about temperatures, and the switch of the logarithm.

use crate::words::kelvin;
use protocol::{bits, double, expect_words, joined, Complaint, Words};
use rgrow::models::sdc1d::probe;
use rgrow::units::{self, Kelvin};
use rgrow::utils;

pub fn set_mode(words: Words) -> Result<(), Complaint> {
    expect_words(words, &[1])?;
    match words[1] {
        "id" => lnswitch::set_identity(true),
        "ln" => lnswitch::set_identity(false),
        _ => return Err("mode id or ln".to_string()),
    }
    Ok(())
}

/// Runs with libm's logarithm and leaves the switch as it was, a panic included.
pub fn with_libm<T>(run: impl FnOnce() -> T) -> T {
    struct Restore(bool);
    impl Drop for Restore {
        fn drop(&mut self) {
            lnswitch::set_identity(self.0);
        }
    }
    let _restore = Restore(lnswitch::is_identity());
    lnswitch::set_identity(false);
    run()
}

pub fn answer(words: Words) -> Result<String, Complaint> {
    match words[0] {
        "ambient" => {
            expect_words(words, &[2])?;
            Ok(ambient(kelvin(words[1], words[2])?))
        }
        "findT" => {
            expect_words(words, &[1])?;
            Ok(kelvins_with_rt(double(words[1])?))
        }
        "findc" => {
            expect_words(words, &[1])?;
            let potential = double(words[1])?;
            Ok(with_libm(|| concentration_with_potential(potential)))
        }
        "consts" => Ok(joined(
            [
                units::probe::r_val(),
                utils::probe::r(),
                probe::r(),
                utils::probe::t37c(),
            ]
            .map(bits),
            " ",
        )),
        other => Err(format!("no such line {other}")),
    }
}

/// T, RT under a bond, rtval, strand excess, scaffold excess.
pub fn ambient(t: Kelvin) -> String {
    let figures = [
        t.0,
        units::probe::rt_under_a_bond(t),
        probe::rtval(t),
        probe::strand_excess(t),
        probe::scaffold_excess(t),
    ];
    joined(figures.map(bits), " ")
}

/// Division and product each err by half a unit in the last place, so a kelvin with this RT, if
/// there is one, is within a few steps of the quotient.
fn kelvins_with_rt(rt: f64) -> String {
    let mut t = rt / units::probe::r_val();
    for _ in 0..8 {
        t = t.next_down();
    }
    let mut found = vec![];
    for _ in 0..17 {
        let both = [
            units::probe::rt_under_a_bond(Kelvin(t)),
            probe::rtval(Kelvin(t)),
        ];
        if both.iter().all(|x| x.to_bits() == rt.to_bits()) {
            found.push(bits(t));
        }
        t = t.next_up();
    }
    joined(found, " ")
}

fn concentration_with_potential(potential: f64) -> String {
    let mut concentration = potential.exp();
    for _ in 0..64 {
        concentration = concentration.next_down();
    }
    for _ in 0..129 {
        if concentration.ln().to_bits() == potential.to_bits() {
            return bits(concentration);
        }
        concentration = concentration.next_up();
    }
    "-".to_string()
}
