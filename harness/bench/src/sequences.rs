//! One and two sequences of 16 and of 256 bases.

use crate::measure::Row;
use compare::bases::{beside, strand};
use compare::judge::{sequences, Verdict};
use compare::random::Random;
use mujplesten as mj;
use rgrow::utils;
use std::hint::black_box;
use std::rc::Rc;

/// Different inputs that a run goes through in turn: one input again and again would be learnt by
/// the processor's branch prediction.
const INPUTS: usize = 256;

/// One place in so many is a mismatch.
const ONE_MISMATCH_IN: usize = 16;

const CLEARED: &str = "nothing, since neither side keeps anything between calls";

type Two = (String, String);

pub fn rows() -> Vec<Row> {
    let mut random = Random::new(16);
    let mut rows = vec![];
    for length in [16, 256] {
        let ones: Vec<String> = (0..INPUTS).map(|_| one(&mut random, length)).collect();
        ones.iter().for_each(check_one);
        rows.push(row(
            format!("one sequence of {length}"),
            ones,
            |s| black_box(utils::string_dna_dg_ds(s)),
            |s| {
                let (mut dg, mut ds) = (0.0, 0.0);
                black_box((mj::sequence(s.as_bytes(), &mut dg, &mut ds), dg, ds))
            },
        ));
        let twos: Vec<Two> = (0..INPUTS).map(|_| two(&mut random, length)).collect();
        twos.iter().for_each(check_two);
        rows.push(row(
            format!("two sequences of {length}"),
            twos,
            |(a, b)| black_box(utils::sequence_pair_str_dg_ds(a, b)),
            |(a, b)| {
                let (mut dg, mut ds) = (0.0, 0.0);
                let number = mj::pair(a.as_bytes(), b.as_bytes(), &mut dg, &mut ds);
                black_box((number, dg, ds))
            },
        ));
    }
    rows
}

/// One call of the Rust, which answers dG and dS, and one of the port, which answers the reply too.
fn row<T: 'static, R, P>(
    label: String,
    inputs: Vec<T>,
    rust: impl Fn(&T) -> R + 'static,
    port: impl Fn(&T) -> P + 'static,
) -> Row {
    let inputs = Rc::new(inputs);
    Row {
        label,
        cleared: CLEARED,
        inputs: inputs.len(),
        rust: over_all(&inputs, rust),
        port: over_all(&inputs, port),
    }
}

fn over_all<T: 'static, R>(
    inputs: &Rc<Vec<T>>,
    call: impl Fn(&T) -> R + 'static,
) -> Box<dyn FnMut()> {
    let inputs = inputs.clone();
    Box::new(move || {
        for input in inputs.iter() {
            call(black_box(input));
        }
    })
}

fn text(letters: Vec<u8>) -> String {
    String::from_utf8(letters).expect("letters are ASCII")
}

fn one(random: &mut Random, length: usize) -> String {
    text(strand(random, length))
}

fn two(random: &mut Random, length: usize) -> Two {
    loop {
        let pairs: Vec<bool> = (0..length)
            .map(|_| !random.once_in(ONE_MISMATCH_IN))
            .collect();
        let a = strand(random, length);
        let b = beside(random, &a, &pairs);
        if sequences::pair(&a, &b) == Verdict::Admitted {
            return (text(a), text(b));
        }
    }
}

/// Times of different answers would say nothing.
fn check_one(s: &String) {
    let (dg, ds) = utils::string_dna_dg_ds(s);
    assert_eq!(mj::sequence_dg(s.as_bytes()), f64::from(dg).to_bits());
    assert_eq!(mj::sequence_ds(s.as_bytes()), f64::from(ds).to_bits());
}

fn check_two((a, b): &Two) {
    let (dg, ds) = utils::sequence_pair_str_dg_ds(a, b);
    let (a, b) = (a.as_bytes(), b.as_bytes());
    assert_eq!(mj::pair_dg(a, b), f64::from(dg).to_bits());
    assert_eq!(mj::pair_ds(a, b), f64::from(ds).to_bits());
}
