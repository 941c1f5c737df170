//! Sums over states, the port's alone: the Rust's own need astro_float, which is not at hand. Each
//! stands beside the port's search on the same design.

use crate::measure::{measure, Row, Times};
use crate::searches::{search_of_port, settling};
use compare::random::Random;
use mujplesten as mj;
use std::hint::black_box;
use std::rc::Rc;

/// Positions of 61 friends each: the time for a position is to be the same.
const LENGTHS: [usize; 4] = [16, 32, 64, 128];

/// The time of a pass over that of the search, and its time for a position.
pub fn remarks() -> Vec<String> {
    let mut remarks =
        vec!["port, free sum over 61 friends, ns for a position; over the search:".to_string()];
    for positions in LENGTHS {
        let Times {
            rust: search,
            port: pass,
        } = measure(&mut beside_the_search(positions)).least;
        let for_one = pass / positions as f64;
        remarks.push(format!(
            "{positions:44} {for_one:9.1} {:9.2}",
            pass / search
        ));
    }
    remarks
}

/// The exponential over the C library's, and a probability over the free sum of the same design over
/// lent weights. A probability is two passes and the exponentials of all weights.
pub fn remarks_on_energies() -> Vec<String> {
    let exponential = measure(&mut exponentials()).least;
    let mut remarks = vec![format!(
        "port, an exponential, ns; over the C library's {:>7.1} {:9.2}",
        exponential.port,
        exponential.ratio()
    )];
    remarks.push("port, a probability over 61 friends, us; over the free sum:".to_string());
    for positions in LENGTHS {
        let times = measure(&mut beside_the_sum(positions)).least;
        let (whole, ratio) = (times.port / 1000.0, times.ratio());
        remarks.push(format!("{positions:44} {whole:9.1} {ratio:9.2}"));
    }
    remarks
}

fn exponentials() -> Row {
    const INPUTS: usize = 256;
    let random = &mut Random::new(63);
    let drawn = (0..INPUTS).map(|_| random.double(-700.0, 700.0));
    let arguments: Rc<Vec<f64>> = Rc::new(drawn.collect());
    let beside = arguments.clone();
    Row {
        label: String::new(),
        cleared: "",
        inputs: INPUTS,
        rust: Box::new(move || {
            for x in beside.iter() {
                black_box(black_box(*x).exp());
            }
        }),
        port: Box::new(move || {
            for x in arguments.iter() {
                let (mut digits, mut power) = (0, 0);
                mj::exp(black_box(*x), &mut digits, &mut power);
                black_box((digits, power));
            }
        }),
    }
}

/// One pass over weights near 1, and a probability of the same positions; every other place has to be
/// occupied by one of two strands.
fn beside_the_sum(positions: usize) -> Row {
    let both = Rc::new(settling(positions, 61, 61));
    let lengths: Vec<usize> = (0..positions).map(|i| 2 * (i % 2)).collect();
    let starts = vec![0; positions];
    Row {
        label: String::new(),
        cleared: "",
        inputs: 1,
        rust: beside_the_search(positions).port,
        port: Box::new(move || {
            let lists = mj::Lists {
                numbers: &[1, 2],
                starts: &starts,
                lengths: &lengths,
            };
            let (mut place, mut digits, mut power) = (0, 0, 0);
            let lent = black_box(both.port());
            let number = mj::probability(lent, lists, &mut place, &mut digits, &mut power);
            assert_eq!(number, 0);
            black_box((digits, power));
        }),
    }
}

/// The search, and one pass over the same positions with weights near 1.
fn beside_the_search(positions: usize) -> Row {
    let both = Rc::new(settling(positions, 61, 61));
    let random = &mut Random::new(62);
    let strands = both.lent.strands();
    let mut drawn = |cells: usize| -> (Vec<u32>, Vec<i32>) {
        let one = |_| {
            let digits = (1 << 30) + random.below(1 << 30) as u32;
            (digits, random.below(61) as i32 - 60)
        };
        (0..cells).map(one).unzip()
    };
    let ((place_digits, place_powers), (pair_digits, pair_powers)) =
        (drawn(positions * strands), drawn(strands * strands));
    let design = both.clone();
    Row {
        label: String::new(),
        cleared: "",
        inputs: 1,
        rust: search_of_port(&both),
        port: Box::new(move || {
            let weights = mj::Weights {
                place_digits: &place_digits,
                place_powers: &place_powers,
                pair_digits: &pair_digits,
                pair_powers: &pair_powers,
            };
            let (mut place, mut digits, mut power) = (0, 0, 0);
            let lent = black_box(design.port());
            let number = mj::free_sum(lent, weights, &mut place, &mut digits, &mut power);
            assert_eq!(number, 0);
            black_box((digits, power));
        }),
    }
}
