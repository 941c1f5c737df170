//! The logarithm beside the C library's, which the Rust's is; and the search over a design with
//! concentrations beside that over the same design with potentials.

use crate::both::Both;
use crate::measure::{measure, Row};
use crate::searches::{beside, search_of_port};
use compare::logarithms::in_range;
use compare::random::Random;
use mujplesten as mj;
use std::hint::black_box;
use std::rc::Rc;

/// Different arguments that a run goes through in turn.
const ARGUMENTS: usize = 256;

pub fn rows() -> Vec<Row> {
    let random = &mut Random::new(60);
    let any: Vec<f64> = (0..ARGUMENTS).map(|_| in_range(random)).collect();
    let molar: Vec<f64> = (0..ARGUMENTS).map(|_| random.double(1e-9, 1e-5)).collect();
    vec![
        row("ln, 2^-60 to 2^10", any),
        row("ln, nanomolar to micromolar", molar),
    ]
}

fn row(label: &str, arguments: Vec<f64>) -> Row {
    let of_port = arguments.clone();
    Row {
        label: label.to_string(),
        cleared: "nothing; the logarithm beside that of the C library",
        inputs: ARGUMENTS,
        rust: Box::new(move || {
            for x in &arguments {
                black_box(black_box(*x).ln());
            }
        }),
        port: Box::new(move || {
            for x in &of_port {
                let mut logarithm = 0.0;
                black_box((mj::ln(black_box(*x), &mut logarithm), logarithm));
            }
        }),
    }
}

pub fn remarks() -> Vec<String> {
    let mut remarks = vec![
        "port, search with concentrations over search with potentials, and ns of both:".to_string(),
    ];
    for (label, both) in beside() {
        let mut row = Row {
            label,
            cleared: "",
            inputs: 1,
            rust: search_of_port(&both),
            port: search_by_concentrations(&both),
        };
        let least = measure(&mut row).least;
        let (label, ratio) = (row.label, least.ratio());
        remarks.push(format!(
            "{label:44} {ratio:9.2} {:9.1} {:9.1}",
            least.port, least.rust
        ));
    }
    remarks
}

fn search_by_concentrations(both: &Rc<Both>) -> Box<dyn FnMut()> {
    let both = both.clone();
    let potentials = both.lent.potentials.iter();
    let concentrations: Vec<f64> = potentials.map(|potential| potential.exp()).collect();
    let mut configuration = vec![0; both.lent.positions()];
    Box::new(move || {
        let (mut place, mut energy) = (0, 0.0);
        let design = black_box(mj::Design {
            amounts: &concentrations,
            given: 1,
            ..both.port()
        });
        let number = mj::search(design, &mut configuration, &mut place, &mut energy);
        // Times of refusals would say nothing.
        assert_eq!(number, 0);
        black_box(energy);
    })
}
