//! `from_params`: 61 strands of 31 base names, 128 positions, 1,024 energy entries, half of them
//! sequences of 16 bases.
//!
//! The Rust takes its parameters by value, strings and hash map, so making them is part of its time;
//! a remark tells how much. It also draws colours, names strands and finds friends; it checks no
//! number and no pair. The port is lent slices and checks all of them.

use crate::measure::{measure, Row};
use compare::bases::strand;
use compare::judge::parameters::{Lent, CELLS};
use compare::parameters::{Energy, Key, Name, Parameters};
use compare::random::Random;
use mujplesten as mj;
use rgrow::models::sdc1d::{GsOrSeq, RefOrPair, SDCParams, SDCStrand, SingleOrMultiScaffold, SDC};
use rgrow::units::{KcalPerMol, KcalPerMolKelvin};
use std::hint::black_box;
use std::rc::Rc;

const STRANDS: usize = 61;
const BASES: usize = 31;
const POSITIONS: usize = 128;
const ENTRIES: usize = 1024;

const MADE: &str = "nothing; the Rust's parameters are made anew for each call, timed with it";

pub fn rows() -> Vec<Row> {
    let set = Rc::new(full());
    check(&set);
    vec![row(&set, true)]
}

pub fn remarks() -> Vec<String> {
    let made = measure(&mut row(&Rc::new(full()), false)).least.rust;
    vec![format!("Rust, making those parameters: {made:.1} ns")]
}

struct Set {
    parameters: Parameters,
    lent: Lent,
}

fn name(number: usize) -> Name {
    let star = if number % 2 == 0 { "" } else { "*" };
    format!("g{}{star}", number / 2).into_bytes()
}

fn full() -> Set {
    let random = &mut Random::new(1024);
    let side = |random: &mut Random| Some(name(random.below(2 * BASES)));
    let mut parameters = Parameters {
        penalty: (0.5, -0.001),
        quencher: 1,
        reporter: 2,
        ..Parameters::default()
    };
    // The first strands use every base.
    for number in 0..STRANDS {
        let bottom = Some(name(2 * (number % BASES)));
        parameters
            .strands
            .push([side(random), bottom, side(random)]);
    }
    parameters.scaffold = (0..POSITIONS).map(|_| side(random)).collect();
    let pairs = (0..2 * BASES).flat_map(|x| (0..=x).map(move |y| (x, y)));
    for (index, (x, y)) in pairs.take(ENTRIES).enumerate() {
        let energy = match index % 2 {
            0 => Energy::Sequence(strand(random, 16)),
            _ => Energy::Given(random.double(-20.0, 0.0), random.double(-0.4, 0.0)),
        };
        parameters
            .entries
            .push((Key::Pair(name(x), name(y)), energy));
    }
    let lent = parameters.laid_out(random);
    Set { parameters, lent }
}

fn text(name: &Name) -> String {
    String::from_utf8(name.clone()).expect("names are ASCII")
}

/// The Rust's parameters.
fn made(set: &Parameters) -> SDCParams {
    let side = |name: &Option<Name>| name.as_ref().map(text);
    let strands = set.strands.iter().enumerate();
    let entry = |(key, energy): &(Key, Energy)| {
        let key = match key {
            Key::One(name) => RefOrPair::Ref(text(name)),
            Key::Pair(x, y) => RefOrPair::Pair(text(x), text(y)),
        };
        let energy = match energy {
            Energy::Given(dg, ds) => GsOrSeq::GS((*dg, *ds)),
            Energy::Sequence(s) => GsOrSeq::Seq(text(s)),
        };
        (key, energy)
    };
    SDCParams {
        strands: strands
            .map(|(index, [west, bottom, east])| SDCStrand {
                name: Some(format!("s{}", index + 1)),
                color: None,
                concentration: 1e-7,
                btm_glue: side(bottom),
                left_glue: side(west),
                right_glue: side(east),
            })
            .collect(),
        quencher_name: Some(format!("s{}", set.quencher)),
        quencher_concentration: 1e-7,
        reporter_name: Some(format!("s{}", set.reporter)),
        fluorophore_concentration: 1e-7,
        scaffold: SingleOrMultiScaffold::Single(set.scaffold.iter().map(side).collect()),
        scaffold_concentration: 1e-7,
        glue_dg_s: set.entries.iter().map(entry).collect(),
        k_f: 1e6,
        k_n: 1e5,
        k_c: 1e4,
        temperature: 37.0,
        junction_penalty_dg: Some(KcalPerMol::new(set.penalty.0)),
        junction_penalty_ds: Some(KcalPerMolKelvin::new(set.penalty.1)),
    }
}

/// What the port writes.
struct Slices {
    strand_glues: Vec<u8>,
    scaffold_glues: Vec<u8>,
    dg: Vec<f64>,
    ds: Vec<f64>,
}

impl Slices {
    fn new() -> Self {
        Slices {
            strand_glues: vec![0; 3 * (STRANDS + 3)],
            scaffold_glues: vec![0; POSITIONS],
            dg: vec![0.0; CELLS],
            ds: vec![0.0; CELLS],
        }
    }

    fn build(&mut self, lent: &Lent) -> u32 {
        mj::params(
            lent_to_port(lent),
            mj::Built {
                strand_glues: &mut self.strand_glues,
                scaffold_glues: &mut self.scaffold_glues,
                dg: &mut self.dg,
                ds: &mut self.ds,
            },
        )
    }
}

fn lent_to_port(lent: &Lent) -> mj::Params<'_> {
    mj::Params {
        build: lent.build,
        text: &lent.text,
        users: lent.users,
        strands: &lent.strands,
        scaffold: &lent.scaffold,
        entries: &lent.entries,
        energies: &lent.energies,
        penalty_dg: lent.penalty_dg,
        penalty_ds: lent.penalty_ds,
        quencher: lent.quencher,
        reporter: lent.reporter,
    }
}

/// Times of different answers would say nothing.
fn check(set: &Set) {
    assert_eq!(set.parameters.entries.len(), ENTRIES);
    let mut slices = Slices::new();
    assert_eq!(slices.build(&set.lent), 0);
    let rust = SDC::from_params(made(&set.parameters));
    let (glues, dg, ds) = rust.p_tables();
    assert_eq!(glues, 2 * BASES + 1);
    for cell in 0..glues * glues {
        let here = cell / glues * 64 + cell % glues;
        assert_eq!(slices.dg[here].to_bits(), dg[cell].to_bits());
        assert_eq!(slices.ds[here].to_bits(), ds[cell].to_bits());
    }
}

/// Either the whole of the Rust's side, or the making of its parameters alone.
fn row(set: &Rc<Set>, whole: bool) -> Row {
    let (rust_side, port_side) = (set.clone(), set.clone());
    let mut slices = Slices::new();
    Row {
        label: format!("{STRANDS} strands, {POSITIONS} positions, {ENTRIES} entries"),
        cleared: MADE,
        inputs: 1,
        rust: Box::new(move || {
            let made = black_box(made(&rust_side.parameters));
            if whole {
                black_box(SDC::from_params(made));
            }
        }),
        port: Box::new(move || {
            black_box(slices.build(black_box(&port_side.lent)));
        }),
    }
}
