//! Questions over tables that hang on no seed.

use super::lending::{ask_to_fill, Lending};
use super::MOST_BOND;
use crate::doubles::not_finite;
use crate::judge::design::{Lent, CELLS};
use crate::judge::tables::Tables;
use crate::kinds::Ask;

/// The worked case, each cell at the ends of its range, lengths, and faults that meet.
pub(super) fn all(ask: &mut Ask) {
    let (lent, tables) = with_nobody();
    Lending::new(lent, tables, Some(vec![0, 2])).ask_all(ask);
    ends(ask);
    lengths(ask);
    faults(ask);
}

/// RT 0.5, friends [1], [2], scaffold cells −1 and −1, strand cell (0, 2) −3, all else 0: the search
/// gives [0, 2], −2.0, and the state energy of [0, 2] is −0.5.
fn with_nobody() -> (Lent, Tables) {
    let mut lent = Lent {
        scaffold: vec![1, 2],
        marks: vec![0; 2],
        glues: vec![0, 0, 0, 0, 1, 0, 0, 2, 0],
        dg: vec![0.0; CELLS],
        ds: vec![0.0; CELLS],
        potentials: vec![0.0; 3],
        rt: 0.5,
        ..Lent::default()
    };
    (lent.dg[65], lent.dg[130]) = (-0.5, -2.0);
    let mut tables = Tables {
        strands: vec![0.0; 9],
        scaffold: vec![0.0; 6],
    };
    (tables.scaffold[1], tables.scaffold[5]) = (-1.0, -1.0);
    tables.strands[2] = -3.0;
    (lent, tables)
}

/// Each cell of both tables at an end of the range, and just past it; and no number.
fn ends(ask: &mut Ask) {
    let mut values = vec![MOST_BOND, -MOST_BOND];
    values.extend([MOST_BOND.next_up(), -MOST_BOND.next_up()]);
    values.extend(not_finite());
    for value in values {
        for cell in 0..15 {
            let (lent, mut tables) = with_nobody();
            match cell {
                ..9 => tables.strands[cell] = value,
                _ => tables.scaffold[cell - 9] = value,
            }
            Lending::new(lent, tables, None).ask_all(ask);
        }
    }
}

/// Tables that are one cell short or long, or lie the other way round; of the call that fills too.
fn lengths(ask: &mut Ask) {
    for (strands, scaffold) in [
        (9, 6),
        (8, 6),
        (10, 6),
        (9, 5),
        (9, 7),
        (0, 6),
        (9, 0),
        (6, 9),
        (4096, 6),
        (9, 128),
        (0, 0),
    ] {
        let (lent, mut tables) = with_nobody();
        ask_to_fill(&lent, strands, scaffold, ask);
        tables.strands.resize(strands, 0.0);
        tables.scaffold.resize(scaffold, 0.0);
        Lending::new(lent, tables, None).ask_all(ask);
    }
    let mut none = with_nobody().0;
    (none.scaffold, none.marks) = (vec![], vec![]);
    let own = none.filled();
    for scaffold in [0, 1] {
        ask_to_fill(&none, 9, scaffold, ask);
    }
    Lending::new(none, own, None).ask_all(ask);
}

/// One change of a design and tables beside it.
type Fault = fn(&mut Lent, &mut Tables);

/// Every two of these faults at once, of the calls over tables and of the one that fills them.
fn faults(ask: &mut Ask) {
    let faults: [Fault; 13] = [
        |_, _| (),
        |_, tables| tables.strands[4] = f64::NAN,
        |_, tables| tables.scaffold[0] = -MOST_BOND.next_up(),
        |_, tables| tables.strands.truncate(8),
        |_, tables| tables.scaffold.push(0.0),
        |lent, _| lent.dg[65] = 1025.0,
        |lent, _| lent.ds[4095] = f64::NAN,
        |lent, _| lent.glues[2] = 5,
        |lent, _| lent.rt = f64::NAN,
        |lent, _| lent.scaffold_excess = 1025.0,
        |lent, _| lent.potentials[1] = f64::INFINITY,
        |lent, _| lent.marks[0] = 2,
        |lent, _| lent.marks[0] = 1,
    ];
    for one in faults {
        for other in faults {
            let (mut lent, mut tables) = with_nobody();
            one(&mut lent, &mut tables);
            other(&mut lent, &mut tables);
            ask_to_fill(&lent, tables.strands.len(), tables.scaffold.len(), ask);
            for state in [vec![0, 2], vec![1, 1], vec![0]] {
                let (lent, tables) = (lent.clone(), tables.clone());
                Lending::new(lent, tables, Some(state)).ask_all(ask);
            }
        }
    }
    many(ask);
}

/// More than 1,048,576 states.
fn many(ask: &mut Ask) {
    for positions in [20, 21] {
        let mut lent = with_nobody().0;
        lent.scaffold = vec![1; positions];
        lent.marks = vec![0; positions];
        let mut tables = lent.filled();
        tables.strands[1] = -3.5;
        Lending::new(lent, tables, None).ask_all(ask);
    }
}
