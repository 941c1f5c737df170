//! The bench table, the documents' worked places, and which number is told.

use super::*;
use crate::judge::search::Reading;

/// Positions with these scaffold glues; strand k has the bottom glue k, dG[k][k] is given and
/// every potential is −1; RT 0.5.
pub(crate) fn bench(scaffold: &[u8], dg: &[f64]) -> Lent {
    let mut lent = Lent {
        scaffold: scaffold.to_vec(),
        marks: vec![0; scaffold.len()],
        glues: vec![0; 3],
        dg: vec![0.0; CELLS],
        ds: vec![0.0; CELLS],
        potentials: vec![f64::NAN],
        rt: 0.5,
        ..Lent::default()
    };
    for (index, energy) in dg.iter().enumerate() {
        let strand = index + 1;
        lent.glues.extend([0, strand as u8, 0]);
        lent.dg[strand * GLUES + strand] = *energy;
        lent.potentials.push(-1.0);
    }
    lent
}

#[test]
fn the_bench_lines_hold() {
    let lent = bench(&[1], &[-2.0]);
    assert_eq!(lent.energy_verdict(&[1]), Verdict::Admitted);
    assert_eq!(lent.state_energy(&[1]), -1.5);
    assert_eq!(bench(&[1], &[-0.5]).chain_energy(&[1]), 0.0);
    let two = bench(&[1, 2], &[-0.5, -2.0]);
    assert_eq!(two.chain_energy(&[0, 2]) * two.rt, -1.5);
    assert_eq!(two.state(0), [1, 2]);
    assert_eq!(two.state(2), [0, 2]);
    assert_eq!(two.state(3), [0, 0]);
    assert_eq!(two.state_verdict(3, 2), Verdict::Admitted);
    assert_eq!(two.state_verdict(4, 2).number(), 13);
    assert_eq!(bench(&[1; 20], &[-2.0]).count(), MOST_STATES);
    assert_eq!(bench(&[1; 20], &[-2.0]).count_verdict().number(), 0);
    assert_eq!(bench(&[1; 21], &[-2.0]).count_verdict().number(), 12);
    let empty = bench(&[], &[-2.0]);
    assert_eq!((empty.count(), empty.state(0)), (1, vec![]));
    assert_eq!(empty.state_verdict(1, 0).number(), 13);
}

fn refused(number: u32, place: Option<u64>) -> Verdict {
    Verdict::Refused { number, place }
}

#[test]
fn the_lowest_number_is_given() {
    let mut lent = bench(&[1; 21], &[-2.0, -2.0]);
    assert_eq!(lent.state_verdict(u64::MAX, 21).number(), 12);
    assert_eq!(lent.energy_verdict(&[2; 21]).number(), 11);
    assert_eq!(lent.energy_verdict(&[3; 21]).number(), 11);
    assert_eq!(lent.energy_verdict(&[1; 20]).number(), 1);
    lent.potentials[2] = f64::NAN;
    assert_eq!(lent.search_verdict(21), Verdict::Admitted);
    lent.potentials[1] = f64::NAN;
    assert_eq!(lent.search_verdict(21), refused(17, Some(1)));
    assert_eq!(lent.energy_verdict(&[2; 21]).number(), 11);
    lent.glues[2] = 1;
    assert_eq!(lent.energy_verdict(&[2; 21]).number(), 10);
    lent.ds[4095] = f64::NAN;
    assert_eq!(lent.energy_verdict(&[2; 21]), refused(9, Some(8191)));
    lent.scaffold[20] = 64;
    assert_eq!(lent.energy_verdict(&[2; 21]), refused(1, None));
}

/// The places that the documents have worked out.
#[test]
fn places_are_as_worked_out() {
    let place = |change: &dyn Fn(&mut Lent)| {
        let mut lent = bench(&[1, 7], &[-2.0; 7]);
        change(&mut lent);
        lent.count_verdict()
    };
    assert_eq!(place(&|d| d.dg[65] = f64::NAN), refused(9, Some(65)));
    assert_eq!(place(&|d| d.ds[0] = 9.0), refused(9, Some(4096)));
    assert_eq!(place(&|d| d.ds[4095] = -9.0), refused(9, Some(8191)));
    let both = |d: &mut Lent| (d.dg[4095], d.ds[0]) = (1025.0, 9.0);
    assert_eq!(place(&both), refused(9, Some(4095)));
    let rt = |d: &mut Lent| (d.rt, d.strand_excess) = (0.0, 2000.0);
    assert_eq!(place(&rt), refused(16, Some(0)));
    let excesses = |d: &mut Lent| (d.strand_excess, d.scaffold_excess) = (2000.0, f64::NAN);
    assert_eq!(place(&excesses), refused(16, Some(1)));
    assert_eq!(
        place(&|d| d.scaffold_excess = -1025.0),
        refused(16, Some(2))
    );
    let potentials = |d: &mut Lent| (d.potentials[3], d.potentials[7]) = (f64::NAN, 1025.0);
    assert_eq!(place(&potentials), refused(17, Some(7)));
}

/// Two faults at once: an ambient or a potential gives way to each lower number.
#[test]
fn an_ambient_or_a_potential_comes_last() {
    let unfit: [(&dyn Fn(&mut Lent), Verdict); 2] = [
        (&|d| d.rt = f64::NAN, refused(16, Some(0))),
        (&|d| d.potentials[1] = f64::NAN, refused(17, Some(1))),
    ];
    for (fault, alone) in unfit {
        let mut lent = bench(&[1, 2], &[-0.5, -2.0]);
        fault(&mut lent);
        assert_eq!(lent.energy_verdict(&[1, 2]), alone);
        assert_eq!(lent.energy_verdict(&[2, 2]), refused(11, None));
        assert_eq!(lent.state_verdict(0, 2), alone);
        assert_eq!(lent.state_verdict(4, 2), refused(13, None));
        let mut many = bench(&[1; 21], &[-2.0]);
        fault(&mut many);
        assert_eq!(many.count_verdict(), refused(12, None));
        assert_eq!(many.state_verdict(0, 21), refused(12, None));
        assert_eq!(many.search_verdict(21), alone);
        let mut null = lent.clone();
        null.dg[7] = 1.0;
        assert_eq!(null.count_verdict(), refused(10, None));
        lent.ds[7] = 9.0;
        assert_eq!(lent.energy_verdict(&[2, 2]), refused(9, Some(4103)));
    }
    let mut both = bench(&[1], &[-2.0]);
    (both.scaffold_excess, both.potentials[1]) = (1025.0, f64::NAN);
    assert_eq!(both.count_verdict(), refused(16, Some(2)));
    let mut empty = bench(&[], &[-2.0]);
    (empty.rt, empty.potentials[1]) = (9.0, f64::NAN);
    assert_eq!(empty.count_verdict(), refused(16, Some(0)));
    empty.rt = 8.0;
    assert_eq!(empty.count_verdict(), Verdict::Admitted);
}

/// Of friends alone, ends included, after 13 and before 16; with them 17 is never given.
#[test]
fn a_concentration_that_is_read_is_looked_at() {
    let given = |scaffold: &[u8], concentrations: [f64; 3]| {
        let mut lent = bench(scaffold, &[-0.5, -2.0]);
        lent.potentials = vec![f64::NAN; 3];
        lent.concentrations = concentrations.to_vec();
        lent.given = CONCENTRATIONS;
        lent
    };
    let (least, most) = ((-60f64).exp2(), 1024.0f64);
    let told = |concentrations| given(&[1, 2], concentrations).energy_verdict(&[1, 2]);
    assert_eq!(told([f64::NAN, least, most]), Verdict::Admitted);
    for bad in [
        least.next_down(),
        most.next_up(),
        0.0,
        -0.0,
        -1.0,
        f64::NAN,
        f64::INFINITY,
    ] {
        assert_eq!(told([0.0, bad, 1.0]), refused(15, None));
        assert_eq!(told([0.0, 1.0, bad]), refused(15, None));
        assert_eq!(told([bad, 1.0, 1.0]), Verdict::Admitted);
        assert_eq!(
            given(&[1], [0.0, 1.0, bad]).count_verdict(),
            Verdict::Admitted
        );
    }
    let mut lent = given(&[1, 2], [0.0, 1.0, 0.0]);
    assert_eq!(lent.energy_verdict(&[2, 2]), refused(11, None));
    assert_eq!(lent.state_verdict(4, 2), refused(13, None));
    assert_eq!(given(&[1; 21], [0.0; 3]).count_verdict(), refused(12, None));
    assert_eq!(lent.search_verdict(2), refused(15, None));
    lent.rt = 0.0;
    assert_eq!(lent.search_verdict(2), refused(15, None));
    lent.marks = vec![0, 1];
    assert_eq!(lent.search_verdict(2), refused(16, Some(0)));
    lent.marks = vec![0, 0];
    lent.glues[1] = 1;
    assert_eq!(lent.search_verdict(2), refused(10, None));
    lent.given = 2;
    assert_eq!(lent.search_verdict(2), refused(1, None));
    lent.concentrations.pop();
    lent.given = CONCENTRATIONS;
    assert_eq!(lent.search_verdict(2), refused(1, None));
}

/// Document 02's blocked positions on the bench table's two positions.
#[test]
fn a_blocked_position_is_empty_in_every_state() {
    let marked = |marks: [u8; 2]| {
        let mut lent = bench(&[1, 2], &[-0.5, -2.0]);
        lent.marks = marks.to_vec();
        lent
    };
    let states = |lent: &Lent| -> Vec<Vec<u8>> {
        (0..lent.count() as u64)
            .map(|rank| lent.state(rank))
            .collect()
    };
    assert_eq!(marked([0, 0]).count(), 4);
    let first = marked([1, 0]);
    assert_eq!(states(&first), [[0, 2], [0, 0]]);
    assert_eq!(first.search(Reading::Document), (-1.5, vec![0, 2]));
    assert_eq!(first.energy_verdict(&[1, 2]), refused(11, None));
    assert_eq!(first.scaffold_bond(0, 1), -1.0);
    let last = marked([0, 1]);
    assert_eq!(states(&last), [[1, 0], [0, 0]]);
    assert_eq!(last.search(Reading::Document), (0.0, vec![0, 0]));
    let mut both = marked([1, 1]);
    (both.potentials[1], both.potentials[2]) = (f64::NAN, 1025.0);
    assert_eq!(both.search_verdict(2), Verdict::Admitted);
    assert_eq!(states(&both), [[0, 0]]);
    assert_eq!(both.search(Reading::Document), (0.0, vec![0, 0]));
    both.marks = vec![1, 0];
    assert_eq!(both.search_verdict(2), refused(17, Some(2)));
    for marks in [vec![], vec![0], vec![0, 0, 0], vec![0, 2], vec![255, 0]] {
        both.marks = marks;
        assert_eq!(both.search_verdict(2), refused(1, None));
    }
}

#[test]
fn a_position_without_a_glue_stands_for_a_blocked_one() {
    let mut lent = bench(&[1, 2, 1], &[-0.5, -2.0]);
    lent.marks = vec![0, 1, 1];
    let copy = lent.without_blocked();
    assert_eq!(
        (copy.scaffold.clone(), copy.has_blocked()),
        (vec![1, 0, 0], false)
    );
    assert_eq!(copy.count(), lent.count());
    assert_eq!(
        copy.search(Reading::Document),
        lent.search(Reading::Document)
    );
}

/// Where strand 0 is a friend, its bottom glue or a cell of column 0 is null's: 10, whatever its
/// potential.
#[test]
fn the_potential_of_strand_0_decides_nothing() {
    let mut lent = bench(&[1], &[-2.0]);
    assert_eq!(lent.count_verdict(), Verdict::Admitted);
    lent.glues[1] = 1;
    assert_eq!(lent.count_verdict(), refused(10, None));
    lent.potentials[0] = 0.0;
    assert_eq!(lent.count_verdict(), refused(10, None));
    let mut lent = bench(&[1], &[-2.0]);
    lent.dg[GLUES] = -0.0;
    assert_eq!(lent.count_verdict(), Verdict::Admitted);
    lent.ds[GLUES] = 5e-324;
    assert_eq!(lent.count_verdict(), refused(10, None));
}
