//! The judge of parameters on cases that document 01 and docs/DECISIONS.md tell.

use super::*;
use crate::parameters::{Energy, Key, Parameters};
use crate::random::Random;

fn named(name: &str) -> Option<Vec<u8>> {
    Some(name.into())
}

fn pair(x: &str, y: &str) -> Key {
    Key::Pair(x.into(), y.into())
}

/// One strand with these glues, and energies of −1 and 0.25 for these entries.
fn set(glues: [&str; 3], entries: &[Key]) -> Parameters {
    let energy = || Energy::Given(-1.0, 0.25);
    Parameters {
        strands: vec![glues.map(named)],
        entries: entries.iter().map(|key| (key.clone(), energy())).collect(),
        ..Parameters::default()
    }
}

fn lent(set: &Parameters) -> Lent {
    Lent {
        build: ARCHIVE,
        ..set.laid_out(&mut Random::new(1))
    }
}

fn number(set: &Parameters, build: u32) -> u32 {
    let lent = Lent {
        build,
        ..set.laid_out(&mut Random::new(1))
    };
    lent.verdict().number()
}

#[test]
fn a_name_has_a_base() {
    assert_eq!(name(b"xa***", 1, 4), (1, 1, false));
    assert_eq!(name(b"**", 0, 2), (0, 0, true));
    assert_eq!(name(b"*a*b", 0, 4), (0, 4, true));
    assert_eq!(name_verdict(b"ab", 2, 0).number(), 0);
    assert_eq!(name_verdict(b"ab", 3, 0).number(), 1);
    assert_eq!(name_verdict(b"ab", 1, usize::MAX).number(), 1);
    assert_eq!(name_verdict(&[b'a'; 70], 0, 64).number(), 0);
    assert_eq!(name_verdict(&[b'a'; 70], 0, 65).number(), 1);
}

#[test]
fn a_scaffold_name_is_looked_up_as_it_is_spelled() {
    for (name, number) in [
        ("a", 0),
        ("a*", 0),
        ("a**", 6),
        ("a***", 6),
        ("b", 6),
        ("", 6),
    ] {
        let mut set = set(["a***", "a", "a*"], &[]);
        set.scaffold = vec![named(name)];
        assert_eq!(lent(&set).verdict().number(), number, "{name}");
    }
}

#[test]
fn the_tables_hold_31_base_names() {
    for (count, number) in [(31, 0), (32, 7)] {
        let strand = |n| [None, named(&format!("g{n}")), None];
        let mut set = Parameters {
            strands: (0..count).map(strand).collect(),
            ..Parameters::default()
        };
        assert_eq!(lent(&set).verdict().number(), number);
        set.scaffold = vec![named("unknown")];
        assert_eq!(lent(&set).verdict().number(), 6);
    }
}

#[test]
fn a_pair_has_many_spellings() {
    let one = Key::One("a**".into());
    for same in [
        pair("a", "a*"),
        pair("a*", "a"),
        pair("a***", "a**"),
        one.clone(),
    ] {
        let set = set(["a", "b", "c"], &[one.clone(), same]);
        assert_eq!(lent(&set).verdict().number(), 8);
    }
    let others = [one, pair("a", "a"), pair("a*", "a*"), pair("z", "a")];
    let twice_unknown = [&others[..], &[pair("a", "z")]].concat();
    assert_eq!(
        lent(&set(["a", "b", "c"], &twice_unknown))
            .verdict()
            .number(),
        0
    );
}

#[test]
fn sums_that_are_written_have_a_range() {
    let with = |key: Key, dg: f64, penalty: f64| {
        let mut set = set(["a", "b", "c"], &[key]);
        set.entries[0].1 = Energy::Given(dg, 0.0);
        set.penalty.0 = penalty;
        lent(&set).verdict().number()
    };
    let known = || Key::One("a".into());
    assert_eq!(with(known(), 1023.5, 0.5), 0);
    assert_eq!(with(known(), 1023.75, 0.5), 9);
    assert_eq!(with(known(), 5000.0, -4000.0), 0);
    assert_eq!(with(known(), f64::NAN, 0.0), 9);
    assert_eq!(with(pair("a", "z"), f64::NAN, f64::NAN), 0);
}

#[test]
fn glues_and_cells_are_written() {
    let mut set = set(["b*", "a", "b"], &[Key::One("a*".into()), pair("b", "b")]);
    set.strands.push([named("a*"), None, named("")]);
    set.scaffold = vec![named("a*"), None, named("*")];
    set.entries
        .push((pair("a", "b*"), Energy::Sequence(b"AC".to_vec())));
    set.entries
        .push((Key::One("".into()), Energy::Given(-0.0, -0.0)));
    (set.quencher, set.reporter) = (1, 2);
    let built = lent(&set).built();
    // b 1, b* 2, a 3, a* 4, the empty name 5.
    assert_eq!(
        built.strand_glues,
        [0, 0, 0, 2, 3, 1, 4, 0, 5, 2, 3, 0, 0, 0, 5]
    );
    assert_eq!(built.scaffold_glues, [4, 0, 6]);
    let cell = |x: usize, y: usize| (built.dg[64 * x + y], built.ds[64 * x + y]);
    assert_eq!(
        (cell(3, 4), cell(4, 3), cell(1, 1)),
        ((-1.0, 0.25), (-1.0, 0.25), (-1.0, 0.25))
    );
    let sequence = (-1.44 + 1.96, -0.0224 + 0.0057);
    assert_eq!((cell(3, 2), cell(2, 3)), (sequence, sequence));
    assert!(
        built.dg[64 * 5 + 6].is_sign_positive(),
        "an absent penalty is 0.0"
    );
    let set_cells = built.dg.iter().filter(|x| x.to_bits() != 0).count();
    assert_eq!(set_cells, 5);
}

#[test]
fn names_with_two_stars_retire() {
    for (name, retires) in [
        ("a", false),
        ("a*", false),
        ("a**", true),
        ("a*****", true),
        ("*", false),
        ("**", true),
        ("**a", false),
        ("a**b", false),
    ] {
        let expected = if retires { 21 } else { 0 };
        let strand = set(["a", "b", name], &[]);
        let first = set(["a", "b", "c"], &[Key::One(name.into())]);
        let second = set(["a", "b", "c"], &[pair("unknown", name)]);
        for set in [strand, first, second] {
            assert_eq!(number(&set, ORDINARY), expected, "{name}");
            assert_eq!(number(&set, ARCHIVE), 0, "{name}");
            assert_eq!(number(&set, 2), 1);
        }
    }
}

#[test]
fn a_lower_number_comes_before_21() {
    let mut scaffold = set(["a**", "b", "c"], &[]);
    scaffold.scaffold = vec![named("a**")];
    let twice = set(
        ["a", "b", "c"],
        &[Key::One("a".into()), pair("a***", "a**")],
    );
    let mut sum = set(["a", "b", "c"], &[Key::One("a**".into())]);
    sum.penalty.0 = 2000.0;
    for (set, expected) in [(scaffold, 6), (twice, 8), (sum, 9)] {
        for build in [ORDINARY, ARCHIVE] {
            assert_eq!(number(&set, build), expected);
        }
    }
}
