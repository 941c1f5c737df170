use super::*;

fn with_strands(first: u32, strands: usize) -> Vec<u32> {
    let mut words = vec![first];
    words.resize(1 + strands, 0x2000_0001);
    words
}

/// Places worked out by hand from "the first word with which no valid deck can begin so".
#[test]
fn the_places_are_those_of_the_table() {
    let read = |words: &[u32]| Form::Singles.read(words);
    let place = |words: &[u32]| read(words).expect_err("this deck has a fault");
    assert_eq!(place(&[]), 0);
    assert_eq!(read(&[0x1000_0000]), Ok(vec![]));
    assert_eq!(place(&[0x1000_0000, 0x3000_0001]), 1);
    assert_eq!(place(&[0x1000_0000, 0x1000_0000]), 1);
    assert_eq!(place(&[0x1000_0081]), 0);
    assert_eq!(place(&[0x2000_0001]), 0);
    assert_eq!(place(&[0x1000_0001]), 1);
    assert_eq!(place(&[0x1000_0002, 0x3000_0001]), 2);
    for word in [
        0x3000_0003,
        0x3000_0000,
        0x2000_0000,
        0x2000_0040,
        0x1000_0002,
    ] {
        assert_eq!(place(&[0x1000_0002, word]), 1);
    }
    assert_eq!(place(&[0x1000_0002, 0x3000_0002, 0x3000_0001]), 2);
    assert_eq!(place(&[0x1000_0001, 0x2000_0001, 0x2000_0001]), 2);
    assert_eq!(
        place(&[0x1000_0003, 0x3000_0002, 0x2000_0001, 0x3000_0001]),
        3
    );
    assert_eq!(place(&[0x1000_0003, 0x2000_0001, 0x3000_0001]), 3);
    assert_eq!(place(&with_strands(0x1000_0080, 127)), 128);
    assert_eq!(read(&with_strands(0x1000_0080, 128)), Ok(vec![1; 128]));
    assert_eq!(place(&with_strands(0x1000_0080, 129)), 129);
    assert_eq!(place(&with_strands(0x1000_0080, 200)), 129);
}

#[test]
fn sizes_come_before_faults() {
    assert_eq!(reading(0, &[], 127).number(), 1);
    assert_eq!(reading(0, &[0x1000_0000], 129).number(), 1);
    assert_eq!(reading(0, &[], 128).number(), 14);
    assert_eq!(reading(0, &[0x1000_0000], 128), Verdict::Admitted);
    assert_eq!(writing(0, &[64; 129], 129).number(), 1);
    assert_eq!(writing(0, &[64; 128], 128).number(), 1);
    assert_eq!(writing(0, &[64; 128], 129).number(), 9);
    assert_eq!(writing(0, &[63; 128], 129), Verdict::Admitted);
}

#[test]
fn the_bench_lines_hold() {
    let deck = [0x1000_0004, 0x2000_0001, 0x3000_0002, 0x2000_0002];
    assert_eq!(Form::Singles.write(&[1, 0, 0, 2]), deck);
    assert_eq!(Form::Singles.read(&deck), Ok(vec![1, 0, 0, 2]));
    assert_eq!(
        Form::Singles.read(&[0x1000_0002, 0x3000_0001, 0x3000_0001]),
        Err(2)
    );
}

/// The same of the form with runs.
#[test]
fn the_places_of_runs_are_those_of_their_table() {
    let read = |words: &[u32]| Form::Runs.read(words);
    assert_eq!(read(&[0x1000_0002, 0x4000_0041]), Ok(vec![1, 1]));
    assert_eq!(
        read(&[0x1000_0002, 0x4000_0001, 0x4000_0002]),
        Ok(vec![1, 2])
    );
    assert_eq!(
        read(&[0x1000_0003, 0x4000_0001, 0x3000_0001, 0x4000_0001]),
        Ok(vec![1, 0, 1])
    );
    assert_eq!(
        read(&[0x1000_0004, 0x3000_0002, 0x4000_0041]),
        Ok(vec![0, 0, 1, 1])
    );
    assert_eq!(read(&[0x1000_0080, 0x4000_1fff]), Ok(vec![63; 128]));
    assert_eq!(read(&[0x1000_0000]), Ok(vec![]));
    assert_eq!(read(&[0x1000_0002, 0x4000_0001]), Err(2));
    assert_eq!(read(&[0x1000_0002, 0x4000_0001, 0x4000_0001]), Err(2));
    assert_eq!(read(&[0x1000_0002, 0x4000_0041, 0x4000_0002]), Err(2));
    assert_eq!(read(&[0x1000_0004, 0x3000_0002, 0x3000_0001]), Err(2));
    assert_eq!(read(&[0x1000_0003, 0x4000_0041, 0x3000_0002]), Err(2));
    assert_eq!(read(&[0x1000_0001, 0x4000_0041]), Err(1));
    for word in [0x4000_0000, 0x4000_0040, 0x4000_0080, 0x2000_0001] {
        assert_eq!(read(&[0x1000_0002, word]), Err(1));
    }
    assert_eq!(read(&[0x1000_0080, 0x4000_2001]), Err(1));
    assert_eq!(read(&[0x1000_0080, 0x4fff_ffff]), Err(1));
    assert_eq!(read(&[0x1000_0000, 0x4000_0001]), Err(1));
    assert_eq!(read(&[0x4000_0001]), Err(0));
    assert_eq!(read(&[]), Err(0));
    assert_eq!(Form::Singles.read(&[0x1000_0001, 0x4000_0001]), Err(1));
}

/// The test for a beginning against a search for completions of up to three words.
#[test]
fn what_can_begin_is_what_some_deck_begins_with() {
    let words = [
        0x1000_0002,
        0x1000_0003,
        0x2000_0001,
        0x3000_0001,
        0x4000_0001,
        0x4000_0002,
        0x4000_0041,
    ];
    let completions = |begun: &[u32]| {
        let mut decks = vec![begun.to_vec()];
        for _ in 0..3 {
            let longer: Vec<Vec<u32>> = decks
                .iter()
                .flat_map(|deck| words.map(|word| [&deck[..], &[word]].concat()))
                .collect();
            decks.extend(longer);
        }
        decks
    };
    for first in words {
        for second in words {
            for third in words {
                let begun = [first, second, third];
                for form in FORMS {
                    let completed = completions(&begun).iter().any(|deck| form.is_valid(deck));
                    assert_eq!(form.can_begin(&begun), completed, "{form:?} {begun:x?}");
                }
            }
        }
    }
}

#[test]
fn decks_move_there_and_back() {
    let singles = [0x1000_0003, 0x2000_0001, 0x2000_0001, 0x3000_0001];
    let runs = [0x1000_0003, 0x4000_0041, 0x3000_0001];
    assert_eq!(Form::Singles.moved(&singles), Ok(runs.to_vec()));
    assert_eq!(Form::Runs.moved(&runs), Ok(singles.to_vec()));
    assert_eq!(Form::Runs.moved(&singles), Err(1));
    assert_eq!(moving(1, &singles, 128).number(), 1);
    assert_eq!(moving(2, &runs, 129).number(), 1);
    assert_eq!(moving(1, &runs, 129), Verdict::Admitted);
}
