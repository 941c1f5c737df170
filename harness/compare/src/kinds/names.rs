//! Questions about names: a name's base, and the numbers of all strand glues.

use super::{Ask, Kind};
use crate::bases::all_sequences;
use crate::judge::parameters::{name, name_verdict, Lent};
use crate::parameters::{parameters, Parameters, Shape};
use crate::question::{Expected, Question};
use crate::random::Random;
use protocol::{joined, sequence_word};

pub struct Names;

/// Names of random bytes, and sets of strands, in one round.
const NAMES: usize = 4000;
const SETS: usize = 300;

impl Kind for Names {
    fn name(&self) -> &'static str {
        "name"
    }

    fn replies(&self) -> &'static [u32] {
        &[0, 1, 7]
    }

    fn fixed(&self, ask: &mut Ask) {
        for spelled in all_sequences(b"a*b", 6) {
            ask_name(&spelled, ask);
        }
        for stars in 0..=66 {
            let name: Vec<u8> = b"a".iter().chain(&vec![b'*'; stars]).copied().collect();
            ask_name(&name, ask);
            ask_name(&name[1..], ask);
        }
        let text = [vec![b'x'; 40], b"ab***".to_vec(), vec![b'*'; 60]].concat();
        let end = text.len();
        let numbers = [0, 1, 40, 44, 45, 64, 65, end - 1, end, end + 1, 1 << 32];
        for start in numbers.into_iter().chain([usize::MAX]) {
            for length in numbers.into_iter().chain([usize::MAX - start, usize::MAX]) {
                ask_part(&text, start, length, ask);
            }
        }
        let random = &mut Random::new(31);
        for users in 0..=61 {
            let strands = (0..users).map(|n| [None, Some(format!("g{n}").into_bytes()), None]);
            let set = Parameters {
                strands: strands.collect(),
                ..Parameters::default()
            };
            ask_glues(random, &set, ask);
        }
    }

    fn random(&self, random: &mut Random, ask: &mut Ask) {
        for _ in 0..NAMES {
            let length = random.within(0..=66);
            let any = random.once_in(2);
            let mut byte = || match any {
                true => random.below(256) as u8,
                false => random.pick(b"aab***"),
            };
            let spelled: Vec<u8> = (0..length).map(|_| byte()).collect();
            ask_name(&spelled, ask);
            let (start, part) = (random.below(70), random.below(70));
            ask_part(&spelled, start, part, ask);
        }
        for number in 0..SETS {
            let shape = match number % 10 {
                0 => Shape::full(random),
                1 | 2 => Shape::middling(random),
                _ => Shape::small(random),
            };
            let utf8 = !random.once_in(6);
            let set = parameters(random, &shape, utf8);
            ask_glues(random, &set, ask);
            let mut lent = set.laid_out(random);
            damage(random, &mut lent);
            ask_lent_glues(&lent, 3 * lent.users.min(100), None, ask);
            ask_lent_glues(&lent, random.pick(&[0, 3 * shape.users, 183]), None, ask);
        }
    }

    /// The glues of the user strands are those between the null strand's and the last two.
    fn agree(&self, oracle: &str, port: &str) -> bool {
        let Some(glues) = oracle.split(' ').find_map(|word| word.strip_prefix("sg=")) else {
            return oracle == port;
        };
        let strands: Vec<&str> = glues.split(',').collect();
        let users = &strands[1..strands.len() - 2];
        joined(users.iter().flat_map(|sides| sides.split('.')), ",") == port
    }
}

fn ask_name(spelled: &[u8], ask: &mut Ask) {
    let word = sequence_word(spelled);
    let verdict = name_verdict(spelled, 0, spelled.len());
    let line = format!("name {word}");
    ask(match std::str::from_utf8(spelled) {
        Ok(_) => Question::of_both(line, verdict),
        Err(_) => Question::of_port(line, verdict, || {
            let (start, length, is_base) = name(spelled, 0, spelled.len());
            let base = sequence_word(&spelled[start..start + length]);
            format!("{base} {}", u8::from(is_base))
        }),
    });
}

fn ask_part(text: &[u8], start: usize, length: usize, ask: &mut Ask) {
    let line = format!("raw.name {} {start} {length}", sequence_word(text));
    let verdict = name_verdict(text, start, length);
    ask(Question::of_port(line, verdict, || {
        let (start, length, is_base) = name(text, start, length);
        format!("{start} {length} {}", u8::from(is_base))
    }));
}

/// Beside the Rust, where it can take the strands, and beside the judge.
fn ask_glues(random: &mut Random, set: &Parameters, ask: &mut Ask) {
    let lent = set.laid_out(random);
    let alone = Parameters {
        strands: set.strands.clone(),
        ..Parameters::default()
    };
    if alone.is_utf8() {
        let lines = alone.oracle_lines(random);
        ask_lent_glues(&lent, 3 * lent.users, Some(format!("{lines}p.build")), ask);
    }
    ask_lent_glues(&lent, 3 * lent.users, None, ask);
}

fn ask_lent_glues(lent: &Lent, written: usize, oracle: Option<String>, ask: &mut Ask) {
    let (text, users) = (sequence_word(&lent.text), lent.users);
    let names = joined(&lent.strands, ",");
    let line = format!("raw.glues {text} {users} {names} {written}");
    let verdict = lent.strand_glues_verdict(written);
    let mut question = Question::of_port(line, verdict, || joined(lent.user_glues(), ","));
    if oracle.is_some() {
        question.oracle = oracle;
        question.expected = Expected::Judged(verdict);
    }
    ask(question);
}

/// One change of the strands' names; often it is none that matters.
fn damage(random: &mut Random, lent: &mut Lent) {
    let far = lent.text.len();
    let odd = random.pick(&[0, 1, 2, 64, 65, 255, far, far + 1, usize::MAX]);
    match random.below(7) {
        0 => lent.strands.extend([0, 0, 0]),
        1 => lent.strands.push(0),
        2 => lent.strands.truncate(far),
        3 => lent.users = odd,
        _ => {
            if !lent.strands.is_empty() {
                let index = random.below(lent.strands.len());
                lent.strands[index] = odd;
            }
        }
    }
}
