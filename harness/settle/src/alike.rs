//! Designs that two files state in different words, and rings: what `./settle` has to say alike of both.

use crate::design::Design;
use crate::settle::{Answer, Settle};
use crate::statements::{statement, Statement};
use compare::random::Random;

/// What two files have in common.
#[derive(Clone, Copy)]
enum Alike {
    /// Each figure and each line at fault.
    Answer,
    /// The reply, and the energy up to the logarithms' last digits.
    Energy,
    /// The reply, and the bits of the energy; the second is a ring.
    Ring,
}

/// A design file twice, and what is alike.
pub struct Pair {
    texts: [Vec<u8>; 2],
    alike: Alike,
}

/// A pair for every way in which the same is said in other words.
pub fn pairs(random: &mut Random) -> Vec<Pair> {
    let celsius = random.double(-80.0, 240.0);
    let kelvin = celsius + 273.15;
    let design = Design::random(random);
    let design = design.statements(random, statement(&["celsius", &format!("{celsius:?}")]));
    let other = with(&design, is_celsius, |words| {
        *words = statement(&["kelvin", &format!("0x{:016x}", kelvin.to_bits())]);
    });
    let mut pairs = vec![pair(&design, &other, Alike::Answer)];
    let amounts: Vec<Concentration> = design.iter().map(|_| concentration(random)).collect();
    let said = |spelled: fn(&Concentration) -> String| {
        let mut design = design.clone();
        for (words, amount) in design.iter_mut().zip(&amounts) {
            if has_amount(words) {
                *words.last_mut().unwrap() = spelled(amount).into_bytes();
            }
        }
        design
    };
    let molar = said(|amount| format!("{}e{}M", amount.digits, amount.power));
    let in_units = said(|amount| {
        format!(
            "{}e{}{}",
            amount.digits,
            amount.power + amount.unit.1,
            amount.unit.0
        )
    });
    let potentials = said(|amount| format!("{:?}", amount.double().ln()));
    pairs.push(pair(&molar, &in_units, Alike::Answer));
    pairs.push(pair(&molar, &potentials, Alike::Energy));
    pairs.extend(open_ring(random, &design));
    pairs.extend(turned_ring(random, &design));
    pairs
}

fn is_celsius(words: &Statement) -> bool {
    words[0] == b"celsius"
}

fn has_amount(words: &Statement) -> bool {
    [b"strand".as_slice(), b"quencher", b"reporter"].contains(&words[0].as_slice())
}

fn is_positions(words: &Statement) -> bool {
    words[0] == b"scaffold" || words[0] == b"blocked"
}

/// The statements with some of them changed.
fn with(
    all: &[Statement],
    which: fn(&Statement) -> bool,
    change: impl Fn(&mut Statement),
) -> Vec<Statement> {
    let mut all = all.to_vec();
    all.iter_mut().filter(|words| which(words)).for_each(change);
    all
}

fn pair(first: &[Statement], second: &[Statement], alike: Alike) -> Pair {
    let text = |all: &[Statement]| {
        let lines = all.iter().map(|words| words.join(&b' '));
        lines.collect::<Vec<_>>().join(&b'\n')
    };
    Pair {
        texts: [text(first), text(second)],
        alike,
    }
}

/// A concentration as digits and a power of ten, and a unit for it with its power below mol/l.
struct Concentration {
    digits: u64,
    power: i32,
    unit: (&'static str, i32),
}

impl Concentration {
    fn double(&self) -> f64 {
        format!("{}e{}", self.digits, self.power).parse().unwrap()
    }
}

fn concentration(random: &mut Random) -> Concentration {
    let units = [
        ("mM", 3),
        ("uM", 6),
        ("\u{b5}M", 6),
        ("\u{3bc}M", 6),
        ("nM", 9),
        ("pM", 12),
        ("fM", 15),
    ];
    let digits = match random.once_in(2) {
        true => random.below(1000) as u64 + 1,
        false => random.bits() % 100_000_000_000_000_000 + 1,
    };
    let places = digits.to_string().len() as i32;
    Concentration {
        digits,
        power: random.below(17) as i32 - 14 - places,
        unit: random.pick(&units),
    }
}

/// The positions of a design, and its other statements.
fn parts(all: &[Statement]) -> (Vec<(Vec<u8>, Vec<u8>)>, Vec<Statement>) {
    let rest = all.iter().filter(|words| !is_positions(words)).cloned();
    let positions = all
        .iter()
        .filter(|words| is_positions(words))
        .flat_map(|words| {
            words[1..]
                .iter()
                .map(|glue| (words[0].clone(), glue.clone()))
        });
    (positions.collect(), rest.collect())
}

fn stated(positions: &[(Vec<u8>, Vec<u8>)], rest: &[Statement], ring: bool) -> Vec<Statement> {
    let mut all = rest.to_vec();
    all.extend(
        positions
            .iter()
            .map(|(keyword, glue)| vec![keyword.clone(), glue.clone()]),
    );
    all.extend(ring.then(|| statement(&["ring"])));
    all
}

/// A ring whose last position has no glue has the energies of the chain.
fn open_ring(random: &mut Random, design: &[Statement]) -> Option<Pair> {
    let (mut positions, rest) = parts(design);
    if positions.len() < 3 {
        return None;
    }
    let keyword: &[u8] = random.pick(&[b"scaffold".as_slice(), b"blocked"]);
    *positions.last_mut()? = (keyword.to_vec(), b"-".to_vec());
    Some(pair(
        &stated(&positions, &rest, false),
        &stated(&positions, &rest, true),
        Alike::Ring,
    ))
}

/// A ring that is turned has the same lowest energy, but for its last digits.
fn turned_ring(random: &mut Random, design: &[Statement]) -> Option<Pair> {
    let (positions, rest) = parts(design);
    if positions.len() < 3 {
        return None;
    }
    let mut turned = positions.clone();
    turned.rotate_left(random.within(1..=positions.len() - 1));
    Some(pair(
        &stated(&positions, &rest, true),
        &stated(&turned, &rest, true),
        Alike::Energy,
    ))
}

/// Asks of each pair; a complaint, with the answer and the text, for each that is not alike.
pub fn asked(
    settle: &Settle,
    pairs: &[Pair],
) -> Result<Vec<(Answer, Option<String>, Vec<u8>)>, String> {
    let texts: Vec<&[u8]> = pairs
        .iter()
        .flat_map(|pair| &pair.texts)
        .map(Vec::as_slice)
        .collect();
    let answers = settle.ask(&texts)?;
    let both = answers.chunks(2).zip(pairs);
    Ok(both
        .map(|(both, pair)| {
            let complaint =
                (!alike(&both[0], &both[1], pair.alike)).then(|| format!("not as {:?}", both[0]));
            (both[1].clone(), complaint, pair.texts.join(&b"\n---\n"[..]))
        })
        .collect())
}

fn alike(first: &Answer, second: &Answer, what: Alike) -> bool {
    let (Some(a), Some(b)) = (&first.settled, &second.settled) else {
        return match what {
            Alike::Answer => (first.reply, first.line) == (second.reply, second.line),
            _ => first.reply == second.reply,
        };
    };
    let (x, y) = (f64::from_bits(a.bits), f64::from_bits(b.bits));
    match what {
        Alike::Answer => a == b,
        Alike::Energy => a.states == b.states && (x - y).abs() < 1e-7,
        Alike::Ring => !a.ring && b.ring && a.states == b.states && x == y,
    }
}
