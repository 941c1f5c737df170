//! Faults for which a design is refused, each by its number.

use super::{add, is, is_ambient, one, refused, refused_at, split, Expected};
use crate::design::{base, pair, Design, Entry};
use crate::statements::{number, statement, Statement};
use compare::random::Random;

pub fn strands_62(design: &Design, all: &mut Vec<Statement>) -> Option<Expected> {
    for index in design.strands.len()..62 {
        all.push(split(&format!("strand more{index} - - - -16")));
    }
    refused(1, all.len() - 1)
}

pub fn positions_129(
    random: &mut Random,
    design: &Design,
    all: &mut Vec<Statement>,
) -> Option<Expected> {
    for _ in design.scaffold.len()..129 {
        all.push(split(random.pick(&["scaffold -", "blocked -"])));
    }
    refused(1, all.len() - 1)
}

pub fn entries_1025(design: &Design, all: &mut Vec<Statement>) -> Option<Expected> {
    for index in design.entries.len()..1025 {
        all.push(split(&format!("energy none{index} dg 0 ds 0")));
    }
    refused(1, all.len() - 1)
}

pub fn long_name(random: &mut Random, all: &mut Vec<Statement>) -> Option<Expected> {
    let name = match random.once_in(2) {
        true => "l".repeat(65),
        false => format!("l{}", "*".repeat(64)),
    };
    let name = name.as_str();
    let (numbers, strand) = (["dg", "1", "ds", "0"], ["0"]);
    let words: Vec<&str> = match random.below(6) {
        0 => [&["scaffold", name][..]].concat(),
        5 => [&["blocked", "-", name][..]].concat(),
        1 => [&["energy", name][..], &numbers].concat(),
        2 => [&["pair", "x", name][..], &numbers].concat(),
        3 => [&["strand", "long", name, "-", "-"][..], &strand].concat(),
        _ => [&["strand", "long", "-", "-", name][..], &strand].concat(),
    };
    add(all, &words, 1)
}

pub fn bad_sequence(random: &mut Random, all: &mut Vec<Statement>) -> Option<Expected> {
    let bases = random.pick(&["acgu", "n", "ACGT-", "ac\u{0}gt", "\u{e9}\u{e9}", "acgtX"]);
    let count = random.within(1..=2);
    let names = ["none", "none"];
    let words = [
        &[["energy", "pair"][count - 1]],
        &names[..count],
        &["seq", bases],
    ]
    .concat();
    add(all, &words, 2)
}

/// The strand with which the 32nd base appears.
pub fn bases_32(design: &Design, all: &mut Vec<Statement>) -> Option<Expected> {
    let mut count = design.known().len();
    let mut strands = design.strands.len();
    while count < 32 {
        if strands == 61 {
            return None;
        }
        all.push(split(&format!(
            "strand more{strands} new{count} new{count}* - -16"
        )));
        count += 1;
        strands += 1;
    }
    let at = all.len() - 1;
    if strands < 61 {
        all.push(split("strand afterwards another - - -16"));
    }
    refused(7, at)
}

fn is_known(design: &Design, entry: &Entry) -> bool {
    let known = design.known();
    entry.names.iter().all(|name| known.contains(&base(name)))
}

pub fn pair_twice(
    random: &mut Random,
    design: &Design,
    all: &mut Vec<Statement>,
) -> Option<Expected> {
    let known: Vec<&Entry> = design
        .entries
        .iter()
        .filter(|entry| is_known(design, entry))
        .collect();
    if known.is_empty() {
        return None;
    }
    let [first, second] = pair(&known[random.below(known.len())].names);
    let spelled = |(base, odd): (Vec<u8>, bool), more: usize| {
        [base, vec![b'*'; usize::from(odd) + 2 * more]].concat()
    };
    let mut words = vec![
        b"pair".to_vec(),
        spelled(second, random.below(2)),
        spelled(first, random.below(2)),
    ];
    words.extend(statement(&["dg", "-1", "ds", "0"]));
    all.push(words);
    refused(8, all.len() - 1)
}

pub fn energy_range(
    random: &mut Random,
    design: &Design,
    all: &mut Vec<Statement>,
) -> Option<Expected> {
    let known = design.known();
    let taken: Vec<_> = design
        .entries
        .iter()
        .map(|entry| pair(&entry.names))
        .collect();
    let free = known
        .iter()
        .find(|base| !taken.contains(&pair(&[base.to_vec()])))?;
    let (dg, ds) = random.pick(&[
        ("1030", "0"),
        ("-1030", "0"),
        ("0", "8.1"),
        ("0", "-8.1"),
        ("1e300", "0"),
        ("0x7ff8000000000000", "0"),
        ("0", "0xfff0000000000000"),
    ]);
    let mut words = vec![b"energy".to_vec(), free.clone()];
    words.extend(statement(&["dg", dg, "ds", ds]));
    all.push(words);
    refused(9, all.len() - 1)
}

fn ambient_line(random: &mut Random, all: &[Statement]) -> Option<usize> {
    one(random, all, is_ambient)
}

/// Here the potentials are not asked yet.
pub fn kelvin_range(random: &mut Random, all: &mut [Statement]) -> Option<Expected> {
    let at = ambient_line(random, all)?;
    let (keyword, word) = random.pick(&[
        ("kelvin", "199.99999999999997"),
        ("kelvin", "500.1"),
        ("kelvin", "-300"),
        ("kelvin", "0x7ff0000000000000"),
        ("celsius", "-73.15"),
        ("celsius", "226.86"),
        ("celsius", "300"),
        ("celsius", "0x7ff8000000000000"),
    ]);
    all[at] = statement(&[keyword, word]);
    refused_at(9, at, word)
}

/// The first that is out is told, RT, strand excess, scaffold excess; half of the files have an unfit
/// potential, too.
pub fn ambient_range(
    random: &mut Random,
    design: &Design,
    all: &mut Vec<Statement>,
) -> Option<Expected> {
    let at = ambient_line(random, all)?;
    let (words, wrong) = random.pick(&[
        (["0.12499999999999999", "0", "0"], 0),
        (["8.000000000000002", "2000", "-3000"], 0),
        (["0x7ff8000000000001", "0", "1e9"], 0),
        (["0.6", "1024.5", "0"], 1),
        (["0.6", "-1025", "0x7ff8000000000000"], 1),
        (["0.6", "0", "-1025"], 2),
        (["8", "-1024", "0xfff0000000000000"], 2),
    ]);
    all[at] = statement(&["ambient", words[0], words[1], words[2]]);
    if random.once_in(2) {
        rich(design, all, "1e300");
    }
    refused_at(16, at, words[wrong])
}

const UNFIT_POTENTIALS: [&str; 4] = [
    "1024.1",
    "-2000",
    "0x7ff0000000000000",
    "0x7ff8000000000000",
];

/// A strand that has a friend's place, with this potential: its statement.
fn rich(design: &Design, all: &mut Vec<Statement>, potential: &str) -> Option<usize> {
    if design.strands.len() == 61 || design.scaffold.len() == 128 || design.known().len() > 30 {
        return None;
    }
    all.push(statement(&[
        "strand", "rich", "-", "unlike*", "-", potential,
    ]));
    let at = all.len() - 1;
    all.push(split("energy unlike dg -20 ds 0"));
    all.push(split("scaffold unlike"));
    Some(at)
}

pub fn potential_range(
    random: &mut Random,
    design: &Design,
    all: &mut Vec<Statement>,
) -> Option<Expected> {
    let at = rich(design, all, random.pick(&UNFIT_POTENTIALS))?;
    refused_at(17, at, "rich")
}

/// Of the quencher or the reporter, which copies such a strand.
pub fn copied_potential_range(
    random: &mut Random,
    design: &Design,
    all: &mut Vec<Statement>,
) -> Option<Expected> {
    rich(design, all, "-16")?;
    let keyword = random.pick(&["quencher", "reporter"]);
    all.retain(|words| !is(words, keyword.as_bytes()));
    let potential = random.pick(&UNFIT_POTENTIALS);
    all.push(statement(&[keyword, "rich", potential]));
    refused_at(17, all.len() - 1, "rich")
}

const UNFIT_CONCENTRATIONS: [&str; 8] = [
    "0M",
    "-0.0nM",
    "-100nM",
    "8.6e-19M",
    "0.00086fM",
    "1024.1M",
    "1024000.1mM",
    "1e300\u{b5}M",
];

/// Beside it half of the files have an ambient out, whose number is higher.
fn ambient_out(random: &mut Random, all: &mut [Statement]) -> Option<()> {
    let at = ambient_line(random, all)?;
    if random.once_in(2) {
        all[at] = split("ambient 9 0 0");
    }
    Some(())
}

pub fn concentration_range(
    random: &mut Random,
    design: &Design,
    all: &mut Vec<Statement>,
) -> Option<Expected> {
    ambient_out(random, all)?;
    let concentration = random.pick(&UNFIT_CONCENTRATIONS);
    let at = rich(design, all, concentration)?;
    refused_at(15, at, concentration)
}

/// Of the quencher or the reporter, which copies a strand that is somewhere a friend.
pub fn copied_concentration_range(
    random: &mut Random,
    design: &Design,
    all: &mut Vec<Statement>,
) -> Option<Expected> {
    ambient_out(random, all)?;
    rich(design, all, random.pick(&["-16", "100nM", "0.1\u{3bc}M"]))?;
    let keyword = random.pick(&["quencher", "reporter"]);
    all.retain(|words| !is(words, keyword.as_bytes()));
    let concentration = random.pick(&UNFIT_CONCENTRATIONS);
    all.push(statement(&[keyword, "rich", concentration]));
    refused_at(15, all.len() - 1, concentration)
}

/// A ring of fewer than three positions.
pub fn small_ring(random: &mut Random, all: &mut Vec<Statement>) -> Option<Expected> {
    all.retain(|words| !is(words, b"scaffold") && !is(words, b"blocked"));
    for _ in 0..random.below(3) {
        all.push(split(random.pick(&["scaffold -", "blocked -"])));
    }
    let at = random.within(0..=all.len());
    all.insert(at, split("ring"));
    refused_at(20, at, "ring")
}

pub fn no_such_strand(random: &mut Random, all: &mut Vec<Statement>) -> Option<Expected> {
    let keyword: &[u8] = random.pick(&[b"quencher".as_slice(), b"reporter"]);
    all.retain(|words| !is(words, keyword));
    let potential = number(random, -16.0);
    all.push(vec![keyword.to_vec(), b"nobody".to_vec(), potential]);
    refused(1, all.len() - 1)
}
