//! Questions about the current design.

use crate::temperature::ambient;
use crate::words::{configuration, configuration_word, kelvin};
use protocol::{bits, expect_words, joined, whole, Complaint, Words};
use rgrow::models::sdc1d::probe::Cache;
use rgrow::models::sdc1d::SDC;

/// The Rust lists every state at once, and the process is lost when memory fails.
const MOST_STATES: usize = 1 << 20;

pub fn answer(design: &mut SDC, words: Words) -> Result<String, Complaint> {
    let counts: &[usize] = match words[0] {
        "temp" | "sbond" | "cbond" => &[2],
        "gsys" | "chain" | "state" => &[1],
        _ => &[0],
    };
    expect_words(words, counts)?;
    match words[0] {
        "temp" => {
            let t = kelvin(words[1], words[2])?;
            design.change_temperature_to(t);
            Ok(ambient(t))
        }
        "here" => Ok(ambient(design.p_temperature())),
        "describe" => Ok(describe(design)),
        "friends" => Ok(friends(design)),
        "nstates" | "states" | "state" | "gsysall" | "walk" => about_states(design, words),
        _ => about_energies(design, words),
    }
}

fn about_energies(design: &SDC, words: Words) -> Result<String, Complaint> {
    let strands = || 0..design.strand_names.len() as u32;
    let positions = || 0..design.p_positions();
    Ok(match words[0] {
        "pots" => joined(strands().map(|x| bits(design.p_potential(x))), ","),
        "sbond" => bits(design.p_strand_bond(whole(words[1])?, whole(words[2])?)),
        "cbond" => bits(design.p_scaffold_bond(whole(words[1])?, whole(words[2])?)),
        "sbonds" => {
            let row = |x| joined(strands().map(|y| bits(design.p_strand_bond(x, y))), ",");
            joined(strands().map(row), ";")
        }
        "cbonds" => {
            let row = |p| joined(strands().map(|y| bits(design.p_scaffold_bond(p, y))), ",");
            joined(positions().map(row), ";")
        }
        "fill" => {
            let (strand_bonds, scaffold_bonds) = design.p_filled();
            format!("{} {}", cache(&strand_bonds), cache(&scaffold_bonds))
        }
        "gsys" => bits(design.p_g_system(&configuration(words[1])?)),
        "chain" => bits(design.p_chain_composed(&configuration(words[1])?)),
        "mfe" => {
            let (settled, energy) = design.mfe_configuration();
            format!("{} {}", bits(energy), configuration_word(&settled))
        }
        "mfemat" => {
            let matrix = design.p_mfe_matrix();
            let entry = |(left, energy, strand): &(u32, f64, u32)| {
                format!("{strand}<{left}:{}", bits(*energy))
            };
            joined(
                matrix.iter().map(|row| joined(row.iter().map(entry), ",")),
                ";",
            )
        }
        other => return Err(format!("no such line {other}")),
    })
}

fn about_states(design: &SDC, words: Words) -> Result<String, Complaint> {
    let states = all_states(design)?;
    Ok(match words[0] {
        "nstates" => states.len().to_string(),
        "states" => joined(states.iter().map(|state| configuration_word(state)), ";"),
        "state" => {
            let rank: usize = whole(words[1])?;
            states
                .get(rank)
                .map_or("none".to_string(), |state| configuration_word(state))
        }
        "gsysall" => joined(states.iter().map(|a| bits(design.p_g_system(a))), ","),
        "walk" => walk(design, &states),
        other => return Err(format!("no such line {other}")),
    })
}

/// NOT Rust text: document 01's walk, over the Rust's own states and bonds.
fn walk(design: &SDC, states: &[Vec<u32>]) -> String {
    let product = |state: &[u32]| design.p_rtval() * design.p_chain_composed(state);
    let mut first = &states[0];
    let mut least = product(first);
    for state in &states[1..] {
        let energy = product(state);
        if energy < least {
            (first, least) = (state, energy);
        }
    }
    format!("{} {}", bits(least), configuration_word(first))
}

fn all_states(design: &SDC) -> Result<Vec<Vec<u32>>, Complaint> {
    let options = design.friends_btm.iter().map(|friends| friends.len() + 1);
    let count = options.fold(1usize, usize::saturating_mul);
    if count > MOST_STATES {
        return Err(format!("many {count}"));
    }
    Ok(design.system_states())
}

fn friends(design: &SDC) -> String {
    let here = |friends: &Vec<u32>| configuration_word(friends);
    joined(design.friends_btm.iter().map(here), ";")
}

fn cache(rows: &Cache) -> String {
    let cell = |bond: &Option<f64>| bond.map_or("unset".to_string(), bits);
    joined(
        rows.iter().map(|row| joined(row.iter().map(cell), ",")),
        ";",
    )
}

/// All that `from_params` settles. Of the tables, the cells whose bits are not 0.
pub fn describe(design: &SDC) -> String {
    let (glue_count, dg, ds) = design.p_tables();
    let strands = 0..design.strand_names.len();
    let cells = |table: &[f64]| {
        let filled = table.iter().enumerate().filter(|(_, x)| x.to_bits() != 0);
        let word = |(cell, x): (usize, &f64)| {
            format!("{}.{}.{}", cell / glue_count, cell % glue_count, bits(*x))
        };
        joined(filled.map(word), ",")
    };
    let id = |strand: Option<u32>| strand.map_or("-".to_string(), |number| number.to_string());
    let in_hex = |name: &String| {
        let digits: String = name.bytes().map(|byte| format!("{byte:02x}")).collect();
        format!("x{digits}")
    };
    format!(
        "strands={} rows={} gluenum={} sg={} sc={} dg={} ds={} q={} r={} friends={} conc={} names={}",
        design.strand_names.len(),
        design.p_glue_rows(),
        glue_count,
        joined(strands.map(|x| joined(design.p_glues(x), ".")), ","),
        joined(design.p_scaffold(), ","),
        cells(&dg),
        cells(&ds),
        id(design.quencher_id),
        id(design.reporter_id),
        friends(design),
        joined(design.p_concentrations().into_iter().map(bits), ","),
        joined(design.glue_names.iter().map(in_hex), ","),
    )
}
