//! The lines `d.*`: a design given directly.

use crate::words::kelvin;
use protocol::{double, expect_words, whole, Complaint, Words};
use rgrow::models::sdc1d::probe::Given;
use rgrow::models::sdc1d::SDC;

pub struct GivenLines(Given);

impl GivenLines {
    pub fn new() -> Self {
        GivenLines(blank(1, 1))
    }

    pub fn set(&mut self, words: Words) -> Result<(), Complaint> {
        let given = &mut self.0;
        match words[0] {
            "d.new" => {
                expect_words(words, &[2])?;
                let strands = whole(words[1])?;
                if strands == 0 {
                    return Err("strand 0 is needed".to_string());
                }
                *given = blank(strands, whole(words[2])?);
            }
            "d.strand" => {
                expect_words(words, &[5])?;
                let strand: usize = whole(words[1])?;
                if strand >= given.glues.len() {
                    return Err("no such strand".to_string());
                }
                given.glues[strand] = [whole(words[2])?, whole(words[3])?, whole(words[4])?];
                given.concentrations[strand] = double(words[5])?;
            }
            "d.scaffold" => {
                let glues: Result<Vec<usize>, _> =
                    words[1..].iter().map(|word| whole(word)).collect();
                given.scaffold.extend(glues?);
            }
            "d.dg" | "d.ds" => set_cell(given, words)?,
            "d.temp" => {
                expect_words(words, &[2])?;
                given.kelvin = kelvin(words[1], words[2])?.0;
            }
            other => return Err(format!("no such line {other}")),
        }
        Ok(())
    }

    pub fn build(&self) -> SDC {
        self.0.make()
    }
}

fn blank(strands: usize, glue_count: usize) -> Given {
    let mut concentrations = vec![1.0; strands];
    concentrations[0] = 0.0;
    Given {
        scaffold: vec![],
        glues: vec![[0; 3]; strands],
        concentrations,
        glue_count,
        dg: vec![0.0; glue_count * glue_count],
        ds: vec![0.0; glue_count * glue_count],
        kelvin: 310.15,
    }
}

/// `d.dg ROW COLUMN VALUE`, `d.ds ROW COLUMN VALUE`
fn set_cell(given: &mut Given, words: Words) -> Result<(), Complaint> {
    expect_words(words, &[3])?;
    let (row, column): (usize, usize) = (whole(words[1])?, whole(words[2])?);
    if row >= given.glue_count || column >= given.glue_count {
        return Err("no such cell".to_string());
    }
    let table = if words[0] == "d.dg" {
        &mut given.dg
    } else {
        &mut given.ds
    };
    table[row * given.glue_count + column] = double(words[3])?;
    Ok(())
}
