//! What is asked of a design with tables beside it, held against the judge.

use crate::designs::raw_lines;
use crate::judge::design::{Lent, MOST_STATES};
use crate::judge::tables::{Tabled, Tables};
use crate::judge::Verdict;
use crate::kinds::Ask;
use crate::question::Question;
use protocol::{bits, joined};
use std::rc::Rc;

/// Fills tables of so many lent cells.
pub fn ask_to_fill(lent: &Lent, strands: usize, scaffold: usize, ask: &mut Ask) {
    let line = format!("{}t.raw.fill {strands} {scaffold}", raw_lines(lent));
    let verdict = lent.fill_verdict(strands, scaffold);
    ask(Question::of_port(line, verdict, || {
        let own = lent.filled();
        let cells = |cells: &[f64]| joined(cells.iter().map(|x| bits(*x)), ",");
        format!("{} {}", cells(&own.strands), cells(&own.scaffold))
    }));
}

/// A design, tables beside it and a configuration, and the lines that send the first.
pub struct Lending {
    pub lent: Lent,
    pub tables: Tables,
    pub state: Vec<u8>,
    pub sent: Rc<str>,
}

impl Lending {
    pub fn new(lent: Lent, tables: Tables, state: Option<Vec<u8>>) -> Self {
        let state = state.unwrap_or_else(|| vec![0; lent.positions()]);
        Lending {
            sent: raw_lines(&lent).into(),
            lent,
            tables,
            state,
        }
    }

    pub fn over(&self) -> Tabled<'_> {
        Tabled {
            lent: &self.lent,
            tables: &self.tables,
        }
    }

    /// Design and tables go before the first question, and hold for the others.
    pub fn ask_all(&self, ask: &mut Ask) {
        let cells = |cells: &[f64]| match cells.is_empty() {
            true => "-".to_string(),
            false => joined(cells.iter().map(|x| bits(*x)), ","),
        };
        let lines = format!(
            "{}t.strands {}\nt.scaffold {}\n",
            self.sent,
            cells(&self.tables.strands),
            cells(&self.tables.scaffold)
        );
        let lines: Rc<str> = lines.into();
        let mut first = true;
        let mut put = |line: String, verdict: Verdict, figures: &dyn Fn() -> String| {
            let line = match std::mem::take(&mut first) {
                true => format!("{lines}{line}"),
                false => line,
            };
            let mut question = Question::of_port(line.clone(), verdict, figures);
            if !line.starts_with(&*lines) {
                question.about = Some(lines.clone());
            }
            ask(question);
        };
        let over = self.over();
        let positions = self.lent.positions();
        put("t.mfe".into(), over.search_verdict(positions), &|| {
            let (energy, settled) = over.search();
            format!("{} {}", bits(energy), joined(settled, ","))
        });
        let word = joined(&self.state, ",");
        let energy = || bits(over.state_energy(&self.state));
        put(
            format!("t.gsys {word}"),
            over.state_energy_verdict(&self.state),
            &energy,
        );
        let count = || self.lent.count().to_string();
        put("t.nstates".into(), over.count_verdict(), &count);
        let most = match over.count_verdict() {
            Verdict::Admitted => self.lent.count().min(MOST_STATES) as u64,
            _ => 1,
        };
        for rank in [most / 2, most - 1, most] {
            let state = || joined(self.lent.state(rank), ",");
            put(
                format!("t.state {rank}"),
                over.state_verdict(rank, positions),
                &state,
            );
        }
    }
}
