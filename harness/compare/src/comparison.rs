//! A run: questions go to both programs in batches, answers come back in order.

use crate::kinds::Kind;
use crate::program::{Program, MOST_ANSWERS};
use crate::question::Question;
use crate::random::Random;
use crate::tally::{Difference, KindTally, Tally};
use protocol::Reply;
use std::collections::VecDeque;
use std::path::Path;

/// Questions in a batch, and batches that the programs work at while the next one is made.
const BATCH: usize = 4096;
const UNDER_WAY: usize = 2;

const _: () = assert!(BATCH * (UNDER_WAY + 1) <= MOST_ANSWERS);

pub struct Comparison {
    oracle: Program,
    port: Program,
    tally: Tally,
    /// How a program was lost; nothing is asked after that.
    lost: Option<String>,
}

impl Comparison {
    pub fn start(oracle: &Path, port: &Path) -> Result<Self, String> {
        Ok(Comparison {
            oracle: Program::start("oracle", oracle)?,
            port: Program::start("port", port)?,
            tally: Tally::default(),
            lost: None,
        })
    }

    /// The fixed questions of a kind, then its random ones, `rounds` times. Does nothing once a
    /// program is lost.
    pub fn compare(&mut self, kind: &dyn Kind, seed: u64, rounds: u64) {
        if self.lost.is_some() {
            return;
        }
        let (oracle, port) = (&mut self.oracle, &mut self.port);
        let prepared = kind.prepare(&mut |lines| oracle.ask(lines));
        let prepared = prepared.and_then(|()| kind.prepare_by_port(&mut |lines| port.ask(lines)));
        if let Err(how) = prepared {
            self.tally.complain(&how);
            self.lost = Some(how);
            return;
        }
        let mut asking = Asking {
            kind,
            comparison: self,
            tally: KindTally::new(kind.name()),
            batch: vec![],
            under_way: VecDeque::new(),
        };
        kind.fixed(&mut |question| asking.put(question));
        for round in 0..rounds {
            let mut random = Random::stream(seed, kind.name(), round);
            kind.random(&mut random, &mut |question| asking.put(question));
        }
        asking.finish();
    }

    pub fn tally(&self) -> &Tally {
        &self.tally
    }
}

/// The questions of one kind on their way.
struct Asking<'a> {
    kind: &'a dyn Kind,
    comparison: &'a mut Comparison,
    tally: KindTally,
    batch: Vec<Question>,
    under_way: VecDeque<Vec<Question>>,
}

impl Asking<'_> {
    fn put(&mut self, question: Question) {
        if self.comparison.lost.is_some() {
            return;
        }
        self.batch.push(question);
        if self.batch.len() == BATCH {
            self.send_batch();
            while self.under_way.len() > UNDER_WAY {
                self.take_batch();
            }
        }
    }

    fn finish(mut self) {
        self.send_batch();
        while !self.under_way.is_empty() {
            self.take_batch();
        }
        let made = self.kind.made();
        self.tally.notes.extend(made.iter().copied());
        println!("{}", self.tally.summary());
        let tally = &mut self.comparison.tally;
        tally.add(&self.tally);
        if let Some(how) = &self.comparison.lost {
            tally.complain(&format!("{how}; nothing was asked after that"));
            return;
        }
        match self.kind.watched() {
            Some(Ok(said)) => println!("{said}"),
            Some(Err(said)) => tally.complain(&said),
            None => (),
        }
        let name = self.kind.name();
        for number in self.kind.replies() {
            if !self.tally.replies.contains_key(number) {
                tally.complain(&format!("no {name} question has the reply {number}"));
            }
        }
        for (sort, _) in made.iter().filter(|(_, count)| *count == 0) {
            tally.complain(&format!("no {name} question was made of: {sort}"));
        }
    }

    fn send_batch(&mut self) {
        let batch = std::mem::take(&mut self.batch);
        let (mut to_oracle, mut to_port) = (String::new(), String::new());
        for question in &batch {
            to_port.push_str(&question.port);
            to_port.push('\n');
            if let Some(lines) = &question.oracle {
                to_oracle.push_str(lines);
                to_oracle.push('\n');
            }
        }
        self.comparison.oracle.send(to_oracle);
        self.comparison.port.send(to_port);
        self.under_way.push_back(batch);
    }

    fn take_batch(&mut self) {
        let batch = self.under_way.pop_front().unwrap_or_default();
        for (index, question) in batch.iter().enumerate() {
            if self.comparison.lost.is_some() {
                return;
            }
            match self.take_answers(question) {
                Ok((oracle, port)) => self.judge(question, oracle, port),
                Err(how) => {
                    // What a program had not flushed is lost with it, so the fault may lie with
                    // any of the batch's lines from here on.
                    let lines = batch.len() - index;
                    let where_lost = format!("{how}; it had {lines} lines to go from this one on");
                    self.show(question, &where_lost, "(none)", "(none)");
                    self.comparison.lost = Some(how);
                }
            }
        }
    }

    fn take_answers(&mut self, question: &Question) -> Result<(Option<String>, String), String> {
        let oracle = match &question.oracle {
            Some(_) => Some(self.comparison.oracle.answer()?),
            None => None,
        };
        Ok((oracle, self.comparison.port.answer()?))
    }

    fn judge(&mut self, question: &Question, oracle: Option<String>, port: String) {
        self.tally.compared += 1;
        let number = question.expected_number();
        *self.tally.replies.entry(number).or_default() += 1;
        let read = |answer: &str| {
            Reply::parse(answer).unwrap_or_else(|| Reply::Err("no such reply".to_string()))
        };
        let oracle_reply = oracle.as_deref().map(read);
        if let (0, Some(Reply::Ok(figures))) = (number, &oracle_reply) {
            if let Some(note) = self.kind.note(figures) {
                *self.tally.notes.entry(note).or_default() += 1;
            }
        }
        let port_reply = read(&port);
        if let (0, Reply::Ok(figures)) = (number, &port_reply) {
            self.kind.watch(&question.port, figures);
        }
        let difference = question.difference(self.kind, oracle_reply.as_ref(), &port_reply);
        if let Some(why) = difference {
            let oracle = oracle.as_deref().unwrap_or("(not asked)");
            self.show(question, why, oracle, &port);
        }
    }

    fn show(&mut self, question: &Question, why: &str, oracle: &str, port: &str) {
        self.comparison.tally.difference(Difference {
            why,
            line: &question.lines().replace('\n', "\n         "),
            oracle,
            port,
            judge: &question.judge_says(),
        });
    }
}

#[cfg(test)]
mod tests {
    use super::*;
    use crate::kinds::loops::Loops;

    fn clean_with(oracle: &str, port: &str) -> (bool, String) {
        let mut comparison = Comparison::start(Path::new(oracle), Path::new(port)).unwrap();
        comparison.compare(&Loops, 1, 0);
        (comparison.tally.is_clean(), comparison.tally.last_line())
    }

    /// `cat` gives every question back, which is no reply; `yes` says `y` without being asked.
    #[test]
    fn programs_that_talk_nonsense_differ_everywhere() {
        let (clean, last_line) = clean_with("cat", "yes");
        assert!(!clean);
        let numbers: Vec<&str> = last_line.split(|c: char| !c.is_ascii_digit()).collect();
        let numbers: Vec<u64> = numbers.iter().filter_map(|n| n.parse().ok()).collect();
        assert!(numbers[0] > 1204 && numbers[0] == numbers[1], "{last_line}");
    }

    #[test]
    fn a_lost_program_ends_the_run() {
        for (oracle, port) in [("false", "cat"), ("cat", "false")] {
            let (clean, last_line) = clean_with(oracle, port);
            assert!(!clean);
            assert_eq!(last_line, "compared: loop 0; differ 1");
        }
    }
}
