//! What is asked, what is expected, and when an answer differs.

use crate::judge::Verdict;
use crate::kinds::Kind;
use crate::logarithms;
use crate::sums::{Asked, Occupants};
use protocol::Reply;
use std::rc::Rc;

/// Lines for both programs that each answer with exactly one line: any setters, then a question.
#[derive(Debug, Clone)]
pub struct Question {
    pub port: String,
    /// None where the Rust has nothing to say: bytes that are no UTF-8, or a call it lacks.
    pub oracle: Option<String>,
    pub expected: Expected,
    /// Lines that were sent to the port before and still hold, where the question leans on them.
    pub about: Option<Rc<str>>,
}

#[derive(Debug, Clone)]
pub enum Expected {
    /// The judge's word: the refusal, or the oracle's figures where it admits the call.
    Judged(Verdict),
    /// Figures that the judge works out, for a call that the Rust lacks.
    Figures(String),
    /// A first figure whose bits are open, where the others are the Rust's: it lies within so much
    /// of the judge's, if there is one, and within twice that of the Rust's.
    Near { exact: Option<f64>, slack: f64 },
    /// A sum over states, or a quotient of two, near the exact one.
    Sum(Rc<Asked>),
    /// A table of such quotients.
    Occupants(Rc<Occupants>),
    /// A logarithm, within 2^-40 of the exact one.
    Logarithm(Rc<logarithms::Asked>),
}

impl Question {
    /// The same line for both.
    pub fn of_both(line: String, verdict: Verdict) -> Self {
        Question {
            oracle: Some(line.clone()),
            port: line,
            expected: Expected::Judged(verdict),
            about: None,
        }
    }

    /// A line for the port alone; where the judge admits it, these are the figures.
    pub fn of_port(port: String, verdict: Verdict, figures: impl FnOnce() -> String) -> Self {
        Question {
            port,
            oracle: None,
            expected: match verdict {
                Verdict::Admitted => Expected::Figures(figures()),
                refused => Expected::Judged(refused),
            },
            about: None,
        }
    }

    /// The question with an answer that lies near these figures, where it is not refused.
    pub fn near(mut self, exact: Option<f64>, slack: f64) -> Self {
        if self.expected_number() == 0 {
            self.expected = Expected::Near { exact, slack };
        }
        self
    }

    /// The port's lines, those that still hold included.
    pub fn lines(&self) -> String {
        format!("{}{}", self.about.as_deref().unwrap_or(""), self.port)
    }

    /// The same line for both, where the oracle can take these sequences: the Rust's are UTF-8.
    /// Other bytes go to the port alone, which has to refuse them.
    pub fn of_sequences(line: String, sequences: &[&[u8]], verdict: Verdict) -> Self {
        let mut question = Question::of_both(line, verdict);
        if sequences.iter().any(|s| std::str::from_utf8(s).is_err()) {
            question.oracle = None;
        }
        question
    }

    /// The reply that is expected: 0 for figures.
    pub fn expected_number(&self) -> u32 {
        match &self.expected {
            Expected::Judged(verdict) => verdict.number(),
            Expected::Figures(_) | Expected::Near { .. } => 0,
            Expected::Sum(_) | Expected::Occupants(_) | Expected::Logarithm(_) => 0,
        }
    }

    /// What is expected, as it is shown beside a difference.
    pub fn judge_says(&self) -> String {
        match &self.expected {
            Expected::Judged(verdict) => verdict.to_string(),
            Expected::Figures(figures) => format!("ok {figures}"),
            Expected::Near { exact, slack } => format!("ok, near {exact:?}, by {slack:e}"),
            Expected::Sum(asked) => format!("ok, near {:?} by {:?}", asked.exact, asked.by),
            Expected::Occupants(table) => format!("ok, near {:?}", table.cells),
            Expected::Logarithm(asked) => format!("ok, within 2^-40 of {:?}", asked.exact),
        }
    }

    /// Why the answers differ from what is expected, or None.
    pub fn difference(
        &self,
        kind: &dyn Kind,
        oracle: Option<&Reply>,
        port: &Reply,
    ) -> Option<&'static str> {
        match &self.expected {
            Expected::Figures(figures) => match port {
                Reply::Ok(given) if given == figures => None,
                _ => Some("the port does not give the figures"),
            },
            Expected::Near { exact, slack } => match (oracle, port) {
                (Some(Reply::Ok(oracle)), Reply::Ok(port)) => {
                    near_difference(oracle, port, *exact, *slack)
                }
                (None, Reply::Ok(port)) => near_difference(port, port, *exact, *slack),
                _ => Some("one does not answer"),
            },
            Expected::Sum(asked) => match port {
                Reply::Ok(figures) => asked.difference(figures),
                _ => Some("the port does not answer"),
            },
            Expected::Occupants(table) => match port {
                Reply::Ok(figures) => table.difference(figures),
                _ => Some("the port does not answer"),
            },
            Expected::Logarithm(asked) => match port {
                Reply::Ok(figures) => asked.difference(figures),
                _ => Some("the port does not answer"),
            },
            Expected::Judged(verdict) => match verdict.refusal() {
                Some(refusal) if *port != refusal => Some("the port does not refuse so"),
                Some(_) => rust_contradicts(verdict.number(), oracle),
                None => admitted_difference(kind, oracle, port),
            },
        }
    }
}

/// The first figures of both as doubles, the judge's beside them; the port's other words are among
/// the oracle's, which may add one.
fn near_difference(
    oracle: &str,
    port: &str,
    exact: Option<f64>,
    slack: f64,
) -> Option<&'static str> {
    let (oracle, port): (Vec<_>, Vec<_>) = (oracle.split(' ').collect(), port.split(' ').collect());
    let double = |word: &str| u64::from_str_radix(word, 16).map(f64::from_bits);
    let (Ok(rust), Ok(given)) = (double(oracle[0]), double(port[0])) else {
        return Some("no double");
    };
    if !given.is_finite() {
        Some("a figure is not finite")
    } else if exact.is_some_and(|exact| (given - exact).abs() > slack) {
        Some("not near the judge's figure")
    } else if (given - rust).abs() > 2.0 * slack {
        Some("not near the Rust's figure")
    } else if port.len() > oracle.len() || port[1..] != oracle[1..port.len()] {
        Some("the other figures differ")
    } else {
        None
    }
}

/// Replies 2, 3, 4 and 6 stand where the Rust panics: had it answered, the judge would be wrong.
/// The other replies are rules of document 01 that the Rust lacks.
fn rust_contradicts(number: u32, oracle: Option<&Reply>) -> Option<&'static str> {
    match oracle {
        Some(Reply::Err(_)) => Some("the oracle did not understand"),
        Some(Reply::Ok(_)) if [2, 3, 4, 6].contains(&number) => Some("the Rust answers"),
        _ => None,
    }
}

fn admitted_difference(
    kind: &dyn Kind,
    oracle: Option<&Reply>,
    port: &Reply,
) -> Option<&'static str> {
    match (oracle, port) {
        (Some(Reply::Ok(oracle)), Reply::Ok(port)) => {
            if !port.split([' ', ',', ';']).all(is_no_odd_double) {
                Some("a figure is not finite")
            } else if kind.agree(oracle, port) {
                None
            } else {
                Some("the figures differ")
            }
        }
        (Some(Reply::Ok(_)), _) => Some("the port does not answer"),
        _ => Some("the Rust does not answer"),
    }
}

/// On admitted input no sum overflows, so every double of an answer is finite. Words that are no
/// double pass.
fn is_no_odd_double(word: &str) -> bool {
    word.len() != 16
        || u64::from_str_radix(word, 16).map_or(true, |x| f64::from_bits(x).is_finite())
}

#[cfg(test)]
mod tests {
    use super::*;
    use crate::judge::sequences;
    use crate::kinds::sequence::Sequences;

    const ONE: &str = "3ff0000000000000";

    fn ok(figures: &str) -> Reply {
        Reply::Ok(figures.to_string())
    }

    fn differs(question: &Question, oracle: Option<Reply>, port: Reply) -> bool {
        let difference = question.difference(&Sequences, oracle.as_ref(), &port);
        difference.is_some()
    }

    fn asked(s: &[u8]) -> Question {
        Question::of_both("seq …".to_string(), sequences::sequence(s))
    }

    #[test]
    fn an_admitted_question_wants_the_same_figures() {
        let question = asked(b"ac");
        assert!(!differs(&question, Some(ok(ONE)), ok(ONE)));
        assert!(differs(&question, Some(ok(ONE)), ok("3ff0000000000001")));
        assert!(differs(&question, Some(ok(ONE)), Reply::refused(2)));
        assert!(differs(&question, Some(ok(ONE)), Reply::Err("?".into())));
        assert!(differs(&question, Some(Reply::Panic("?".into())), ok(ONE)));
        assert!(differs(&question, Some(Reply::Err("?".into())), ok(ONE)));
        assert!(differs(&question, None, ok(ONE)));
        let zeros = ["0000000000000000", "8000000000000000"];
        assert!(differs(&question, Some(ok(zeros[0])), ok(zeros[1])));
        let nan = "7ff8000000000000";
        assert!(differs(&question, Some(ok(nan)), ok(nan)));
        let row = format!("{ONE},{nan};{ONE}");
        assert!(differs(&question, Some(ok(&row)), ok(&row)));
    }

    #[test]
    fn a_refused_question_wants_that_number() {
        let question = asked(b"x");
        let panic = || Some(Reply::Panic("?".into()));
        assert!(!differs(&question, panic(), Reply::refused(2)));
        assert!(!differs(&question, None, Reply::refused(2)));
        assert!(differs(&question, panic(), Reply::refused(3)));
        assert!(differs(&question, panic(), ok(ONE)));
        assert!(differs(&question, Some(ok(ONE)), Reply::refused(2)));
        let placed = Reply::Refused {
            number: 2,
            place: Some(0),
        };
        assert!(differs(&question, panic(), placed));
    }

    #[test]
    fn bytes_that_are_no_text_go_to_the_port_alone() {
        let asked =
            |s: &[u8]| Question::of_sequences("".into(), &[b"ac", s], sequences::sequence(s));
        assert!(asked(b"ac").oracle.is_some());
        assert!(asked("\u{e9}".as_bytes()).oracle.is_some());
        assert!(asked(b"\xe9").oracle.is_none());
        assert!(!differs(&asked(b"\xe9"), None, Reply::refused(2)));
        assert!(differs(&asked(b"\xe9"), None, ok(ONE)));
    }

    #[test]
    fn the_rust_may_answer_what_is_too_long() {
        let question = asked(&[b'a'; 257]);
        assert!(!differs(&question, Some(ok(ONE)), Reply::refused(1)));
        assert!(differs(&question, Some(ok(ONE)), ok(ONE)));
    }

    #[test]
    fn figures_of_our_own_are_wanted_to_the_letter() {
        let question = Question {
            port: "deck …".to_string(),
            oracle: None,
            expected: Expected::Figures("1,0,2".to_string()),
            about: None,
        };
        assert!(!differs(&question, None, ok("1,0,2")));
        assert!(differs(&question, None, ok("1,0,1")));
        assert!(differs(&question, None, Reply::refused(1)));
    }
}
