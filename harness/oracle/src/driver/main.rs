//! The oracle: answers lines (../../PROTOCOL.md) by running rgrow's own text.

mod design;
mod given;
mod parameters;
mod sequences;
mod temperature;
mod words;

use given::GivenLines;
use parameters::Parameters;
use protocol::{serve, Complaint, Reply, Words};
use rgrow::models::sdc1d::SDC;
use std::any::Any;
use std::panic::{catch_unwind, set_hook, AssertUnwindSafe};

/// What lines have set so far.
struct Oracle {
    parameters: Parameters,
    given: GivenLines,
    current: Option<SDC>,
}

impl Oracle {
    /// `None` after a setter.
    fn answer(&mut self, words: Words) -> Result<Option<String>, Complaint> {
        match words[0] {
            "p.build" => {
                // A build that panics leaves no current design.
                self.current = None;
                let (design, answer) = self.parameters.build(words)?;
                self.current = Some(design);
                Ok(Some(answer))
            }
            "d.build" => {
                self.current = None;
                self.current = Some(self.given.build());
                Ok(Some("built".to_string()))
            }
            "name" => parameters::base(words).map(Some),
            "mode" => temperature::set_mode(words).map(|()| None),
            word if word.starts_with("p.") => self.parameters.set(words).map(|()| None),
            word if word.starts_with("d.") => self.given.set(words).map(|()| None),
            "seq" | "pair" | "loop" | "strength" | "strengthx" => {
                sequences::answer(words).map(Some)
            }
            "ambient" | "findT" | "findc" | "consts" => temperature::answer(words).map(Some),
            _ => {
                let design = self.current.as_mut().ok_or("no such line, or no design")?;
                design::answer(design, words).map(Some)
            }
        }
    }
}

fn main() -> std::io::Result<()> {
    // A panic of the Rust is an answer, so it goes to standard output and nowhere else.
    set_hook(Box::new(|_| {}));
    let mut oracle = Oracle {
        parameters: Parameters::new(),
        given: GivenLines::new(),
        current: None,
    };
    serve(
        |words| match catch_unwind(AssertUnwindSafe(|| oracle.answer(words))) {
            Ok(Ok(None)) => None,
            Ok(Ok(Some(figures))) => Some(Reply::Ok(figures)),
            Ok(Err(complaint)) => Some(Reply::Err(complaint)),
            Err(panic) => Some(Reply::Panic(message(panic.as_ref()))),
        },
    )
}

fn message(panic: &(dyn Any + Send)) -> String {
    let owned = panic.downcast_ref::<String>().map(String::as_str);
    let borrowed = panic.downcast_ref::<&str>().copied();
    owned.or(borrowed).unwrap_or("?").to_string()
}
