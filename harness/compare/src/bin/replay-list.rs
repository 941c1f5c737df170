//! `replay-list ORACLE [false]`: writes the list of answers for the program `replay`, or the list of
//! falsified ones, to standard output.
//! The same command writes the same bytes.

use compare::program::Program;
use compare::replay;
use std::io::Write;
use std::path::Path;
use std::process::ExitCode;

fn main() -> ExitCode {
    let arguments: Vec<String> = std::env::args().skip(1).collect();
    let (oracle, list): (_, List) = match arguments.as_slice() {
        [oracle] => (oracle, replay::list),
        [oracle, word] if word == "false" => (oracle, replay::false_list),
        _ => {
            eprintln!("usage: replay-list ORACLE [false]");
            return ExitCode::from(2);
        }
    };
    match write_list(Path::new(oracle), list) {
        Ok(()) => ExitCode::SUCCESS,
        Err(complaint) => {
            eprintln!("replay-list: {complaint}");
            ExitCode::FAILURE
        }
    }
}

type List = fn(&mut Program) -> Result<String, String>;

fn write_list(oracle: &Path, list: List) -> Result<(), String> {
    let list = list(&mut Program::start("oracle", oracle)?)?;
    let mut out = std::io::stdout().lock();
    out.write_all(list.as_bytes())
        .and_then(|()| out.flush())
        .map_err(|error| error.to_string())
}
