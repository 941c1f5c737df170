//! What the harness's scripts say.

use crate::measure::measured;
use std::fs;

pub struct Runs {
    /// The lines of the comparison.
    pub compared: Vec<String>,
    /// The lines of the C and the Rust client.
    pub clients: Vec<String>,
    /// The lines of the random calls.
    pub stress: Vec<String>,
    /// The lines of the runs on design files.
    pub files: Vec<String>,
    /// The table of times.
    pub times: Vec<String>,
    /// What docs/DIFFERENCES.md says could not be compared.
    pub not_compared: String,
}

fn lines_of(command: &str) -> Vec<String> {
    let done = measured(&[command]);
    assert!(done.ok, "{command} failed:\n{}", done.output);
    let mut lines: Vec<String> = done.output.lines().map(str::to_string).collect();
    // the measured line, and the empty one before it
    lines.truncate(lines.len() - 2);
    lines
}

/// The text under a heading, up to the next.
fn section(file: &str, heading: &str) -> String {
    let text = fs::read_to_string(file).expect("a document");
    let start = text
        .find(heading)
        .unwrap_or_else(|| panic!("{file} lacks {heading}"))
        + heading.len();
    let rest = &text[start..];
    rest[..rest.find("\n## ").unwrap_or(rest.len())]
        .trim()
        .to_string()
}

impl Runs {
    pub fn take() -> Runs {
        let built = measured(&["harness/archive"]);
        assert!(built.ok, "harness/archive failed:\n{}", built.output);
        // The first `./settle` says that it builds the program; the runs on files take no such word.
        lines_of("examples/run");
        Runs {
            compared: lines_of("harness/run"),
            clients: lines_of("harness/run-clients"),
            stress: lines_of("harness/run-stress"),
            files: lines_of("harness/run-files"),
            times: lines_of("harness/run-bench"),
            not_compared: section(
                "docs/DIFFERENCES.md",
                "## What could not be compared by running\n",
            ),
        }
    }
}
