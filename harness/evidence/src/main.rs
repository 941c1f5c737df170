//! Writes docs/EVIDENCE.md to standard output: what is proved, what was compared, how fast, and what it took.

mod crates;
mod measure;
mod page;
mod runs;

use std::path::PathBuf;

fn main() {
    let words: Vec<String> = std::env::args().skip(1).collect();
    // Run by this program itself, so that the peak is one command's alone.
    if words.first().map(String::as_str) == Some("--measure") {
        measure::run_here(&words[1..]);
        return;
    }
    let [root] = &words[..] else {
        eprintln!("usage: evidence REPOSITORY");
        std::process::exit(2);
    };
    let root = PathBuf::from(root);
    std::env::set_current_dir(&root).expect("the repository can be entered");
    let proved = crates::prove_all();
    let runs = runs::Runs::take();
    print!("{}", page::page(&proved, &runs));
}
