//! The page.

use crate::crates::Crate;
use crate::runs::Runs;
use std::fmt::Write;

fn block(page: &mut String, lines: &[String]) {
    for line in lines {
        let _ = writeln!(page, "    {line}");
    }
    page.push('\n');
}

fn table(page: &mut String, crates: &[Crate]) {
    page.push_str("| crate | functions | axioms | code | definitions | proofs | must-fail edits | check, s | peak, MB |\n");
    page.push_str("|---|---:|---:|---:|---:|---:|---:|---:|---:|\n");
    for c in crates {
        let _ = writeln!(
            page,
            "| `{}` | {} | {} | {} | {} | {} | {} | {:.0} | {} |",
            c.name,
            c.functions,
            c.axioms,
            c.code,
            c.definitions,
            c.proofs,
            c.edits,
            c.seconds,
            c.peak_megabytes
        );
    }
    let sum = |pick: fn(&Crate) -> usize| crates.iter().map(pick).sum::<usize>();
    let _ = writeln!(
        page,
        "| all | {} | – | {} | {} | {} | {} | {:.0} | {} |\n",
        crates.iter().map(|c| c.functions).sum::<u64>(),
        sum(|c| c.code),
        sum(|c| c.definitions),
        sum(|c| c.proofs),
        sum(|c| c.edits),
        crates.iter().map(|c| c.seconds).sum::<f64>(),
        crates.iter().map(|c| c.peak_megabytes).max().unwrap_or(0)
    );
}

pub fn page(crates: &[Crate], runs: &Runs) -> String {
    let mut page = String::from("# Evidence\n\nWritten by `harness/write-evidence`; nothing is typed by hand.\n\n## Proved\n\n");
    let processors = std::thread::available_parallelism().map_or(1, usize::from);
    let _ = write!(
        page,
        "Lines of code (`src/`), of definitions (`specs/`) and of proofs (`proofs/`); each crate checked by itself, on {processors} processors. \
         Axioms are the contracts of C functions that a program reads and writes by; a library has none.\n\n",
    );
    table(&mut page, crates);
    page.push_str("## Compared with the Rust\n\n`harness/run`, with its fixed seeds; [harness/README.md](../harness/README.md) says what each kind asks.\n\n");
    block(&mut page, &runs.compared);
    page.push_str("The C interface, used from C and from Rust (`harness/run-clients`):\n\n");
    block(&mut page, &runs.clients);
    page.push_str("The C interface, called at random (`harness/run-stress`):\n\n");
    block(&mut page, &runs.stress);
    page.push_str(
        "`./settle` on design files, the Rust's answers beside them (`harness/run-files`):\n\n",
    );
    block(&mut page, &runs.files);
    let _ = write!(
        page,
        "## What could not be compared\n\n{}\n\n",
        runs.not_compared
    );
    page.push_str(
        "## Speed\n\n`harness/run-bench`: port and Rust in one process, on the same inputs.\n\n",
    );
    block(&mut page, &runs.times);
    page.truncate(page.trim_end().len());
    page.push('\n');
    page
}
