//! Port against Rust, in one process and on the same inputs: the least of some samples, and port time
//! over Rust time, of the least and of the medians. A new group of rows is a file of its own and an entry in `main`.

mod both;
mod builds;
mod concentrations;
mod designs;
mod jobs;
mod measure;
mod rings;
mod searches;
mod sequences;
mod sums;
mod tables;

use measure::{measure, Measured, Row};

fn main() {
    let groups = [
        sequences::rows(),
        builds::rows(),
        designs::rows(),
        searches::rows(),
        tables::rows(),
        concentrations::rows(),
        jobs::rows(),
    ];
    let rows: Vec<Row> = groups.into_iter().flatten().collect();
    let samples = measure::SAMPLES;
    println!("ns for one input, the least of {samples} samples; port over Rust, then that of the medians");
    println!(
        "{:44} {:>9} {:>9} {:>7} {:>7}",
        "", "Rust", "port", "ratio", "median"
    );
    let mut cleared = "";
    for mut row in rows {
        if row.cleared != cleared {
            cleared = row.cleared;
            println!("cleared before: {cleared}");
        }
        let label = row.label.clone();
        let Measured { least, median } = measure(&mut row);
        let (rust, port) = (least.rust, least.port);
        let (ratio, medians) = (least.ratio(), median.ratio());
        println!("{label:44} {rust:9.1} {port:9.1} {ratio:7.2} {medians:7.2}");
    }
    let remarks = [
        builds::remarks(),
        searches::remarks(),
        tables::remarks(),
        rings::remarks(),
        sums::remarks(),
        concentrations::remarks(),
        sums::remarks_on_energies(),
    ];
    for remark in remarks.into_iter().flatten() {
        println!("{remark}");
    }
}
