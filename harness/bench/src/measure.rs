//! How a row is timed.

use std::time::{Duration, Instant};

/// Samples of each side. They are taken in turn, so that a change of the machine's speed meets
/// both sides alike.
pub const SAMPLES: usize = 31;

/// A sample repeats its side for at least this long.
const SAMPLE_TIME: Duration = Duration::from_millis(3);

pub struct Row {
    pub label: String,
    /// What either side keeps between calls and was cleared before each.
    pub cleared: &'static str,
    /// How many inputs one run of a side goes through.
    pub inputs: usize,
    pub rust: Box<dyn FnMut()>,
    pub port: Box<dyn FnMut()>,
}

/// Nanoseconds for one input.
#[derive(Debug, Clone, Copy)]
pub struct Times {
    pub rust: f64,
    pub port: f64,
}

impl Times {
    /// Port time over Rust time.
    pub fn ratio(&self) -> f64 {
        self.port / self.rust
    }
}

/// Whatever else the machine does only adds to a sample, so the least tells more than the median.
pub struct Measured {
    pub least: Times,
    pub median: Times,
}

pub fn measure(row: &mut Row) -> Measured {
    let rust_runs = runs_in_a_sample(&mut row.rust);
    let port_runs = runs_in_a_sample(&mut row.port);
    let (mut rust, mut port) = (vec![], vec![]);
    for _ in 0..SAMPLES {
        rust.push(sample(&mut row.rust, rust_runs));
        port.push(sample(&mut row.port, port_runs));
    }
    rust.sort_by(f64::total_cmp);
    port.sort_by(f64::total_cmp);
    let at = |place: usize| Times {
        rust: rust[place] / row.inputs as f64,
        port: port[place] / row.inputs as f64,
    };
    Measured {
        least: at(0),
        median: at(SAMPLES / 2),
    }
}

fn runs_in_a_sample(side: &mut dyn FnMut()) -> usize {
    let mut runs = 1;
    loop {
        let started = Instant::now();
        for _ in 0..runs {
            side();
        }
        if started.elapsed() >= SAMPLE_TIME {
            return runs;
        }
        runs *= 2;
    }
}

/// Nanoseconds for one run.
fn sample(side: &mut dyn FnMut(), runs: usize) -> f64 {
    let started = Instant::now();
    for _ in 0..runs {
        side();
    }
    started.elapsed().as_nanos() as f64 / runs as f64
}

#[cfg(test)]
mod tests {
    use super::*;

    #[test]
    fn a_time_is_for_one_input() {
        let mut row = Row {
            label: "sleeping".to_string(),
            cleared: "nothing",
            inputs: 4,
            rust: Box::new(|| std::thread::sleep(Duration::from_micros(400))),
            port: Box::new(|| std::thread::sleep(Duration::from_micros(2000))),
        };
        let Measured { least, median } = measure(&mut row);
        assert!(least.rust >= 100e3 && least.port >= 500e3, "{least:?}");
        assert!(median.rust >= least.rust && median.port >= least.port);
    }
}
