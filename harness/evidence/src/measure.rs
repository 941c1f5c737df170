//! A command's output, time and peak memory.

use std::process::Command;
use std::time::Instant;

pub struct Measured {
    pub seconds: f64,
    pub peak_megabytes: u64,
    pub output: String,
    pub ok: bool,
}

/// `struct rusage` of Linux on 64 bits: two times, then sixteen numbers, of which the first is the peak in kilobytes.
#[repr(C)]
struct Usage {
    times: [i64; 4],
    numbers: [i64; 14],
}

const CHILDREN: i32 = -1;

extern "C" {
    fn getrusage(who: i32, usage: *mut Usage) -> i32;
}

fn peak_of_children() -> u64 {
    let mut usage = Usage {
        times: [0; 4],
        numbers: [0; 14],
    };
    // SAFETY: `usage` has the layout that the call fills.
    let answer = unsafe { getrusage(CHILDREN, &mut usage) };
    assert_eq!(answer, 0, "getrusage");
    usage.numbers[0] as u64 / 1024
}

/// Runs a command and prints its output, then a line with its seconds, its peak and whether it went well.
pub fn run_here(words: &[String]) {
    let began = Instant::now();
    let done = Command::new(&words[0])
        .args(&words[1..])
        .output()
        .expect("the command runs");
    print!("{}", String::from_utf8_lossy(&done.stdout));
    print!("{}", String::from_utf8_lossy(&done.stderr));
    println!(
        "\nmeasured {} {} {}",
        began.elapsed().as_secs_f64(),
        peak_of_children(),
        done.status.success()
    );
}

pub fn measured(words: &[&str]) -> Measured {
    let own = std::env::current_exe().expect("this program has a path");
    let done = Command::new(own)
        .arg("--measure")
        .args(words)
        .output()
        .expect("this program runs");
    let output = String::from_utf8_lossy(&done.stdout).into_owned();
    let last = output.lines().last().unwrap_or_default();
    let figures: Vec<&str> = last.split(' ').collect();
    let ["measured", seconds, peak, ok] = figures[..] else {
        panic!("{words:?} was not measured: {last}");
    };
    Measured {
        seconds: seconds.parse().expect("seconds"),
        peak_megabytes: peak.parse().expect("megabytes"),
        ok: ok == "true",
        output,
    }
}
