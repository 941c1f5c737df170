//! The driver on lines whose answers document 01 tells, and on lines that it must complain about.

use std::io::Write;
use std::process::{Command, Stdio};

fn answers(lines: &str) -> Vec<String> {
    let mut oracle = Command::new(env!("CARGO_BIN_EXE_oracle"))
        .stdin(Stdio::piped())
        .stdout(Stdio::piped())
        .spawn()
        .expect("the oracle starts");
    let mut input = oracle.stdin.take().expect("standard input is piped");
    input.write_all(lines.as_bytes()).expect("the oracle reads");
    drop(input);
    let output = oracle.wait_with_output().expect("the oracle ends");
    assert!(output.status.success());
    let text = String::from_utf8(output.stdout).expect("answers are text");
    text.lines().map(str::to_string).collect()
}

fn bits(x: f64) -> String {
    format!("{:016x}", x.to_bits())
}

#[test]
fn sequences_of_the_bench_table() {
    let given = answers(
        "seq =A\nseq =AC\npair =AAC =TAG\npair =AAAAA =TAATT\npair =AAAAAA =TAAATT\n\
         loop 30 0\nloop 3 3\nseq x4143\nseq xff\n",
    );
    let ac = format!("ok {} {}", bits(-1.44 + 1.96), bits(-0.0224 + 0.0057));
    let two = |dg, ds| format!("ok {} {}", bits(dg), bits(ds));
    assert_eq!(given[0], "panic DNA must have length of at least 2");
    assert_eq!(given[1], ac);
    assert_eq!(given[2], two(0.61 + 0.17, 0.0));
    assert_eq!(given[3], "panic Please enter a valid length");
    assert_eq!(given[4], two(0.61 + 0.69 - 1.0 + 3.2, -0.0213));
    assert_eq!(given[5], format!("ok {}", bits(6.6)));
    assert!(given[6].starts_with("panic"));
    assert_eq!(given[7], ac);
    assert_eq!(given[8], "err not UTF-8");
}

/// In mode `id` a concentration is the potential itself, and loops keep their logarithm.
#[test]
fn the_logarithm_can_be_switched() {
    let design = "d.new 2 2\nd.strand 1 0 1 0 -1\nd.scaffold 1\nd.dg 1 1 -2\nd.build\npots\n";
    let given = answers(&format!(
        "mode id\n{design}loop 3 0\npair =AAAAAA =TAAATT\nmode ln\n{design}loop 3 0\n"
    ));
    let loop_of_3 = format!("ok {}", bits(3.2));
    assert_eq!(given[0], "ok built");
    assert_eq!(given[1], format!("ok {},{}", bits(0.0), bits(-1.0)));
    assert_eq!(given[2], loop_of_3);
    assert!(given[3].starts_with(&format!("ok {}", bits(0.61 + 0.69 - 1.0 + 3.2))));
    let potentials = given[5].strip_prefix("ok ").expect("potentials");
    let last = potentials.split(',').next_back().expect("two potentials");
    let last = u64::from_str_radix(last, 16).expect("bits");
    assert!(f64::from_bits(last).is_nan(), "the logarithm of -1");
    assert_eq!(given[6], loop_of_3);
}

/// Two friends in a row, of the same dG and potential, at a temperature whose RT is no round
/// number: search, walk and listing belong together.
#[test]
fn a_small_design_settles() {
    let given = answers(
        "mode id\nd.new 3 3\nd.strand 1 0 1 0 -1\nd.strand 2 0 2 0 -1\nd.scaffold 1 2\n\
         d.dg 1 1 -0.5\nd.dg 2 2 -2\nd.temp K 310.15\nd.build\nfriends\nnstates\nstates\nmfe\nwalk\n",
    );
    assert_eq!(given[1], "ok 1;2");
    assert_eq!(given[2], "ok 4");
    assert_eq!(given[3], "ok 1,2;1,0;0,2;0,0");
    assert!(given[4].ends_with(" 0,2"), "{}", given[4]);
    assert_eq!(given[4], given[5]);
}

#[test]
fn parameters_are_built() {
    let given = answers(
        "p.new\np.strand =s =a =b =c* 1e-7\np.scaffold =b* -\np.ref =b gs -1 -0.01\n\
         p.ref =a seq =AC\np.penalty 0.5 -\np.build 4\np.scaffold =b**\np.build\nmfe\n",
    );
    assert!(given[0].starts_with("ok strands=4 "), "{}", given[0]);
    assert!(given[0].contains(" sg=0.0.0,1.3.6,0.0.0,0.0.0 sc=4,0 "));
    let cells = [
        format!("1.2.{}", bits((-1.44 + 1.96) + 0.5)),
        format!("2.1.{}", bits((-1.44 + 1.96) + 0.5)),
        format!("3.4.{}", bits(-1.0 + 0.5)),
        format!("4.3.{}", bits(-1.0 + 0.5)),
    ];
    assert!(given[0].contains(&format!(" dg={} ", cells.join(","))));
    assert!(given[0].ends_with(" orders=stable"));
    assert!(given[1].starts_with("panic"), "scaffold names keep stars");
    assert_eq!(given[2], "err no such line, or no design");
}

#[test]
fn lines_that_are_no_questions() {
    let given = answers(
        "# a comment\n\nflush\nseq\nseq =a =c\nseq acgt\nloop x 0\nstrengthx one =ac\nambient F 300\n\
         d.strand 7 0 0 0 0\nmode exp\nnonsense\n",
    );
    assert_eq!(given.len(), 9);
    assert!(given.iter().all(|answer| answer.starts_with("err ")));
}
