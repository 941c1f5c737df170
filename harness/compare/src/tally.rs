//! What was compared, and what differs.

use std::collections::BTreeMap;

/// Differences that are printed; all are counted.
const SHOWN: u64 = 20;

#[derive(Default)]
pub struct Tally {
    kinds: Vec<(&'static str, u64)>,
    differ: u64,
    complaints: u64,
}

/// One kind's part.
pub struct KindTally {
    pub name: &'static str,
    pub compared: u64,
    /// How often each reply was expected, 0 for an answer.
    pub replies: BTreeMap<u32, u64>,
    pub notes: BTreeMap<&'static str, u64>,
}

impl KindTally {
    pub fn new(name: &'static str) -> Self {
        KindTally {
            name,
            compared: 0,
            replies: BTreeMap::new(),
            notes: BTreeMap::new(),
        }
    }

    /// As `seq 187000: ok 160000, refused 1 2000, …; by Rust text 900`.
    pub fn summary(&self) -> String {
        let reply = |(number, count): (&u32, &u64)| match number {
            0 => format!("ok {count}"),
            number => format!("refused {number} {count}"),
        };
        let replies: Vec<String> = self.replies.iter().map(reply).collect();
        let notes = self.notes.iter();
        let notes: Vec<String> = notes.map(|(note, n)| format!("; {note} {n}")).collect();
        let (replies, notes) = (replies.join(", "), notes.concat());
        format!("{} {}: {replies}{notes}", self.name, self.compared)
    }
}

/// A difference, as it is shown.
pub struct Difference<'a> {
    pub why: &'a str,
    pub line: &'a str,
    pub oracle: &'a str,
    pub port: &'a str,
    pub judge: &'a str,
}

impl Tally {
    pub fn add(&mut self, kind: &KindTally) {
        self.kinds.push((kind.name, kind.compared));
    }

    pub fn difference(&mut self, difference: Difference) {
        self.differ += 1;
        if self.differ <= SHOWN {
            println!("DIFFERENCE {}: {}", self.differ, difference.why);
            println!("  line   {}", difference.line);
            println!("  oracle {}", difference.oracle);
            println!("  port   {}", difference.port);
            println!("  judge  {}", difference.judge);
        }
    }

    /// The run is not what it should be, though no answer differs.
    pub fn complain(&mut self, complaint: &str) {
        self.complaints += 1;
        println!("INCOMPLETE: {complaint}");
    }

    pub fn is_clean(&self) -> bool {
        self.differ == 0 && self.complaints == 0
    }

    /// The last line of a run.
    pub fn last_line(&self) -> String {
        let kinds = self.kinds.iter();
        let kinds: Vec<String> = kinds.map(|(name, n)| format!("{name} {n}")).collect();
        format!("compared: {}; differ {}", kinds.join(", "), self.differ)
    }
}

#[cfg(test)]
mod tests {
    use super::*;

    #[test]
    fn a_run_is_clean_until_something_differs_or_is_left_out() {
        let mut tally = Tally::default();
        let mut kind = KindTally::new("seq");
        kind.compared = 12;
        kind.replies = BTreeMap::from([(0, 10), (3, 2)]);
        kind.notes = BTreeMap::from([("by Rust text", 4)]);
        let summary = "seq 12: ok 10, refused 3 2; by Rust text 4";
        assert_eq!(kind.summary(), summary);
        tally.add(&kind);
        assert!(tally.is_clean());
        assert_eq!(tally.last_line(), "compared: seq 12; differ 0");
        tally.complain("a reply is left out");
        assert!(!tally.is_clean());

        let mut tally = Tally::default();
        tally.difference(Difference {
            why: "a test of the tally",
            line: "seq =ac",
            oracle: "ok 0",
            port: "ok 1",
            judge: "admitted",
        });
        assert!(!tally.is_clean());
        assert_eq!(tally.last_line(), "compared: ; differ 1");
    }
}
