//! A program that answers lines, run as a child process.
//!
//! Its standard input is written and its standard output read by a thread each, so that neither
//! side ever waits for a full pipe while the other waits for it.

use std::io::{BufRead, BufReader, Write};
use std::path::Path;
use std::process::{Child, ChildStdin, ChildStdout, Command, Stdio};
use std::sync::mpsc::{sync_channel, Receiver, RecvTimeoutError, SyncSender};
use std::thread;
use std::time::Duration;

/// How long one answer may take before the program counts as hanging.
const PATIENCE: Duration = Duration::from_secs(60);

/// Blocks of lines that may wait to be written.
const WAITING: usize = 4;

/// Answers that may wait to be taken. Whoever asks for no more than these before taking some never
/// waits; a program that talks without end is stopped here.
pub const MOST_ANSWERS: usize = 1 << 16;

pub struct Program {
    name: String,
    child: Child,
    lines: SyncSender<String>,
    answers: Receiver<String>,
}

impl Program {
    pub fn start(name: &str, path: &Path) -> Result<Self, String> {
        let mut child = Command::new(path)
            .stdin(Stdio::piped())
            .stdout(Stdio::piped())
            .spawn()
            .map_err(|error| format!("{name}: {}: {error}", path.display()))?;
        let stdin = child.stdin.take().expect("standard input is piped");
        let stdout = child.stdout.take().expect("standard output is piped");
        let (lines, to_write) = sync_channel(WAITING);
        let (read, answers) = sync_channel(MOST_ANSWERS);
        thread::spawn(move || write_lines(stdin, to_write));
        thread::spawn(move || {
            for answer in read_lines(stdout) {
                if read.send(answer).is_err() {
                    return;
                }
            }
        });
        Ok(Program {
            name: name.to_string(),
            child,
            lines,
            answers,
        })
    }

    /// Sends lines, each ended by a newline. Answers are taken by `answer`, in order.
    pub fn send(&mut self, mut lines: String) {
        lines.push_str("flush\n");
        // Nobody is there to take them only if the program has ended, which `answer` tells.
        let _ = self.lines.send(lines);
    }

    /// Sends lines of which one is answered, while no other answer is on its way.
    pub fn ask(&mut self, lines: &str) -> Result<String, String> {
        self.send(format!("{lines}\n"));
        self.answer()
    }

    /// The next answer, or how the program was lost.
    pub fn answer(&mut self) -> Result<String, String> {
        match self.answers.recv_timeout(PATIENCE) {
            Ok(answer) => Ok(answer),
            Err(RecvTimeoutError::Timeout) => Err(format!(
                "{} gave no answer in {} s",
                self.name,
                PATIENCE.as_secs()
            )),
            Err(RecvTimeoutError::Disconnected) => Err(match self.child.wait() {
                Ok(status) => format!("{} ended early: {status}", self.name),
                Err(error) => format!("{} ended early: {error}", self.name),
            }),
        }
    }
}

impl Drop for Program {
    /// A program that hangs is not waited for.
    fn drop(&mut self) {
        let _ = self.child.kill();
        let _ = self.child.wait();
    }
}

fn write_lines(mut stdin: ChildStdin, lines: Receiver<String>) {
    for block in lines {
        if stdin.write_all(block.as_bytes()).is_err() || stdin.flush().is_err() {
            return;
        }
    }
}

fn read_lines(stdout: ChildStdout) -> impl Iterator<Item = String> {
    BufReader::with_capacity(1 << 16, stdout)
        .lines()
        .map_while(Result::ok)
}

#[cfg(test)]
mod tests {
    use super::*;

    /// `cat` answers every line with itself, the line `flush` included.
    #[test]
    fn many_lines_go_through_without_a_stop() {
        let mut cat = Program::start("cat", Path::new("cat")).unwrap();
        let line = "x".repeat(1000);
        for _ in 0..20 {
            cat.send(format!("{line}\n").repeat(1000));
        }
        for _ in 0..20 {
            for _ in 0..1000 {
                assert_eq!(cat.answer().as_deref(), Ok(line.as_str()));
            }
            assert_eq!(cat.answer().as_deref(), Ok("flush"));
        }
    }

    #[test]
    fn a_program_that_ends_is_told() {
        let mut ended = Program::start("false", Path::new("false")).unwrap();
        ended.send("seq =ac\n".to_string());
        let told = ended.answer().unwrap_err();
        assert!(told.starts_with("false ended early"), "{told}");
        assert!(Program::start("none", Path::new("/no/such/program")).is_err());
    }
}
