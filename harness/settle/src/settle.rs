//! The command itself, run on files.

use crate::json::{self, Value};
use std::fs;
use std::path::{Path, PathBuf};
use std::process::Command;

/// What `./settle --json` says of one file.
#[derive(Debug, Clone)]
pub struct Answer {
    /// Document 01's number, 0 where the design settled; none where the file can't be read.
    pub reply: Option<u32>,
    pub line: Option<usize>,
    /// As it is shown.
    pub word: Option<String>,
    /// Where the design settled.
    pub settled: Option<Settled>,
}

#[derive(Debug, Clone, PartialEq)]
pub struct Settled {
    pub ring: bool,
    pub configuration: Vec<usize>,
    pub blocked: Vec<bool>,
    pub names: Vec<Option<String>>,
    pub states: Option<u64>,
    /// To six places, as printed.
    pub energy: String,
    pub bits: u64,
    pub deck: Vec<u32>,
}

#[derive(Clone)]
pub struct Settle {
    pub command: PathBuf,
    pub folder: PathBuf,
    /// Whether glues may end in two or more stars.
    pub archive: bool,
}

impl Settle {
    /// Writes each text to a file, and asks of all in one call.
    pub fn ask(&self, texts: &[&[u8]]) -> Result<Vec<Answer>, String> {
        let names: Vec<String> = (0..texts.len()).map(|index| format!("f{index}")).collect();
        for (name, text) in names.iter().zip(texts) {
            fs::write(self.folder.join(name), text).map_err(|error| error.to_string())?;
        }
        self.ask_of(&names)
    }

    pub fn ask_of(&self, names: &[String]) -> Result<Vec<Answer>, String> {
        let output = Command::new(&self.command)
            .arg("--json")
            .args(self.archive.then_some("--archive"))
            .arg("--")
            .args(names)
            .current_dir(&self.folder)
            .output()
            .map_err(|error| format!("{}: {error}", self.command.display()))?;
        let said = String::from_utf8_lossy(&output.stderr);
        if !said.is_empty() {
            return Err(format!("on standard error: {said}"));
        }
        let text = String::from_utf8(output.stdout).map_err(|error| error.to_string())?;
        let lines: Vec<&str> = text.split_terminator('\n').collect();
        if lines.len() != names.len() || !text.ends_with('\n') {
            let (lines, files) = (lines.len(), names.len());
            return Err(format!("{lines} lines for {files} files"));
        }
        let mut answers = vec![];
        for (line, name) in lines.iter().zip(names) {
            let answer = answer(line, name).map_err(|complaint| format!("{complaint}: {line}"))?;
            answers.push(answer);
        }
        let wanted = answers.iter().any(|answer| answer.reply != Some(0));
        match output.status.code() {
            Some(code) if code == i32::from(wanted) => Ok(answers),
            code => Err(format!("the exit status is {code:?}")),
        }
    }

    pub fn path(&self, name: &str) -> PathBuf {
        self.folder.join(name)
    }
}

fn answer(line: &str, name: &str) -> Result<Answer, String> {
    let object = json::read(line)?;
    let field = |name: &str| {
        object
            .field(name)
            .ok_or_else(|| format!("{name} is missing"))
    };
    if *field("file")? != Value::Text(name.to_string()) {
        return Err(format!("the file is {name}"));
    }
    let reply = perhaps(field("reply")?, |value| number(value).map(|n| n as u32))?;
    if reply == Some(0) {
        return Ok(Answer {
            reply,
            line: None,
            word: None,
            settled: Some(settled(&object)?),
        });
    }
    if reply.is_some() != object.field("refused").is_some() {
        return Err("a trade word belongs to a refusal".to_string());
    }
    let Value::Text(reason) = field("reason")? else {
        return Err("no reason".to_string());
    };
    if reason.len() < 10 {
        return Err("a reason says more".to_string());
    }
    if reply.is_none() {
        list(field("others")?, |other| {
            let has = |name| other.field(name).ok_or(format!("{name} is missing"));
            number(has("line")?)?;
            text(has("word")?)?;
            text(has("reason")?)
        })?;
    }
    Ok(Answer {
        reply,
        line: perhaps(field("line")?, |value| number(value).map(|n| n as usize))?,
        word: perhaps(field("word")?, text)?,
        settled: None,
    })
}

fn settled(object: &Value) -> Result<Settled, String> {
    let field = |name: &str| {
        object
            .field(name)
            .ok_or_else(|| format!("{name} is missing"))
    };
    let Value::Bool(ring) = field("ring")? else {
        return Err("a ring or none".to_string());
    };
    let Value::Number(energy) = field("energy")? else {
        return Err("the energy is a number".to_string());
    };
    let hex = |value: &Value, digits: usize| match value {
        Value::Text(word) if word.len() == digits => {
            u64::from_str_radix(word, 16).map_err(|error| error.to_string())
        }
        other => Err(format!("{digits} digits, not {other:?}")),
    };
    Ok(Settled {
        ring: *ring,
        configuration: list(field("configuration")?, |value| {
            number(value).map(|n| n as usize)
        })?,
        blocked: list(field("blocked")?, |value| match number(value)? {
            0 => Ok(false),
            1 => Ok(true),
            mark => Err(format!("no mark: {mark}")),
        })?,
        names: list(field("names")?, |value| perhaps(value, text))?,
        states: perhaps(field("states")?, number)?,
        energy: energy.clone(),
        bits: hex(field("bits")?, 16)?,
        deck: list(field("deck")?, |value| {
            hex(value, 8).map(|word| word as u32)
        })?,
    })
}

fn perhaps<T>(
    value: &Value,
    read: impl Fn(&Value) -> Result<T, String>,
) -> Result<Option<T>, String> {
    match value {
        Value::Null => Ok(None),
        value => read(value).map(Some),
    }
}

fn list<T>(value: &Value, read: impl Fn(&Value) -> Result<T, String>) -> Result<Vec<T>, String> {
    match value {
        Value::List(items) => items.iter().map(read).collect(),
        other => Err(format!("no list: {other:?}")),
    }
}

fn number(value: &Value) -> Result<u64, String> {
    match value {
        Value::Number(word) => word.parse().map_err(|_| format!("no whole number: {word}")),
        other => Err(format!("no number: {other:?}")),
    }
}

fn text(value: &Value) -> Result<String, String> {
    match value {
        Value::Text(text) => Ok(text.clone()),
        other => Err(format!("no text: {other:?}")),
    }
}

/// Bytes of a file as JSON has them: text without control characters as it is, else a character for each byte.
pub fn shown(bytes: &[u8]) -> String {
    match std::str::from_utf8(bytes) {
        Ok(text) if !text.chars().any(char::is_control) => text.to_string(),
        _ => bytes.iter().map(|byte| char::from(*byte)).collect(),
    }
}

/// A folder for files, made anew.
pub fn fresh_folder(path: &Path) -> Result<PathBuf, String> {
    let _ = fs::remove_dir_all(path);
    fs::create_dir_all(path).map_err(|error| format!("{}: {error}", path.display()))?;
    Ok(path.to_path_buf())
}
