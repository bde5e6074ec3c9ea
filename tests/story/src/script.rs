//! A script: the machine first, then one call a line.

use std::fmt;
use std::path::PathBuf;

use reference::calls::{apply, Call, Tables};
use reference::journal::{call_bytes, machine_bytes};

use crate::call::read_step;
use crate::machine::Reader;

/// What a line does.
#[derive(Clone, Debug, PartialEq, Eq)]
pub enum Step {
    Call(Call),
    /// The names of the nodes, with their zeros, end to end.
    Names(Vec<u8>),
    /// A note in a file.
    NoteFile(String),
    /// A note of a text and a data list, each laid out like the names.
    Note(Vec<u8>, Vec<u8>),
    /// A job's policy by a list of the note: which is the library's number for it.
    InstallNote {
        job: usize,
        which: u64,
    },
    /// Why a request would be served where it would be; it is not made.
    Why {
        job: usize,
        cpu: usize,
    },
    /// All pages of a node moved off it, with room for as many pairs as it has pages.
    Drain {
        node: usize,
    },
}

/// A line, as written.
#[derive(Clone, Debug, PartialEq, Eq)]
pub struct Line {
    pub number: usize,
    pub text: String,
    pub step: Step,
}

impl Line {
    /// The call of a line that is one call.
    pub fn call(&self) -> Option<&Call> {
        match &self.step {
            Step::Call(call) => Some(call),
            _ => None,
        }
    }
}

/// A whole script.
#[derive(Clone, Debug, PartialEq, Eq)]
pub struct Script {
    pub name: String,
    pub machine: Tables,
    pub lines: Vec<Line>,
    /// Where its files are.
    pub folder: PathBuf,
}

/// Where a script is wrong, and what would be right.
#[derive(Clone, Debug, PartialEq, Eq)]
pub struct Fault {
    pub line: usize,
    pub expected: String,
    pub found: String,
}

impl fmt::Display for Fault {
    fn fmt(&self, to: &mut fmt::Formatter) -> fmt::Result {
        write!(to, "line {}: expected {}, found {}", self.line, self.expected, self.found)
    }
}

/// The words of a line, and where it stands.
#[derive(Clone, Debug)]
pub struct Words<'a> {
    pub number: usize,
    pub words: Vec<&'a str>,
}

impl Words<'_> {
    /// The line with single spaces.
    pub fn text(&self) -> String {
        self.words.join(" ")
    }

    /// This line is wrong.
    pub fn fault(&self, expected: impl Into<String>) -> Fault {
        Fault { line: self.number, expected: expected.into(), found: format!("`{}`", self.text()) }
    }
}

/// The lines that say something: comments and empty lines left out.
fn lines_of(script: &str) -> Vec<Words<'_>> {
    let mut lines = Vec::new();
    for (index, line) in script.lines().enumerate() {
        let said = line.split('#').next().unwrap_or("");
        let words: Vec<&str> = said.split_whitespace().collect();
        if !words.is_empty() {
            lines.push(Words { number: index + 1, words });
        }
    }
    lines
}

/// Reads a script. A book kept by the rules says what each job is allowed, and its map.
pub fn read_script(text: &str) -> Result<Script, Fault> {
    let end = Fault { line: text.lines().count() + 1, expected: String::new(), found: String::from("the end") };
    let mut reader = Reader { lines: lines_of(text).into_iter(), end };
    let (name, machine) = reader.machine()?;
    let mut book = machine.clone();
    let mut read = Vec::new();
    for line in reader.lines {
        let step = read_step(&line.words, &book).map_err(|expected| line.fault(expected))?;
        // A policy by a note and a drain change neither what a job is allowed nor its map, and `why` changes nothing.
        if let Step::Call(call) = &step {
            apply(&mut book, call);
        }
        read.push(Line { number: line.number, text: line.text(), step });
    }
    Ok(Script { name, machine, lines: read, folder: PathBuf::new() })
}

/// The journal of a script, which may have no call of maps, no drain, no names and notes, and no `why`.
pub fn journal(script: &Script) -> Result<Vec<u8>, Fault> {
    let mut bytes = machine_bytes(&script.machine);
    for line in &script.lines {
        match line.call() {
            Some(call) if call.is_of_journals() => bytes.extend(call_bytes(call)),
            _ => {
                let expected = String::from("a call that a journal has (`story run` takes every script)");
                return Err(Fault { line: line.number, expected, found: format!("`{}`", line.text) });
            }
        }
    }
    Ok(bytes)
}
