//! A script run by the proved library: its calls by replays, its drains, notes and questions by the calls for them.

use hosts::words;
use reference::calls::{Call, Tables};
use reference::journal::MOST_NODES;
use spirerivet::AppNode;

use crate::answers::{refused_words, told_lines, Reply, Told};
use crate::script::{Line, Script, Step};

/// The tables of a run, the names of the nodes and the note.
struct Run<'a> {
    script: &'a Script,
    tables: Tables,
    names: Vec<u8>,
    note: Vec<u8>,
}

/// The names of a note, each as the library finds it.
fn names_in(note: &[u8]) -> String {
    let names = (0..).map(|k| spirerivet::name(note, k)).take_while(|name| !name.is_empty());
    let names: Vec<String> = names.map(|name| String::from_utf8_lossy(name).into_owned()).collect();
    if names.is_empty() {
        return String::from("no names");
    }
    names.join(" ")
}

impl Run<'_> {
    /// Makes calls as one list.
    fn replay<'a>(&mut self, calls: impl Iterator<Item = &'a Call>) -> Result<Vec<Reply>, String> {
        let Tables { counts, cpus, distances, pages, jobs, free, maps } = &mut self.tables;
        let calls: Vec<u64> = calls.flat_map(words).collect();
        let mut answers = vec![0; calls.len() / spirerivet::CALL_WORDS];
        spirerivet::replay(counts, cpus, distances, pages, jobs, free, maps, &calls, &mut answers)
            .map_err(|refusal| format!("the whole script: {refusal}"))?;
        let reply = |word: &u64| Reply { refusal: *word as u8, node: (*word >> 8) as u8, page: (*word >> 32) as u32 };
        Ok(answers.iter().map(reply).collect())
    }

    /// The places of a list of the note for a job, or the refusal.
    fn places(&self, job: usize, which: u64, note: &[u8]) -> Result<Vec<u8>, u8> {
        let (mut out, Tables { counts, jobs, maps, .. }) = ([AppNode(0); spirerivet::MOST_PLACES], &self.tables);
        let found = spirerivet::note_places(counts.len(), jobs, maps, &self.names, note, job, which, &mut out);
        let length = found.map_err(|refusal| refusal.number())?;
        Ok(out[..length].iter().map(|place| place.0).collect())
    }

    /// Takes names for the nodes, if the library does for a note without names; a refusal leaves those that there were.
    fn name_nodes(&mut self, names: &[u8]) -> String {
        let before = std::mem::replace(&mut self.names, names.to_vec());
        match self.places(0, 0, &[0; 16]) {
            Ok(_) => String::from("done"),
            Err(refusal) => {
                self.names = before;
                refused_words(refusal)
            }
        }
    }

    /// Writes a note of two lists; a refusal leaves the one that there was.
    fn write_note(&mut self, text: &[u8], data: &[u8]) -> String {
        let mut out = vec![0; 16 + text.len() + data.len()];
        match spirerivet::write_note(text, data, &mut out) {
            Ok(length) => {
                self.note = out[..length].to_vec();
                format!("{length} bytes: {}", names_in(&self.note))
            }
            Err(refusal) => refused_words(refusal.number()),
        }
    }

    /// Takes the note of a file.
    fn read_note(&mut self, file: &str) -> Result<String, String> {
        let path = self.script.folder.join(file);
        self.note = std::fs::read(&path).map_err(|error| format!("{}: {error}", path.display()))?;
        Ok(format!("{} bytes: {}", self.note.len(), names_in(&self.note)))
    }

    /// Installs a list of the note: mode 4 with its places, or the default.
    fn install_note(&mut self, job: usize, which: u64) -> Result<String, String> {
        let places = match self.places(job, which, &self.note) {
            Ok(places) => places,
            Err(refusal) => return Ok(refused_words(refusal)),
        };
        let list: Vec<String> = places.iter().map(u8::to_string).collect();
        let (mode, policy) =
            if places.is_empty() { (0, String::from("default")) } else { (4, format!("list {}", list.join(","))) };
        let install = Call::Install { job, mode, flag: 0, mask: 0, places };
        Ok(match self.replay([&install].into_iter())?[0].refusal {
            0 => format!("{policy}: done"),
            refusal => format!("{policy}: {}", refused_words(refusal)),
        })
    }

    /// The reason of each node for a request, or the refusal.
    fn why(&self, job: usize, cpu: usize) -> Told {
        let (mut out, Tables { counts, cpus, distances, pages, jobs, free, maps }) = ([0; MOST_NODES], &self.tables);
        match spirerivet::reasons(counts, cpus, distances, pages, jobs, free, maps, job, cpu, &mut out) {
            Ok(nodes) => Told::Reasons(out[..nodes].to_vec()),
            Err(refusal) => Told::Words(refused_words(refusal.number())),
        }
    }

    /// The pairs of a drain, or the refusal.
    fn drain(&mut self, node: usize) -> Told {
        let Tables { counts, distances, pages, jobs, free, maps, .. } = &mut self.tables;
        let mut moves = vec![[0; 2]; counts.get(node).map_or(0, |count| *count as usize)];
        match spirerivet::drain(counts, distances, pages, jobs, free, maps, node, moves.as_flattened_mut()) {
            Ok(moved) => Told::Moves(moves[..moved].to_vec()),
            Err(refusal) => Told::Words(refused_words(refusal.number())),
        }
    }

    /// Makes lines that are all calls, or one that is none.
    fn lines(&mut self, lines: &[Line]) -> Result<Vec<Told>, String> {
        let words = match &lines[0].step {
            Step::Call(_) => {
                let replies = self.replay(lines.iter().filter_map(Line::call))?;
                return Ok(replies.into_iter().map(Told::Reply).collect());
            }
            Step::Names(names) => self.name_nodes(names),
            Step::Note(text, data) => self.write_note(text, data),
            Step::NoteFile(file) => self.read_note(file)?,
            Step::InstallNote { job, which } => self.install_note(*job, *which)?,
            Step::Why { job, cpu } => return Ok(vec![self.why(*job, *cpu)]),
            Step::Drain { node } => return Ok(vec![self.drain(*node)]),
        };
        Ok(vec![Told::Words(words)])
    }
}

/// The script with the library's answers, line by line, and the nodes at the end.
pub fn run(script: &Script) -> Result<String, String> {
    let mut run = Run { script, tables: script.machine.clone(), names: Vec::new(), note: Vec::new() };
    let mut told = Vec::new();
    for lines in script.lines.chunk_by(|one, next| one.call().is_some() && next.call().is_some()) {
        told.extend(run.lines(lines)?);
    }
    told_lines(script, &told)
}
