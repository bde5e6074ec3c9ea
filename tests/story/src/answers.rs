//! Answers as lines for people, and the nodes as they fill up.

use reference::calls::Call;
use reference::journal::{call_bytes, ANSWER, ANSWER_MARK, BROKEN};

use spirerivet::Reason;

use crate::picture::{picture, picture_with, strip};
use crate::script::{Line, Script, Step};

/// The papers' words for a refusal.
pub fn refusal_words(number: u8) -> &'static str {
    match number {
        1 => "machine tables or job table length break the rules",
        2 => "no such job",
        3 => "no such CPU",
        4 => "the job's record isn't well formed",
        5 => "unknown mode or flag, or a flag where none may be",
        6 => "mask or list doesn't fit",
        7 => "allowed set empty",
        8 => "no node in the order has a free page",
        9 => "a rebind gives an empty effective set",
        10 => "page number out of range, or not held by this job",
        11 => "output shorter than the text",
        12 => "bad text",
        13 => "damaged journal",
        14 => "a free count disagrees with the page table",
        15 => "the map, or the list of nodes, isn't a good one",
        16 => "the note, or a list of names, isn't a good one",
        17 => "a page has nowhere to go",
        _ => "a number that the papers do not have",
    }
}

/// An answer as told: its refusal, 0 for none, and its node and page; FF and FFFFFFFF where it names none.
#[derive(Clone, Copy, Debug, PartialEq, Eq)]
pub struct Reply {
    pub refusal: u8,
    pub node: u8,
    pub page: u32,
}

/// What is told of a line: a call's answer, words, the reason of each node, or a drain's pairs, old page and new.
#[derive(Clone, Debug, PartialEq, Eq)]
pub enum Told {
    Reply(Reply),
    Words(String),
    Reasons(Vec<u8>),
    Moves(Vec<[u32; 2]>),
}

/// The kind that answers a call: its record's own.
fn kind_of(call: &Call) -> u8 {
    call_bytes(call)[2]
}

/// The kind and the fields of twelve bytes; none if they are no answer.
fn fields(bytes: &[u8]) -> Option<(u8, Reply)> {
    if bytes.len() != ANSWER || bytes[..2] != ANSWER_MARK || bytes[5..8] != [0, 0, 0] {
        return None;
    }
    let page = u32::from_le_bytes([bytes[8], bytes[9], bytes[10], bytes[11]]);
    Some((bytes[2], Reply { refusal: bytes[3], node: bytes[4], page }))
}

/// A refusal in the papers' words.
pub fn refused_words(refusal: u8) -> String {
    format!("refused {refusal}: {}", refusal_words(refusal))
}

/// What an answer says of its call, entered in the page table.
fn said(call: &Call, reply: Reply, pages: &mut [u8]) -> Result<String, String> {
    let Reply { refusal, node, page } = reply;
    let nowhere = node == 0xFF && page == u32::MAX;
    if refusal != 0 {
        if !nowhere {
            return Err(String::from("a refusal that names no node and no page"));
        }
        return Ok(refused_words(refusal));
    }
    let (byte, words) = match call {
        Call::Request { job, .. } if node != 0xFF => (*job as u8 + 1, format!("node {node}, page {page}")),
        Call::Request { .. } => return Err(String::from("a node of the job's map")),
        Call::Release { .. } if node == 0xFF => (0, format!("page {page}, outside the map, is free")),
        Call::Release { .. } => (0, format!("node {node}, page {page} is free")),
        _ if nowhere => return Ok(String::from("done")),
        _ => return Err(String::from("an answer that names no node and no page")),
    };
    match pages.get_mut(page as usize) {
        Some(held) => *held = byte,
        None => return Err(String::from("a page of this machine")),
    }
    Ok(words)
}

/// The reason of each node in words, and which one would serve.
fn reason_words(reasons: &[u8]) -> Result<(Vec<&'static str>, String), String> {
    let words: Option<Vec<&str>> = reasons.iter().map(|byte| Reason::of_number(*byte).map(Reason::words)).collect();
    let words = words.ok_or_else(|| String::from("reasons from 1 to 7"))?;
    let chosen = reasons.iter().position(|byte| *byte == Reason::Chosen.number());
    Ok((words, chosen.map_or(String::from("no node would serve"), |node| format!("node {node} would serve"))))
}

/// A drain's pairs in words, entered in the page table.
fn move_words(pairs: &[[u32; 2]], pages: &mut [u8]) -> Result<String, String> {
    let mut moves = Vec::new();
    for pair in pairs {
        let [old, new] = pair.map(|page| page as usize);
        if old.max(new) >= pages.len() {
            return Err(String::from("pages of this machine"));
        }
        (pages[new], pages[old]) = (pages[old], 0);
        moves.push(format!("{old} to {new}"));
    }
    Ok(match moves.len() {
        0 => String::from("no page to move"),
        1 => format!("page {}", moves[0]),
        _ => format!("pages {}", moves.join(", ")),
    })
}

/// The script told so far.
struct Telling<'a> {
    script: &'a Script,
    wide: usize,
    pages: Vec<u8>,
    lines: String,
}

impl Telling<'_> {
    fn new(script: &Script) -> Telling<'_> {
        let wide = script.lines.iter().map(|line| line.text.len()).max().unwrap_or(0);
        let lines = format!("machine {}\n", script.name).replace(" \n", "\n");
        Telling { script, wide, pages: script.machine.pages.clone(), lines }
    }

    /// Adds a line with its answer, and the nodes after it; then those with their reasons.
    fn line(&mut self, line: &Line, told: &Told) -> Result<(), String> {
        let (counts, mut why) = (&self.script.machine.counts, Vec::new());
        let answer = match (told, &line.step) {
            (Told::Reply(reply), Step::Call(call)) => said(call, *reply, &mut self.pages)?,
            (Told::Reasons(reasons), Step::Why { .. }) if reasons.len() == counts.len() => {
                let (words, answer) = reason_words(reasons)?;
                why = words;
                answer
            }
            (Told::Moves(pairs), Step::Drain { .. }) => move_words(pairs, &mut self.pages)?,
            (Told::Words(words), step) if !matches!(step, Step::Call(_)) => words.clone(),
            _ => return Err(String::from("an answer for a call, words for another line")),
        };
        let (wide, nodes) = (self.wide, strip(counts, &self.pages));
        self.lines.push_str(&format!("{:4}  {:wide$}  {nodes}  {answer}\n", line.number, line.text));
        self.lines.push_str(&picture_with(counts, &self.pages, &why));
        Ok(())
    }

    /// All lines, and the nodes at the end.
    fn end(self) -> String {
        self.lines + &picture(&self.script.machine.counts, &self.pages)
    }
}

/// What is wrong with an answer.
fn wrong(index: usize, line: &Line, expected: &str) -> String {
    format!("answer {index} (line {}): expected {expected}", line.number)
}

/// The script with the answers of a journal, line by line, and the nodes at the end.
pub fn told(script: &Script, answers: &[u8]) -> Result<String, String> {
    let mut telling = Telling::new(script);
    let mut rest = answers.chunks(ANSWER);
    for (index, line) in script.lines.iter().enumerate() {
        let wrong = |expected: &str| wrong(index, line, expected);
        let bytes = rest.next().ok_or_else(|| wrong("an answer, found the end"))?;
        let (kind, reply) = fields(bytes).ok_or_else(|| wrong("twelve bytes 4E 41 kind refusal node 0 0 0 page"))?;
        if kind == BROKEN {
            let words = refusal_words(reply.refusal);
            let stopped = format!("{:4}  the program stopped with {}: {words}\n", line.number, reply.refusal);
            telling.lines.push_str(&stopped);
            break;
        }
        let asked = line.call().map(kind_of).ok_or_else(|| wrong("a call that a journal has"))?;
        if kind != asked {
            return Err(wrong(&format!("kind {asked}, found {kind}")));
        }
        telling.line(line, &Told::Reply(reply)).map_err(|expected| wrong(&expected))?;
    }
    if rest.next().is_some() {
        return Err(String::from("expected no more answers than calls"));
    }
    Ok(telling.end())
}

/// The script with what is told of each of its lines, and the nodes at the end.
pub fn told_lines(script: &Script, told: &[Told]) -> Result<String, String> {
    let mut telling = Telling::new(script);
    if script.lines.len() != told.len() {
        return Err(format!("expected {} answers, found {}", script.lines.len(), told.len()));
    }
    for (index, (line, told)) in script.lines.iter().zip(told).enumerate() {
        telling.line(line, told).map_err(|expected| wrong(index, line, &expected))?;
    }
    Ok(telling.end())
}
