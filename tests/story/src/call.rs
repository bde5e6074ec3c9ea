//! One line of a script after the machine: a call, a drain, names, a note or a question.

use reference::calls::{Call, Tables};
use reference::maps::{application_node, entries, map_of};
use reference::masks::{has, with};
use reference::record::{read, WORDS};
use reference::text::read_nodes;
use spirerivet::which;

use crate::script::Step;

/// What a line begins with.
const CALLS: &str =
    "`request`, `release`, `rebind`, `install`, `clear`, `map`, `keep`, `drain`, `names`, `note` or `why`";
const MODES: &str = "a mode: `default`, `preferred`, `bind`, `interleave`, `list`, `ring` or `early`, or `note`";

/// A plain number up to a limit.
pub fn number(word: &str, most: u64) -> Option<u64> {
    if word.is_empty() || !word.bytes().all(|byte| byte.is_ascii_digit()) {
        return None;
    }
    word.parse().ok().filter(|number| *number <= most)
}

/// A number, or what was expected.
fn needed(word: &str, what: &str, most: u64) -> Result<u64, String> {
    number(word, most).ok_or_else(|| format!("{what} from 0 to {most} in place of `{word}`"))
}

/// A job number as a journal's byte holds it.
fn job_of(word: &str) -> Result<usize, String> {
    needed(word, "a job", 255).map(|job| job as usize)
}

/// A CPU number likewise.
fn cpu_of(word: &str) -> Result<usize, String> {
    needed(word, "a CPU", 255).map(|cpu| cpu as usize)
}

/// The nodes that the job is allowed by the book.
fn allowed_to(book: &Tables, job: usize) -> u64 {
    if job < book.jobs.len() / WORDS {
        read(&book.jobs, job).allowed
    } else {
        0
    }
}

/// The nodes of the job's map by the book; all nodes for no job.
fn numbers_of(book: &Tables, job: usize) -> Vec<u8> {
    if job < book.jobs.len() / WORDS {
        entries(map_of(&book.maps, job)).to_vec()
    } else {
        (0..book.counts.len()).map(|node| node as u8).collect()
    }
}

/// The nodes that the job is allowed, by its own numbers; those outside its map have none.
fn allowed_by_number(book: &Tables, job: usize) -> u64 {
    let (allowed, numbers) = (allowed_to(book, job), numbers_of(book, job));
    let numbered = (0..64).filter(|node| has(allowed, *node)).filter_map(|node| application_node(&numbers, node));
    numbered.fold(0, |mask, node| with(mask, usize::from(node.0)))
}

/// A node list below a limit.
fn nodes_of(word: &str, limit: usize, allowed: u64) -> Result<u64, String> {
    if word == "none" {
        return Ok(0);
    }
    read_nodes(limit, allowed, word.as_bytes())
        .map_err(|_| format!("nodes below {limit} such as `0-3,5`, `!2`, `+0-1`, `all` or `none` in place of `{word}`"))
}

/// Places or nodes split by commas.
fn bytes_of(word: &str, what: &str) -> Result<Vec<u8>, String> {
    let bytes: Option<Vec<u8>> = word.split(',').map(|byte| number(byte, 255).map(|byte| byte as u8)).collect();
    match bytes {
        Some(bytes) if bytes.len() <= 255 => Ok(bytes),
        _ => Err(format!("{what} in place of `{word}`")),
    }
}

/// Places of an install.
fn places_of(word: &str) -> Result<Vec<u8>, String> {
    bytes_of(word, "places from 0 to 255 such as `3,3,1`")
}

/// The nodes of a map, or those kept of it.
fn list_of(word: &str) -> Result<Vec<u8>, String> {
    match word {
        "none" => Ok(Vec::new()),
        _ => bytes_of(word, "nodes from 0 to 255 such as `3,1`, or `none`,"),
    }
}

/// Names with their zeros, end to end.
fn laid_out(names: &[&str]) -> Vec<u8> {
    names.iter().flat_map(|name| name.bytes().chain([0])).collect()
}

/// A note: a file, or names after `text`, up to the first `data`, and after that.
fn read_note(words: &[&str]) -> Result<Step, String> {
    match words {
        ["text", names @ ..] => {
            let end = names.iter().position(|name| *name == "data").unwrap_or(names.len());
            Ok(Step::Note(laid_out(&names[..end]), laid_out(names.get(end + 1..).unwrap_or(&[]))))
        }
        ["data", names @ ..] => Ok(Step::Note(Vec::new(), laid_out(names))),
        [file] => Ok(Step::NoteFile(file.to_string())),
        _ => Err(String::from("`note FILE`, or `note text NAMES data NAMES` or one of the two lists")),
    }
}

/// What the words of a line say, or what was expected.
pub fn read_step(words: &[&str], book: &Tables) -> Result<Step, String> {
    match words {
        ["names", names @ ..] => Ok(Step::Names(laid_out(names))),
        ["note", note @ ..] => read_note(note),
        ["install", job, "note", "text"] => Ok(Step::InstallNote { job: job_of(job)?, which: which::TEXT }),
        ["install", job, "note", "data"] => Ok(Step::InstallNote { job: job_of(job)?, which: which::DATA }),
        ["install", _, "note", ..] => Err(String::from("`text` or `data` after `note`")),
        ["why", job, "cpu", cpu] => Ok(Step::Why { job: job_of(job)?, cpu: cpu_of(cpu)? }),
        ["why", ..] => Err(String::from("`why JOB cpu CPU`")),
        ["drain", node] => Ok(Step::Drain { node: needed(node, "a node", 255)? as usize }),
        ["drain", ..] => Err(String::from("`drain NODE`")),
        _ => read_call(words, book).map(Step::Call),
    }
}

/// The call that the words of a line say, or what was expected.
fn read_call(words: &[&str], book: &Tables) -> Result<Call, String> {
    match words {
        ["request", job, "cpu", cpu] => Ok(Call::Request { job: job_of(job)?, cpu: cpu_of(cpu)? }),
        ["release", job, "page", page] => {
            let page = needed(page, "a page", u64::from(u32::MAX))? as usize;
            Ok(Call::Release { job: job_of(job)?, page })
        }
        ["rebind", job, nodes] => {
            let job = job_of(job)?;
            Ok(Call::Rebind { job, allowed: nodes_of(nodes, book.counts.len(), allowed_to(book, job))? })
        }
        ["clear", job] => Ok(Call::Clear { job: job_of(job)? }),
        ["map", job, nodes] => Ok(Call::SetMap { job: job_of(job)?, list: list_of(nodes)? }),
        ["keep", job, nodes] => Ok(Call::KeepNodes { job: job_of(job)?, kept: list_of(nodes)? }),
        ["install", job, policy @ ..] => read_install(job_of(job)?, policy, book),
        ["request", ..] => Err(String::from("`request JOB cpu CPU`")),
        ["release", ..] => Err(String::from("`release JOB page PAGE`")),
        ["rebind", ..] => Err(String::from("`rebind JOB NODES`")),
        ["clear", ..] => Err(String::from("`clear JOB`")),
        ["map", ..] => Err(String::from("`map JOB NODES`")),
        ["keep", ..] => Err(String::from("`keep JOB NODES`")),
        ["install"] => Err(String::from("`install JOB MODE` and what the mode carries")),
        _ => Err(String::from(CALLS)),
    }
}

/// The number of a mode.
fn mode_of(word: &str) -> Option<u64> {
    let modes = ["default", "preferred", "bind", "interleave", "list", "ring", "early"];
    modes.iter().position(|mode| *mode == word).map(|mode| mode as u64)
}

/// An install: a mode and what it carries.
fn read_install(job: usize, policy: &[&str], book: &Tables) -> Result<Call, String> {
    let Some((name, carried)) = policy.split_first() else {
        return Err(String::from(MODES));
    };
    let mode = mode_of(name).ok_or(MODES)?;
    match (mode, carried) {
        (0 | 1, []) => Ok(Call::Install { job, mode, flag: 0, mask: 0, places: Vec::new() }),
        (1..=3, [nodes]) => masked(job, mode, 0, nodes, book),
        (1..=3, [nodes, "static"]) => masked(job, mode, 1, nodes, book),
        (1..=3, [nodes, "relative"]) => masked(job, mode, 2, nodes, book),
        (4..=6, [places]) => Ok(Call::Install { job, mode, flag: 0, mask: 0, places: places_of(places)? }),
        (0, _) => Err(String::from("nothing after `default`")),
        (1..=3, _) => Err(format!("a node list after `{name}`, then `static`, `relative` or nothing")),
        _ => Err(format!("places such as `3,3,1` after `{name}`, and nothing else")),
    }
}

/// An install of a mode that carries a mask, by the job's own numbers; a relative one has 64 bits.
fn masked(job: usize, mode: u64, flag: u64, nodes: &str, book: &Tables) -> Result<Call, String> {
    let limit = if flag == 2 { 64 } else { numbers_of(book, job).len() };
    let mask = nodes_of(nodes, limit, allowed_by_number(book, job))?;
    Ok(Call::Install { job, mode, flag, mask, places: Vec::new() })
}
