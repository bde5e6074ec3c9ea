//! One call made by both, and compared.

use reference::calls::{apply_with, Answer, Call, Tables};
use reference::machine::all_pages;
use reference::maps::AppNode;

use crate::drain::library_drain;
use crate::lent::LentTables;
use crate::NUMBERS;

/// The library's answer in the second implementation's words.
fn in_reference_words(answer: spirerivet::Answer) -> Answer {
    match answer {
        spirerivet::Answer::Granted { node, page } => Answer::Granted { node: AppNode(node.0), page },
        spirerivet::Answer::Released { node, page } => {
            Answer::Released { node: node.map(|node| AppNode(node.0)), page }
        }
        spirerivet::Answer::Drained { moves } => Answer::Drained { moves },
        spirerivet::Answer::Done => Answer::Done,
        spirerivet::Answer::Refused(refusal) => Answer::Refused(refusal.number()),
    }
}

/// One call by the library.
pub fn library_call(nodes: usize, lent: &mut LentTables, call: &Call) -> Answer {
    let LentTables { counts, cpus, distances, pages, jobs, free, maps } = lent;
    let (counts, cpus, distances) = (counts.now(), cpus.now(), distances.now());
    let (pages, jobs, free, maps) = (pages.now_mut(), jobs.now_mut(), free.now_mut(), maps.now_mut());
    in_reference_words(match call {
        Call::Request { job, cpu } => spirerivet::request(counts, cpus, distances, pages, jobs, free, maps, *job, *cpu),
        Call::Release { job, page } => spirerivet::release(counts, pages, jobs, free, maps, *job, *page),
        Call::Install { job, mode, flag, mask, places } => {
            let places = spirerivet::AppNode::list(places);
            spirerivet::install(nodes, jobs, maps, *job, *mode, *flag, *mask, places)
        }
        Call::Rebind { job, allowed } => spirerivet::rebind(nodes, jobs, *job, *allowed),
        Call::Clear { job } => spirerivet::clear(nodes, jobs, *job),
        Call::Fresh => spirerivet::fresh(counts, pages, free),
        Call::KeepNodes { job, kept } => {
            spirerivet::keep_nodes(nodes, jobs, maps, *job, spirerivet::AppNode::list(kept))
        }
        Call::SetMap { job, list } => spirerivet::set_map(nodes, jobs, maps, *job, spirerivet::SysNode::list(list)),
        Call::Drain { node, room } => return drain_call(lent, *node, *room),
    })
}

/// A list of calls by the library's replay.
pub fn library_replay(lent: &mut LentTables, list: &[u64], answers: &mut [u64]) -> Result<usize, u8> {
    let LentTables { counts, cpus, distances, pages, jobs, free, maps } = lent;
    let (counts, cpus, distances) = (counts.now(), cpus.now(), distances.now());
    let (pages, jobs, free, maps) = (pages.now_mut(), jobs.now_mut(), free.now_mut(), maps.now_mut());
    let ran = spirerivet::replay(counts, cpus, distances, pages, jobs, free, maps, list, answers);
    ran.map_err(|refusal| refusal.number())
}

/// A drain as a call of a list, which is handed no pairs: the room that it says, or all that it could fill.
fn drain_call(lent: &mut LentTables, node: usize, room: usize) -> Answer {
    let mut moves = vec![0; room.min(2 * lent.pages.now().len())];
    match library_drain(lent, node, &mut moves) {
        Ok(moved) => Answer::Drained { moves: moved as u32 },
        Err(number) => Answer::Refused(number),
    }
}

/// What calls showed, so that a test can say it was not empty.
#[derive(Clone, Debug, Default)]
pub struct Seen {
    pub calls: u64,
    pub granted: u64,
    pub released: u64,
    pub drained: u64,
    pub done: u64,
    /// By refusal number.
    pub refused: [u64; NUMBERS],
}

impl Seen {
    /// Enters an answer.
    pub fn enter(&mut self, answer: Answer) {
        self.calls += 1;
        match answer {
            Answer::Granted { .. } => self.granted += 1,
            Answer::Released { .. } => self.released += 1,
            Answer::Drained { .. } => self.drained += 1,
            Answer::Done => self.done += 1,
            Answer::Refused(number) => self.refused[usize::from(number)] += 1,
        }
    }
}

/// The same tables twice: one for each implementation.
pub struct Both {
    pub nodes: usize,
    pub tables: Tables,
    pub lent: LentTables,
}

impl Both {
    pub fn new(nodes: usize, tables: Tables) -> Both {
        let lent = LentTables::new(&tables);
        Both { nodes, tables, lent }
    }

    /// Makes the call by both: same answer, same tables; a refusal changes nothing, and no call a byte past the last page.
    pub fn call(&mut self, call: &Call, seen: &mut Seen) -> Result<Answer, String> {
        let before = self.tables.clone();
        let expected = apply_with(self.nodes, &mut self.tables, call);
        let found = library_call(self.nodes, &mut self.lent, call);
        let told = || format!("N {} call {}", self.nodes, shown(call));
        if found != expected {
            return Err(format!("{}: library {found:?}, reference {expected:?}", told()));
        }
        if let Some(name) = self.lent.difference(&self.tables) {
            return Err(format!("{}: {found:?}: {name} differ", told()));
        }
        if let (Answer::Refused(_), Some(name)) = (found, self.lent.difference(&before)) {
            return Err(format!("{}: {found:?} changed {name}", told()));
        }
        let past = (all_pages(&before.counts) as usize).min(before.pages.len());
        if self.lent.pages.now()[past..] != before.pages[past..] {
            return Err(format!("{}: {found:?} changed a byte past the last page", told()));
        }
        seen.enter(found);
        Ok(found)
    }
}

/// The call for a message, long lists cut.
fn shown(call: &Call) -> String {
    let mut text = format!("{call:?}");
    text.truncate(400);
    text
}
