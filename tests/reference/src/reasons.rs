//! Why this node: for each node of the machine the reason that it would serve a request or not (M-106).

use crate::calls::{find, record_and_order, Asked, Tables};
use crate::machine::{free_fits, UNREACHABLE};
use crate::maps::nodes_in;
use crate::masks::{has, lowest};
use crate::order::{distance, static_and_empty, target, Machine, Try};
use crate::record::{closes, has_a_list, places_of, Record, BIND, INTERLEAVE, PREFERRED};

/// The last reason: "7 had room but came later" (M-106).
pub const LATER: u8 = 7;

/// What the reasons go by: the tables, the job's record and map, the CPU's node, the request's own search order and the
/// node that it would choose, none where it would be refused 8.
pub struct Question<'a> {
    pub tables: &'a Tables,
    pub record: Record,
    pub map: &'a [u8],
    pub cpu_node: usize,
    pub order: Vec<Try>,
    pub chosen: Option<usize>,
}

/// Does a reason fit a node?
pub type Test = fn(&Question, usize) -> bool;

/// Reasons 1 to 6, in this order; what fits none is 7 (M-106).
pub const TESTS: [Test; 6] = [not_allowed, outside_bind_set, unreachable, named_by_no_place, full, chosen];

/// "1 not allowed"; "With M-103, code 1 includes nodes outside the map" (M-106).
fn not_allowed(question: &Question, node: usize) -> bool {
    !has(question.record.allowed, node) || !has(nodes_in(question.map), node)
}

/// "2 outside a bind set in force" (M-106): a bind with static and an empty effective set goes by near(CPU's node) alone.
pub fn outside_bind_set(question: &Question, node: usize) -> bool {
    let record = &question.record;
    record.mode == BIND && !static_and_empty(record) && !has(record.effective, node)
}

/// Can a node be reached from another: "255 for unreachable" (The machine).
pub fn is_reached(question: &Question, from: usize, node: usize) -> bool {
    let Tables { counts, cpus, distances, .. } = question.tables;
    distance(Machine { nodes: counts.len(), cpus, distances }, from, node) != UNREACHABLE
}

/// The x of the near(x) in use (Search order): preferred has its lowest effective node, interleave its target; where they
/// have none, and in default and bind, it is the CPU's node.
fn x_in_use(question: &Question) -> usize {
    let x = match question.record.mode {
        PREFERRED => lowest(question.record.effective),
        INTERLEAVE => target(&question.record),
        _ => None,
    };
    x.unwrap_or(question.cpu_node)
}

/// "3 unreachable, in modes other than 4 to 6" (M-106).
pub fn unreachable(question: &Question, node: usize) -> bool {
    !has_a_list(question.record.mode) && !is_reached(question, x_in_use(question), node)
}

/// Is the node named by one of these places?
pub fn is_named(places: &[u8], node: usize) -> bool {
    places.iter().any(|place| usize::from(*place) == node)
}

/// "4 named by no place, in modes 4 to 6 (under a closing 255: nor reachable)" (M-106).
fn named_by_no_place(question: &Question, node: usize) -> bool {
    let (mode, places) = (question.record.mode, places_of(&question.record));
    let by_closing = closes(mode, places) && is_reached(question, question.cpu_node, node);
    has_a_list(mode) && !is_named(places, node) && !by_closing
}

/// "5 full"; "Under M-100 full means counted 0" (M-106).
pub fn full(question: &Question, node: usize) -> bool {
    question.tables.free[node] == 0
}

/// "6 chosen" (M-106).
fn chosen(question: &Question, node: usize) -> bool {
    question.chosen == Some(node)
}

/// "the first that fits" (M-106).
pub fn first_that_fits(tests: &[Test; 6], question: &Question, node: usize) -> u8 {
    for (before, test) in tests.iter().enumerate() {
        if test(question, node) {
            return before as u8 + 1;
        }
    }
    LATER
}

/// "write N reason bytes" (M-106), by these tests.
pub fn reasons_by(tests: &[Test; 6], question: &Question) -> Vec<u8> {
    (0..question.tables.counts.len()).map(|node| first_that_fits(tests, question, node)).collect()
}

/// A way to give the reasons. The tests put other ways in the stead of M-106's.
pub type Way = fn(&Question) -> Vec<u8>;

/// M-106's own.
pub fn reasons(question: &Question) -> Vec<u8> {
    reasons_by(&TESTS, question)
}

/// The refusals 1, 2, 15, 3, 4, 11, 14, in this order; else what the reasons go by: "Output shorter than N is 11, tested
/// after the request's own refusals 1 to 4 and 15, before 14" (M-106). 8 is none: the reasons say why.
fn question(tables: &Tables, job: usize, cpu: usize, room: usize) -> Result<Question<'_>, u8> {
    let Tables { counts, cpus, distances, pages, jobs, free, maps } = tables;
    if !free_fits(counts, free) {
        return Err(1);
    }
    let machine = Machine { nodes: counts.len(), cpus, distances };
    let Asked { record, order, map } = record_and_order(machine, counts, pages, jobs, Some(maps), job, cpu)?;
    if room < counts.len() {
        return Err(11);
    }
    let chosen = match find(counts, pages, free, &order, job) {
        Ok((one, _)) => Some(one.node),
        Err(8) => None,
        Err(number) => return Err(number),
    };
    let map = map.expect("the maps were lent");
    Ok(Question { tables, record, map, cpu_node: usize::from(cpus[cpu]), order, chosen })
}

/// Writes the reasons that a way gives; how many.
pub fn write_by(way: Way, tables: &Tables, job: usize, cpu: usize, out: &mut [u8]) -> Result<usize, u8> {
    let bytes = way(&question(tables, job, cpu, out.len())?);
    out[..bytes.len()].copy_from_slice(&bytes);
    Ok(bytes.len())
}

/// "For a request that would be granted or refused 8, write N reason bytes" (M-106): N; or a refusal. "It changes neither
/// record nor pages."
pub fn write_reasons(tables: &Tables, job: usize, cpu: usize, out: &mut [u8]) -> Result<usize, u8> {
    write_by(reasons, tables, job, cpu, out)
}
