//! M-107's drains counted, so that a test can say that it was not empty; and wrong ways to drain.

use crate::calls::Tables;
use crate::drain::{course, drain_by, drain_pairs, move_byte, named_job, tested, Board, Course, Move, Way, M_107};
use crate::machine::{first_page, free_counts, lowest_free_page, node_of_page, page_for_job, COLOURS, FREE};
use crate::maps::{map_of, nodes_in};
use crate::masks::without;
use crate::record::{read, well_formed, write, EARLY, INTERLEAVE, RING, WORDS};

/// A whole drain: the tables, the node, the room in numbers; gives the numbers that are written.
pub type Drain = fn(&mut Tables, usize, usize) -> Result<Vec<u32>, u8>;

/// Ways to drain that M-107 rules out.
pub const OTHER_WAYS: [(&str, Drain); 23] = [
    ("x among its own targets", |t, x, room| drain_by(&Way { limit: with_x, ..M_107 }, t, x, room)),
    ("room as at entry: two pages to one place", |t, x, room| {
        drain_by(&Way { page: as_at_entry, enter: recounted, ..M_107 }, t, x, room)
    }),
    ("counts not moved", |t, x, room| drain_by(&Way { enter: move_byte, ..M_107 }, t, x, room)),
    ("the old page stays held", |t, x, room| drain_by(&Way { enter: copied, ..M_107 }, t, x, room)),
    ("cursors move", |t, x, room| drain_by(&Way { enter: with_cursor, ..M_107 }, t, x, room)),
    ("refused 17 after some pages have moved", stops_half_way),
    ("new page before old", |t, x, room| drain_by(&Way { numbers: new_first, ..M_107 }, t, x, room)),
    ("from the highest page down", |t, x, room| drain_by(&Way { turns: downward, ..M_107 }, t, x, room)),
    ("pairs from the last to the first", |t, x, room| drain_by(&Way { numbers: last_first, ..M_107 }, t, x, room)),
    ("colour by the byte", |t, x, room| drain_by(&Way { page: colour_by_byte, ..M_107 }, t, x, room)),
    ("colour of job 0", |t, x, room| drain_by(&Way { page: colour_of_job_0, ..M_107 }, t, x, room)),
    ("colour of the first page's job", |t, x, room| drain_by(&Way { page: colour_of_first, ..M_107 }, t, x, room)),
    ("no colours", |t, x, room| drain_by(&Way { page: without_colour, ..M_107 }, t, x, room)),
    ("effective nodes for the allowed", |t, x, room| drain_by(&Way { limit: effective, ..M_107 }, t, x, room)),
    ("the map no limit", |t, x, room| drain_by(&Way { limit: allowed_alone, ..M_107 }, t, x, room)),
    ("the map alone the limit", |t, x, room| drain_by(&Way { limit: map_alone, ..M_107 }, t, x, room)),
    ("a bad map not looked at", |t, x, room| drain_by(&Way { holder: by_record, ..M_107 }, t, x, room)),
    ("nodes by number", |t, x, room| drain_by(&Way { order: by_number, ..M_107 }, t, x, room)),
    ("distances to x, not from it", |t, x, room| drain_by(&Way { order: by_column, ..M_107 }, t, x, room)),
    ("11 before 17", short_first),
    ("14 only for nodes that are touched", touched_counts),
    ("every job looked at", every_job),
    ("pages of no job stay", pages_of_no_job_stay),
];

fn with_x(board: &Board, job: usize) -> u64 {
    allowed_of(board, job) & nodes_in(map_of(&board.now.maps, job))
}

fn allowed_of(board: &Board, job: usize) -> u64 {
    read(&board.now.jobs, job).allowed
}

fn allowed_alone(board: &Board, job: usize) -> u64 {
    without(allowed_of(board, job), board.x)
}

fn map_alone(board: &Board, job: usize) -> u64 {
    without(nodes_in(map_of(&board.now.maps, job)), board.x)
}

/// In modes without a mask the allowed nodes.
fn effective(board: &Board, job: usize) -> u64 {
    match read(&board.now.jobs, job).effective {
        0 => (M_107.limit)(board, job),
        effective => (M_107.limit)(board, job) & effective,
    }
}

fn as_at_entry(board: &Board, node: usize, job: usize) -> Option<usize> {
    page_for_job(&board.lent.counts, &board.lent.pages, node, job)
}

fn without_colour(board: &Board, node: usize, _job: usize) -> Option<usize> {
    lowest_free_page(&board.now.counts, &board.now.pages, node)
}

fn colour_by_byte(board: &Board, node: usize, job: usize) -> Option<usize> {
    page_for_job(&board.now.counts, &board.now.pages, node, job + 1)
}

fn colour_of_job_0(board: &Board, node: usize, _job: usize) -> Option<usize> {
    page_for_job(&board.now.counts, &board.now.pages, node, 0)
}

fn colour_of_first(board: &Board, node: usize, _job: usize) -> Option<usize> {
    let first = (M_107.turns)(board)[0];
    page_for_job(&board.now.counts, &board.now.pages, node, usize::from(board.lent.pages[first]) - 1)
}

fn recounted(board: &mut Board, one: Move) {
    move_byte(board, one);
    board.now.free = free_counts(&board.now.counts, &board.now.pages);
}

fn copied(board: &mut Board, one: Move) {
    let byte = board.now.pages[one.old];
    (M_107.enter)(board, one);
    board.now.pages[one.old] = byte;
}

/// As a grant of the last place or target would leave it.
fn with_cursor(board: &mut Board, one: Move) {
    let job = usize::from(board.now.pages[one.old]) - 1;
    let mut record = read(&board.now.jobs, job);
    record.cursor = match record.mode {
        INTERLEAVE => board.now.counts.len() as u8,
        RING | EARLY => record.length,
        _ => 0,
    };
    write(&mut board.now.jobs, job, &record);
    (M_107.enter)(board, one);
}

fn new_first(moves: &[Move]) -> Vec<u32> {
    moves.iter().flat_map(|one| [one.new as u32, one.old as u32]).collect()
}

fn last_first(moves: &[Move]) -> Vec<u32> {
    let backward: Vec<Move> = moves.iter().rev().copied().collect();
    (M_107.numbers)(&backward)
}

fn downward(board: &Board) -> Vec<usize> {
    (M_107.turns)(board).into_iter().rev().collect()
}

fn by_record(board: &Board, page: usize) -> Option<usize> {
    named_job(board, page).filter(|job| well_formed(board.now.counts.len(), &read(&board.now.jobs, *job)))
}

fn by_number(board: &Board, limit: u64) -> Vec<usize> {
    let mut nodes = (M_107.order)(board, limit);
    nodes.sort();
    nodes
}

/// The same tables with row and column of every node exchanged.
fn by_column(board: &Board, limit: u64) -> Vec<usize> {
    let (nodes, distances) = (board.now.counts.len(), &board.now.distances);
    let turned = (0..nodes * nodes).map(|cell| distances[cell % nodes * nodes + cell / nodes]).collect();
    let now = Tables { distances: turned, ..board.now.clone() };
    (M_107.order)(&Board { now, ..*board }, limit)
}

fn stops_half_way(tables: &mut Tables, x: usize, room: usize) -> Result<Vec<u32>, u8> {
    let found = drain_pairs(tables, x, room);
    if found == Err(17) {
        *tables = course(&M_107, tables, x).tables;
    }
    found
}

fn short_first(tables: &mut Tables, x: usize, room: usize) -> Result<Vec<u32>, u8> {
    let found = drain_pairs(tables, x, room);
    let held = || (M_107.turns)(&Board { lent: tables, now: tables.clone(), x }).len();
    match found {
        Err(17) if 2 * held() > room => Err(11),
        found => found,
    }
}

/// The counts of x and of the nodes that a page goes to are tested, and no other.
fn touched_counts(tables: &mut Tables, x: usize, room: usize) -> Result<Vec<u32>, u8> {
    if tested(tables, x) != Err(14) {
        return drain_pairs(tables, x, room);
    }
    let mut counted = tables.clone().counted();
    let Course { moves, .. } = course(&M_107, &counted, x);
    let node_of = |one: &Move| node_of_page(&tables.counts, one.new);
    let is_wrong = |node: usize| tables.free[node] != counted.free[node];
    if is_wrong(x) || moves.iter().filter_map(node_of).any(is_wrong) {
        return Err(14);
    }
    let numbers = drain_pairs(&mut counted, x, room)?;
    let kept = free_counts(&tables.counts, &tables.pages);
    for (count, (new, old)) in tables.free.iter_mut().zip(counted.free.iter().zip(kept)) {
        *count = count.wrapping_add(new.wrapping_sub(old));
    }
    tables.pages = counted.pages;
    Ok(numbers)
}

fn every_job(tables: &mut Tables, x: usize, room: usize) -> Result<Vec<u32>, u8> {
    tested(tables, x)?;
    let is_bad = |job: usize| !well_formed(tables.counts.len(), &read(&tables.jobs, job));
    if (0..tables.jobs.len() / WORDS).any(is_bad) {
        return Err(17);
    }
    drain_pairs(tables, x, room)
}

fn pages_of_no_job_stay(tables: &mut Tables, x: usize, room: usize) -> Result<Vec<u32>, u8> {
    let named = |board: &Board| {
        let turns = (M_107.turns)(board).into_iter();
        turns.filter(|page| named_job(board, *page).is_some()).collect()
    };
    drain_by(&Way { turns: named, ..M_107 }, tables, x, room)
}

/// What drains showed (M-107).
#[derive(Clone, Copy, Debug, Default, PartialEq, Eq)]
pub struct Drains {
    /// Granted: with pages that moved, and of a node that held none.
    pub moved: u64,
    pub empty: u64,
    /// Pages that moved: to the nearest node that its job may use, and past one that is full.
    pub to_nearest: u64,
    pub past_full: u64,
    /// Pages that moved to one of their job's colour, free ones below it being passed over, and where no such page was free.
    pub passed_over: u64,
    pub colour_gone: u64,
    /// Drains in which pages of several jobs moved, and to several nodes.
    pub several_jobs: u64,
    pub several_nodes: u64,
    /// Refused 17: at the first page, and after some could have moved.
    pub stuck_at_once: u64,
    pub stuck_later: u64,
    /// How often another way would have answered or left otherwise.
    pub told_apart: [u64; OTHER_WAYS.len()],
}

impl Drains {
    /// Enters a drain, with the tables before it, and its outcome.
    pub fn enter(&mut self, before: &Tables, x: usize, room: usize, outcome: Result<&[u32], u8>) {
        match outcome {
            Ok([]) => self.empty += 1,
            Ok(pairs) => self.enter_moves(before, x, pairs),
            Err(17) if course(&M_107, before, x).moves.is_empty() => self.stuck_at_once += 1,
            Err(17) => self.stuck_later += 1,
            Err(_) => {}
        }
        let mut after = before.clone();
        let expected = drain_pairs(&mut after, x, room);
        assert_eq!(expected.as_deref().map_err(|number| *number), outcome);
        for (apart, (_, way)) in self.told_apart.iter_mut().zip(OTHER_WAYS) {
            let mut other = before.clone();
            *apart += u64::from(way(&mut other, x, room) != expected || other != after);
        }
    }

    /// Enters the moves of a drain, one after the other.
    fn enter_moves(&mut self, before: &Tables, x: usize, pairs: &[u32]) {
        let mut board = Board { lent: before, now: before.clone(), x };
        let (mut jobs, mut nodes) = (0, 0);
        for pair in pairs.chunks(2) {
            let one = Move { old: pair[0] as usize, new: pair[1] as usize };
            let job = usize::from(board.now.pages[one.old]) - 1;
            let node = node_of_page(&before.counts, one.new).expect("a page of the machine");
            self.enter_move(&board, job, node, one.new);
            (jobs, nodes) = (jobs | 1u64 << job, nodes | 1u64 << node);
            (M_107.enter)(&mut board, one);
        }
        self.moved += 1;
        self.several_jobs += u64::from(jobs.count_ones() > 1);
        self.several_nodes += u64::from(nodes.count_ones() > 1);
    }

    fn enter_move(&mut self, board: &Board, job: usize, node: usize, new: usize) {
        let nearest = (M_107.order)(board, (M_107.limit)(board, job)).first() == Some(&node);
        *if nearest { &mut self.to_nearest } else { &mut self.past_full } += 1;
        let first = first_page(&board.now.counts, node);
        let has_colour = (new - first) % COLOURS == job % COLOURS;
        let is_lowest = board.now.pages[first..new].iter().all(|byte| *byte != FREE);
        self.passed_over += u64::from(has_colour && !is_lowest);
        self.colour_gone += u64::from(!has_colour);
    }

    /// Each came at least so often.
    pub fn each_at_least(&self, times: u64) -> bool {
        let Drains { moved, empty, to_nearest, past_full, passed_over, colour_gone, .. } = *self;
        let Drains { several_jobs, several_nodes, stuck_at_once, stuck_later, told_apart, .. } = *self;
        let counts = [moved, empty, to_nearest, past_full, passed_over, colour_gone, several_jobs, several_nodes];
        let often = |count: &u64| *count >= times;
        counts.iter().all(often) && [stuck_at_once, stuck_later].iter().all(often) && told_apart.iter().all(often)
    }
}

#[cfg(test)]
mod tests {
    use super::*;
    use crate::drain_cases::{drain_case, DrainCase};
    use crate::drain_requests::{by_requests, wrong_after};
    use crate::generate::list;
    use crate::{calls::apply_each, calls::Call};
    use std::collections::BTreeMap;

    /// Beside other calls, and by the page bytes alone.
    fn check(told: &str, before: &Tables, x: usize, after: &Tables, outcome: Result<&[u32], u8>) {
        match outcome {
            Ok(pairs) => {
                assert_eq!(wrong_after(before, after, x), None, "{told}");
                assert_eq!(by_requests(before, x).as_deref(), Some(pairs), "{told}");
            }
            Err(number) => {
                assert_eq!(before, after, "{told}");
                assert!(number != 17 || by_requests(before, x).is_none(), "{told}");
                assert!(number != 11 || by_requests(before, x).is_some(), "{told}");
            }
        }
    }

    #[test]
    fn drains_show_everything_and_tell_the_other_ways_apart() {
        let (mut shown, mut refused) = (Drains::default(), BTreeMap::new());
        for seed in (0..20_000).filter(|seed| seed % 97 != 96) {
            let DrainCase { tables, node, room } = drain_case(seed);
            let mut after = tables.clone();
            let found = drain_pairs(&mut after, node, room);
            let outcome = found.as_deref().map_err(|number| *number);
            check(&format!("seed {seed}"), &tables, node, &after, outcome);
            shown.enter(&tables, node, room, outcome);
            *refused.entry(outcome.err().unwrap_or(0)).or_insert(0) += 1;
        }
        println!("{shown:?}\nrefused {refused:?}");
        assert!(shown.each_at_least(100), "{shown:?}");
        assert_eq!(refused.keys().copied().collect::<Vec<u8>>(), [0, 1, 6, 11, 14, 17]);
        assert!(refused.values().all(|times| *times > 300), "{refused:?}");
    }

    #[test]
    fn lists_have_drains_of_every_outcome() {
        let (mut shown, mut refused) = (Drains::default(), BTreeMap::new());
        for seed in 0..300 {
            let (start, calls) = list(seed, 150);
            apply_each(&start, &calls, |before, call, _| {
                let Call::Drain { node, room } = call else { return };
                let mut after = before.clone();
                let found = drain_pairs(&mut after, *node, *room);
                let outcome = found.as_deref().map_err(|number| *number);
                check(&format!("list {seed}"), before, *node, &after, outcome);
                shown.enter(before, *node, *room, outcome);
                *refused.entry(outcome.err().unwrap_or(0)).or_insert(0) += 1;
            });
        }
        println!("{shown:?}\nrefused {refused:?}");
        assert_eq!(refused.keys().copied().collect::<Vec<u8>>(), [0, 6, 11, 17]);
        assert!(refused.values().all(|times| *times > 20) && shown.moved > 100, "{shown:?} {refused:?}");
    }
}
