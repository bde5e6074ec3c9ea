//! Drain a board: the pages that are held on a node move off it, one after the other (M-107).

use crate::calls::Tables;
use crate::machine::{
    counts_fit, distances_fit, first_page, free_fits, jobs_fit, node_of_page, page_for_job, pages_fit, FREE,
};
use crate::maps::{is_good, map_of, maps_fit, nodes_in};
use crate::masks::without;
use crate::order::{near, Machine};
use crate::record::{read, well_formed, WORDS};

/// "old page then new" (M-107).
#[derive(Clone, Copy, Debug, PartialEq, Eq)]
pub struct Move {
    pub old: usize,
    pub new: usize,
}

/// A drain on its way: the tables as lent, as the moves so far have left them, and the node that is pulled.
pub struct Board<'a> {
    pub lent: &'a Tables,
    pub now: Tables,
    pub x: usize,
}

/// The steps of a drain. The tests put other ones in the stead of M-107's.
#[derive(Clone, Copy)]
pub struct Way {
    /// The pages to move, in their turn.
    pub turns: fn(&Board) -> Vec<usize>,
    /// The job that a page belongs to, its record and its map being good ones; else there is none.
    pub holder: fn(&Board, usize) -> Option<usize>,
    /// The nodes that a job's page may go to.
    pub limit: fn(&Board, usize) -> u64,
    /// Of these, in the order in which they are tried.
    pub order: fn(&Board, u64) -> Vec<usize>,
    /// The page that a node has for a job; none if it has no room.
    pub page: fn(&Board, usize, usize) -> Option<usize>,
    /// Enters a move in the tables.
    pub enter: fn(&mut Board, Move),
    /// The numbers that are written.
    pub numbers: fn(&[Move]) -> Vec<u32>,
}

/// M-107's own.
pub const M_107: Way = Way { turns, holder, limit, order, page, enter, numbers };

/// "Go through x's held pages from the lowest up."
fn turns(board: &Board) -> Vec<usize> {
    let first = first_page(&board.lent.counts, board.x);
    let past = first + board.lent.counts[board.x] as usize;
    (first..past).filter(|page| board.lent.pages[*page] != FREE).collect()
}

/// The job that the page's byte names, if there is one: "j + 1 is held by job j" (The machine).
pub fn named_job(board: &Board, page: usize) -> Option<usize> {
    let job = usize::from(board.now.pages[page]).checked_sub(1)?;
    (job < board.now.jobs.len() / WORDS).then_some(job)
}

/// "or its byte names no job, or the job's record or map is malformed".
fn holder(board: &Board, page: usize) -> Option<usize> {
    let (job, nodes) = (named_job(board, page)?, board.now.counts.len());
    let is_good_job = well_formed(nodes, &read(&board.now.jobs, job)) && is_good(nodes, map_of(&board.now.maps, job));
    is_good_job.then_some(job)
}

/// "its job's allowed set without x"; "a target must be in the job's map".
fn limit(board: &Board, job: usize) -> u64 {
    let allowed = read(&board.now.jobs, job).allowed;
    without(allowed & nodes_in(map_of(&board.now.maps, job)), board.x)
}

/// "near(x), taken over" these.
fn order(board: &Board, limit: u64) -> Vec<usize> {
    let Tables { counts, cpus, distances, .. } = &board.now;
    near(Machine { nodes: counts.len(), cpus, distances }, limit, board.x)
}

/// "the lowest free page"; "M-105's colours apply to the page".
fn page(board: &Board, node: usize, job: usize) -> Option<usize> {
    page_for_job(&board.now.counts, &board.now.pages, node, job)
}

/// The byte moves; "the counts follow each move".
fn enter(board: &mut Board, one: Move) {
    let node = node_of_page(&board.now.counts, one.new).expect("a page of the machine");
    board.now.free[board.x] += 1;
    board.now.free[node] -= 1;
    move_byte(board, one);
}

/// "In the ledger a move is a release and a grant in one step."
pub fn move_byte(board: &mut Board, Move { old, new }: Move) {
    board.now.pages[new] = board.now.pages[old];
    board.now.pages[old] = FREE;
}

/// "Write the pairs, old page then new, as 32-bit numbers ... in the order moved".
fn numbers(moves: &[Move]) -> Vec<u32> {
    moves.iter().flat_map(|one| [one.old as u32, one.new as u32]).collect()
}

/// Where a page goes: "the first node with room"; none if it "has nowhere to go at its turn".
fn target(way: &Way, board: &Board, old: usize) -> Option<Move> {
    let job = (way.holder)(board, old)?;
    for node in (way.order)(board, (way.limit)(board, job)) {
        if let Some(new) = (way.page)(board, node, job) {
            return Some(Move { old, new });
        }
    }
    None
}

/// How far a drain comes: the tables then, the moves, and whether the next page has nowhere to go.
pub struct Course {
    pub tables: Tables,
    pub moves: Vec<Move>,
    pub is_stuck: bool,
}

/// One move after the other, on a copy of the tables.
pub fn course(way: &Way, lent: &Tables, x: usize) -> Course {
    let mut board = Board { lent, now: lent.clone(), x };
    let mut moves = Vec::new();
    for old in (way.turns)(&board) {
        let Some(one) = target(way, &board, old) else {
            return Course { tables: board.now, moves, is_stuck: true };
        };
        (way.enter)(&mut board, one);
        moves.push(one);
    }
    Course { tables: board.now, moves, is_stuck: false }
}

/// What refusal 1 looks at: all that a drain is lent, which is every table but the CPUs (Refusal numbers).
fn tables_fit(tables: &Tables) -> bool {
    let Tables { counts, distances, pages, jobs, free, maps, .. } = tables;
    counts_fit(counts)
        && distances_fit(counts.len(), distances)
        && pages_fit(counts, pages)
        && jobs_fit(jobs)
        && free_fits(counts, free)
        && maps_fit(jobs, maps)
}

/// "Test 1, then x below N (else 6), 14": the refusals before any page is looked at for its job.
pub fn tested(tables: &Tables, x: usize) -> Result<(), u8> {
    if !tables_fit(tables) {
        return Err(1);
    }
    if x >= tables.counts.len() {
        return Err(6);
    }
    if !tables.counts_match() {
        return Err(14);
    }
    Ok(())
}

/// A drain in one way or another, with room for so many numbers; gives those that are written.
pub fn drain_by(way: &Way, tables: &mut Tables, x: usize, room: usize) -> Result<Vec<u32>, u8> {
    tested(tables, x)?;
    let Course { tables: after, moves, is_stuck } = course(way, tables, x);
    if is_stuck {
        return Err(17);
    }
    let numbers = (way.numbers)(&moves);
    if numbers.len() > room {
        return Err(11);
    }
    *tables = after;
    Ok(numbers)
}

/// M-107's drain: refusals in the order 1, 6, 14, 17, 11.
pub fn drain_pairs(tables: &mut Tables, x: usize, room: usize) -> Result<Vec<u32>, u8> {
    drain_by(&M_107, tables, x, room)
}

/// The same into a lent table: "answer how many" moves there are. Nothing past the pairs is written.
pub fn drain(tables: &mut Tables, x: usize, moves: &mut [u32]) -> Result<usize, u8> {
    let pairs = drain_pairs(tables, x, moves.len())?;
    moves[..pairs.len()].copy_from_slice(&pairs);
    Ok(pairs.len() / 2)
}
