//! Prints the times of draining 65,536 pages, by the library and by careful Rust, as Markdown; an argument says how many rounds.

use std::hint::black_box;
use std::time::{Duration, Instant};

use bench::boards::{drains, Drain};
use reference::calls::Tables;

/// A drain of node 0 in one of the ways; gives how many pages moved, or the refusal.
type Call = fn(&mut Tables, &mut [u32]) -> Result<usize, u8>;

const WAYS: [Call; 2] = [library, careful];
const PAGES: u32 = 65_536;

fn library(tables: &mut Tables, moves: &mut [u32]) -> Result<usize, u8> {
    let Tables { counts, distances, pages, jobs, free, maps, .. } = tables;
    spirerivet::drain(counts, distances, pages, jobs, free, maps, 0, moves).map_err(|refusal| refusal.number())
}

fn careful(tables: &mut Tables, moves: &mut [u32]) -> Result<usize, u8> {
    let Tables { counts, distances, pages, jobs, free, maps, .. } = tables;
    bench::drain::drain(counts, distances, pages, jobs, free, maps, 0, moves)
}

fn main() {
    let rounds = std::env::args().nth(1).and_then(|rounds| rounds.parse().ok()).unwrap_or(60);
    println!("Draining 65,536 pages: microseconds, best of {rounds} rounds; ratio = proved library / careful Rust.\n");
    println!(
        "| into | they have | jobs | library | Rust | ratio | library, ns a page |\n|---|---|---|---|---|---|---|"
    );
    for (nodes, board) in
        [4, 64].into_iter().flat_map(|nodes| drains(nodes, PAGES).into_iter().map(move |b| (nodes, b)))
    {
        println!("{}", line(nodes, &board, rounds));
    }
}

/// Both ways in turns, the other one first in every second round; both must move the same pages.
fn line(nodes: usize, board: &Drain, rounds: usize) -> String {
    let Drain { targets, jobs, tables } = board;
    let (mut now, mut moves) = (tables.clone(), vec![0; 2 * PAGES as usize]);
    let [library, careful] = WAYS.map(|call| {
        restore(&mut now, tables);
        moves.fill(0);
        let moved = call(&mut now, &mut moves);
        (moved, now.clone(), moves.clone())
    });
    assert!(library == careful && library.0 == Ok(PAGES as usize), "N {nodes}, {targets}, {jobs} jobs");
    let mut best = [Duration::MAX; WAYS.len()];
    for turn in 0..2 * rounds {
        let way = (turn + turn / 2) % 2;
        restore(&mut now, tables);
        best[way] = best[way].min(time(WAYS[way], &mut now, &mut moves));
    }
    let [library, careful] = best.map(|time| time.as_nanos() as f64 / 1_000.0);
    let (others, a_page) = (nodes - 1, library * 1_000.0 / f64::from(PAGES));
    format!("| {others} | {targets} | {jobs} | {library:.0} | {careful:.0} | {:.2} | {a_page:.2} |", library / careful)
}

/// The tables as they were, in the same memory.
fn restore(now: &mut Tables, tables: &Tables) {
    now.pages.copy_from_slice(&tables.pages);
    now.free.copy_from_slice(&tables.free);
}

/// The time of one drain.
fn time(call: Call, tables: &mut Tables, moves: &mut [u32]) -> Duration {
    let begin = Instant::now();
    let _ = black_box(call(black_box(tables), black_box(moves)));
    begin.elapsed()
}
