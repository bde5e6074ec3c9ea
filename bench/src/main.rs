//! Prints nanoseconds per call and ratios as Markdown. The ways take turns; an argument says how many rounds, a second one
//! which part alone: `calls`, `search` or `colours`.

use std::hint::black_box;
use std::time::Duration;

use bench::colours::{each, lines, row, HEAD};
use bench::fast;
use bench::search::{load_all, lowest_zero, lowest_zero_by_bytes, lowest_zero_by_memchr, COLOURS};
use bench::ways::{run, WAYS};
use bench::works::{works, Work};
use reference::calls::Tables;

/// Calls are timed in pieces, so that a busy machine spoils few of them; the best time of each piece counts. A replay is one
/// call for each piece.
const PIECE: usize = 1_024;

fn main() {
    let arguments: Vec<String> = std::env::args().skip(1).collect();
    let rounds = arguments.first().and_then(|rounds| rounds.parse().ok()).unwrap_or(15);
    let asked = |part: &str| arguments.get(1).map_or(true, |only| only == part);
    if asked("calls") {
        calls(rounds);
    }
    if asked("search") {
        search(rounds);
    }
    if asked("colours") {
        println!(
            "\nThe page search by colours: a request of job 2 on one node of 65,536 pages; nanoseconds.\n\n{HEAD}"
        );
        lines().iter().for_each(|line| println!("{}", row(line, 4 * rounds)));
    }
}

/// The workloads, call by call and as lists.
fn calls(rounds: usize) {
    let mut rows: Vec<Row> = [4, 16, 64].into_iter().flat_map(works).map(Row::new).collect();
    for round in 0..rounds {
        rows.iter_mut().for_each(|row| row.round(round % 2 == 1));
    }
    println!("Nanoseconds per call, best of {rounds} rounds; ratio = proved library / careful Rust.");
    println!("Nodes have 65,536 pages, at N = 64 16,384: that is all there may be.\n");
    println!("| N | workload | calls | single: library | Rust | ratio | replay: library | Rust | ratio |");
    println!("|---|---|---|---|---|---|---|---|---|");
    for row in rows {
        println!("{}", row.line());
    }
}

/// The page search beside loops that do no more than search.
fn search(rounds: usize) {
    println!("\nThe page search: a request on one node of 65,536 pages, all held but one, by a job of that page's colour; nanoseconds.\n");
    println!("| free page | request: library | Rust | ratio | blocks alone | library / blocks | memchr alone | library / memchr | 16-byte loads alone | loads / memchr | byte by byte |");
    println!("|---|---|---|---|---|---|---|---|---|---|---|");
    for place in [3, 100, 1_000, 16_000, 65_535] {
        println!("{}", search_row(place, 4 * rounds));
    }
}

/// A workload, the best time of each piece and way so far, and what all ways answered and left.
struct Row {
    work: Work,
    best: Vec<[Duration; WAYS.len()]>,
    agreed: Option<(Tables, Vec<u64>)>,
}

impl Row {
    fn new(work: Work) -> Row {
        let best = vec![[Duration::MAX; WAYS.len()]; work.calls.len().div_ceil(PIECE)];
        Row { work, best, agreed: None }
    }

    /// Runs all ways in turns; every round must answer and leave the same. Every other round goes backward, since the
    /// second of two ways finds the calls in the cache.
    fn round(&mut self, backward: bool) {
        let Row { work, best, agreed } = self;
        for turn in 0..WAYS.len() {
            let way = if backward { WAYS.len() - 1 - turn } else { turn };
            let name = WAYS[way];
            let mut tables = work.start.clone();
            let mut answers = vec![0; work.calls.len()];
            let pieces = work.calls.chunks(PIECE).zip(work.words.chunks(16 * PIECE)).zip(answers.chunks_mut(PIECE));
            for (((calls, words), answers), best) in pieces.zip(best.iter_mut()) {
                best[way] = best[way].min(run(name, &mut tables, calls, words, answers));
            }
            let (left, answered) = agreed.get_or_insert_with(|| (tables.clone(), answers.clone()));
            assert!(*answered == answers && *left == tables, "{name:?} differs in {} N {}", work.name, work.nodes);
        }
    }

    /// The times of a call as a line of the table.
    fn line(&self) -> String {
        let Work { name, nodes, calls, .. } = &self.work;
        let [single, fast_single, replay, fast_replay] = [0, 1, 2, 3].map(|way| {
            let all: Duration = self.best.iter().map(|piece| piece[way]).sum();
            all.as_nanos() as f64 / calls.len() as f64
        });
        format!(
            "| {nodes} | {name} | {} | {single:.1} | {fast_single:.1} | {:.2} | {replay:.1} | {fast_replay:.1} | {:.2} |",
            calls.len(),
            single / fast_single,
            replay / fast_replay,
        )
    }
}

/// Requests that find the free page at a place, beside the search alone.
fn search_row(place: usize, rounds: usize) -> String {
    let mut pages = vec![77; 65_536];
    let (mut jobs, job) = ([0, 0, 1, 0, 0, 0].repeat(COLOURS), place % COLOURS);
    let (mut free, maps) = ([0], spirerivet::identity_maps(1, COLOURS));
    let mut best = [f64::MAX; 6];
    for _ in 0..rounds {
        let library = each(|| {
            (pages[place], free[0]) = (0, 1);
            black_box(spirerivet::request(&[65_536], &[0], &[10], &mut pages, &mut jobs, &mut free, &maps, job, 0));
        });
        let rust = each(|| {
            (pages[place], free[0]) = (0, 1);
            black_box(fast::request(&[65_536], &[0], &[10], &mut pages, &mut jobs, &mut free, &maps, job, 0));
        });
        pages[place] = 0;
        let blocks = each(|| {
            black_box(lowest_zero(black_box(&pages)));
        });
        let memchr = each(|| {
            black_box(lowest_zero_by_memchr(black_box(&pages)));
        });
        let loads = each(|| load_all(black_box(&pages[..place])));
        let bytes = each(|| {
            black_box(lowest_zero_by_bytes(black_box(&pages)));
        });
        for (least, time) in best.iter_mut().zip([library, rust, blocks, memchr, loads, bytes]) {
            *least = least.min(time);
        }
    }
    let [library, rust, blocks, memchr, loads, bytes] = best;
    let ratios = [rust, blocks, memchr].map(|time| library / time);
    format!(
        "| {place} | {library:.1} | {rust:.1} | {:.2} | {blocks:.1} | {:.2} | {memchr:.1} | {:.2} | {loads:.1} | {:.2} | {bytes:.1} |",
        ratios[0],
        ratios[1],
        ratios[2],
        loads / memchr
    )
}
