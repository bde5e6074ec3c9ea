//! Prints the times of the reasons, written by the library and by careful Rust, as Markdown; an argument says how many rounds.

use std::hint::black_box;
use std::time::{Duration, Instant};

use bench::questions::{questions, Questions};
use reference::calls::Tables;

/// A call in one of the ways; gives how many reasons were written, or the refusal.
type Call = fn(&Tables, usize, usize, &mut [u8]) -> Result<usize, u8>;

const WAYS: [Call; 2] = [library, careful];
/// Of each kind with every N.
const QUESTIONS: usize = 16_384;
/// They are timed in pieces, so that a busy machine spoils few of them; the best time of each piece counts.
const PIECE: usize = 1_024;

fn library(tables: &Tables, job: usize, cpu: usize, out: &mut [u8]) -> Result<usize, u8> {
    let Tables { counts, cpus, distances, pages, jobs, free, maps } = tables;
    let found = spirerivet::reasons(counts, cpus, distances, pages, jobs, free, maps, job, cpu, out);
    found.map_err(|refusal| refusal.number())
}

fn careful(tables: &Tables, job: usize, cpu: usize, out: &mut [u8]) -> Result<usize, u8> {
    let Tables { counts, cpus, distances, pages, jobs, free, maps } = tables;
    bench::reasons::reasons(counts, cpus, distances, pages, jobs, free, maps, job, cpu, out)
}

fn main() {
    let rounds = std::env::args().nth(1).and_then(|rounds| rounds.parse().ok()).unwrap_or(60);
    println!("Reasons: nanoseconds per call, best of {rounds} rounds; ratio = proved library / careful Rust.\n");
    println!("| N | policy | library | Rust | ratio |\n|---|---|---|---|---|");
    for asked in [4, 16, 64].into_iter().flat_map(|nodes| questions(nodes, QUESTIONS)) {
        println!("{}", line(&asked, rounds));
    }
}

/// Both ways in turns, the other one first in every second round; all must write the same.
fn line(questions: &Questions, rounds: usize) -> String {
    let Questions { kind, nodes, tables, asked } = questions;
    for (job, cpu) in asked {
        let [library, careful] = WAYS.map(|call| {
            let mut out = [255; 64];
            (call(tables, *job, *cpu, &mut out), out)
        });
        assert!(library == careful && library.0 == Ok(*nodes), "{kind} N {nodes} job {job} CPU {cpu}");
    }
    let mut best = vec![[Duration::MAX; WAYS.len()]; QUESTIONS / PIECE];
    for turn in 0..2 * rounds {
        let way = (turn + turn / 2) % 2;
        for (piece, best) in asked.chunks(PIECE).zip(best.iter_mut()) {
            best[way] = best[way].min(time(WAYS[way], tables, piece));
        }
    }
    let [library, careful] = [0, 1].map(|way| {
        let all: Duration = best.iter().map(|piece| piece[way]).sum();
        all.as_nanos() as f64 / QUESTIONS as f64
    });
    format!("| {nodes} | {kind} | {library:.1} | {careful:.1} | {:.2} |", library / careful)
}

/// The time for some questions.
fn time(call: Call, tables: &Tables, asked: &[(usize, usize)]) -> Duration {
    let mut out = [0; 64];
    let begin = Instant::now();
    for (job, cpu) in asked {
        let _ = black_box(call(black_box(tables), *job, *cpu, &mut out));
    }
    black_box(out);
    begin.elapsed()
}
