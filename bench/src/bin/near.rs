//! Prints the times of near(x), listed by the library and by careful Rust, as Markdown; an argument says how many rounds.
//!
//! The call tests the whole distance table first. So it is timed as it is, and with N for x, which is refused after the same
//! test: what it takes more is near(x) alone.

use std::hint::black_box;
use std::time::{Duration, Instant};

use bench::near::{near_by_chains, near_by_sort};
use bench::rows::{rows, Machine, Rows};

/// A call in one of the ways; gives how many nodes were listed, or the refusal.
type Call = fn(usize, &[u8], u64, usize, &mut [u8]) -> Result<usize, u8>;

/// The library, and the two careful ways.
const WAYS: [Call; 3] = [library, near_by_sort, near_by_chains];
/// Of each kind with every N: so many that the processor does not learn its branches by heart, as it does with a few hundred.
const QUESTIONS: usize = 16_384;
/// They are timed in pieces, so that a busy machine spoils few of them; the best time of each piece counts.
const PIECE: usize = 1_024;

fn library(nodes: usize, distances: &[u8], set: u64, x: usize, out: &mut [u8]) -> Result<usize, u8> {
    spirerivet::near(nodes, distances, set, x, out).map(|order| order.nodes).map_err(|refusal| refusal.number())
}

fn main() {
    let rounds = std::env::args().nth(1).and_then(|rounds| rounds.parse().ok()).unwrap_or(60);
    let mut lines: Vec<Line> =
        [4, 16, 64].into_iter().flat_map(|nodes| rows(nodes, QUESTIONS)).map(Line::new).collect();
    for round in 0..rounds {
        lines.iter_mut().for_each(|line| line.round(round % 2 == 1));
    }
    println!("near(x): nanoseconds per call, best of {rounds} rounds of all x in turn. Alone = less a call that is refused 6");
    println!(
        "after the same test of the table. Sort = careful Rust by sorted keys, chains = by the library's own method.\n"
    );
    println!("| N | rows | library: whole | alone | sort: whole | alone | chains: whole | alone | whole: library / sort | alone: library / sort | library / chains |");
    println!("|---|---|---|---|---|---|---|---|---|---|---|");
    for line in lines {
        println!("{}", line.told());
    }
}

/// A kind of rows, and the best time of each piece and way so far: whole, and refused.
struct Line {
    rows: Rows,
    best: Vec<[[Duration; 2]; WAYS.len()]>,
}

impl Line {
    /// All ways must list the same.
    fn new(rows: Rows) -> Line {
        for Machine { distances, set } in &rows.machines {
            for x in 0..rows.nodes {
                let [library, sort, chains] = WAYS.map(|call| {
                    let mut out = [255; 64];
                    (call(rows.nodes, distances, *set, x, &mut out), out)
                });
                assert!(library.0.is_ok() && library == sort && library == chains, "{} N {}", rows.kind, rows.nodes);
            }
        }
        Line { rows, best: vec![[[Duration::MAX; 2]; WAYS.len()]; QUESTIONS / PIECE] }
    }

    /// Times all ways in turns, every other round backward.
    fn round(&mut self, backward: bool) {
        let Line { rows, best } = self;
        for turn in 0..2 * WAYS.len() {
            let turn = if backward { 2 * WAYS.len() - 1 - turn } else { turn };
            let (way, refused) = (turn / 2, turn % 2);
            for (machines, best) in rows.machines.chunks(PIECE / rows.nodes).zip(best.iter_mut()) {
                let best = &mut best[way][refused];
                *best = time(WAYS[way], rows.nodes, machines, refused == 1).min(*best);
            }
        }
    }

    /// The times of a call as a line of the table.
    fn told(&self) -> String {
        let [library, sort, chains] = [0, 1, 2].map(|way| {
            let [whole, refused] = [0, 1].map(|refused| {
                let all: Duration = self.best.iter().map(|piece| piece[way][refused]).sum();
                all.as_nanos() as f64 / QUESTIONS as f64
            });
            [whole, whole - refused]
        });
        let mut line = format!("| {} | {} |", self.rows.nodes, self.rows.kind);
        for [whole, alone] in [library, sort, chains] {
            line.push_str(&format!(" {whole:.1} | {alone:.1} |"));
        }
        let [whole, alone, chains] = [library[0] / sort[0], library[1] / sort[1], library[1] / chains[1]];
        format!("{line} {whole:.2} | {alone:.2} | {chains:.2} |")
    }
}

/// The time for all x of each machine; or for as many calls with N for x.
fn time(call: Call, nodes: usize, machines: &[Machine], refused: bool) -> Duration {
    let mut out = [0; 64];
    let begin = Instant::now();
    for Machine { distances, set } in machines {
        for x in 0..nodes {
            let x = if refused { nodes } else { x };
            let _ = black_box(call(nodes, black_box(distances), *set, black_box(x), &mut out));
        }
    }
    black_box(out);
    begin.elapsed()
}
