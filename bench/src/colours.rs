//! The page search by colours, timed: requests of one job of colour 2 on one node of 65,536 pages (M-105).

use std::hint::black_box;
use std::time::Instant;

use spirerivet::Answer;

use crate::fast;
use crate::search::{lowest_zero, lowest_zero_by_memchr};

pub const PAGES: usize = 65_536;
/// The job, and its colour.
pub const JOB: usize = 2;

/// A page table, and the page that the job gets.
pub struct Line {
    pub name: String,
    pub pages: Vec<u8>,
    pub granted: usize,
}

impl Line {
    fn new(name: &str, granted: usize, is_free: impl Fn(usize) -> bool) -> Line {
        let pages = (0..PAGES).map(|page| if is_free(page) { 0 } else { 77 }).collect();
        Line { name: name.to_string(), pages, granted }
    }
}

/// The lines of the table.
pub fn lines() -> Vec<Line> {
    let of_colour = |page: usize| page % 4 == JOB;
    let mut lines = Vec::new();
    for first in [2, 102, 1_002, 16_002, 65_534] {
        lines.push(Line::new(&format!("from {first} on, which has the colour"), first, |page| page >= first));
    }
    for first in [3, 100, 1_000, 16_000] {
        let granted = (first..).find(|page| of_colour(*page)).expect("one in four");
        lines.push(Line::new(&format!("from {first} on, which has another"), granted, |page| page >= first));
    }
    lines.push(Line::new("65534 alone, which has the colour", 65_534, |page| page == 65_534));
    lines.push(Line::new("65535 alone, which has another", 65_535, |page| page == 65_535));
    for first in [0, 1_000] {
        let name = format!("from {first} on, none of the colour");
        lines.push(Line::new(&name, first, |page| page >= first && !of_colour(page)));
    }
    lines
}

/// Nanoseconds of one turn, out of some hundred.
pub fn each(mut turn: impl FnMut()) -> f64 {
    let turns = 400;
    let begin = Instant::now();
    for _ in 0..turns {
        turn();
    }
    begin.elapsed().as_nanos() as f64 / f64::from(turns)
}

/// The node's tables: pages, records, free counts and maps.
pub struct Node {
    pages: Vec<u8>,
    jobs: Vec<u64>,
    free: [u32; 1],
    maps: Vec<u8>,
}

impl Node {
    pub fn new(pages: &[u8]) -> Node {
        let free = [pages.iter().filter(|page| **page == 0).count() as u32];
        let jobs = [0, 0, 1, 0, 0, 0].repeat(JOB + 1);
        Node { pages: pages.to_vec(), jobs, free, maps: spirerivet::identity_maps(1, JOB + 1) }
    }

    /// The page that the library grants, given back.
    pub fn by_library(&mut self) -> usize {
        let Node { pages, jobs, free, maps } = self;
        match spirerivet::request(&[PAGES as u32], &[0], &[10], pages, jobs, free, maps, JOB, 0) {
            Answer::Granted { page, .. } => self.given_back(page as usize),
            answer => panic!("{answer:?}"),
        }
    }

    /// The page that the careful Rust grants, given back.
    pub fn by_rust(&mut self) -> usize {
        let Node { pages, jobs, free, maps } = self;
        let out = fast::request(&[PAGES as u32], &[0], &[10], pages, jobs, free, maps, JOB, 0);
        self.given_back(out.page as usize)
    }

    /// The page that a search without colours finds, marked and given back.
    fn without_colours(&mut self, search: fn(&[u8]) -> Option<usize>) -> usize {
        let page = search(black_box(&self.pages)).expect("a free page");
        (self.pages[page], self.free[0]) = (JOB as u8 + 1, self.free[0] - 1);
        self.given_back(page)
    }

    fn given_back(&mut self, page: usize) -> usize {
        (self.pages[page], self.free[0]) = (0, self.free[0] + 1);
        page
    }
}

pub const HEAD: &str = "| free pages | granted | request: library | Rust | ratio | blocks without colours | library / blocks | memchr without colours | library / memchr |
|---|---|---|---|---|---|---|---|---|";

/// A line of the table, with the page that the library granted.
pub fn row(line: &Line, rounds: usize) -> String {
    let (mut node, mut granted, mut best) = (Node::new(&line.pages), 0, [f64::MAX; 4]);
    for _ in 0..rounds {
        let library = each(|| granted = black_box(node.by_library()));
        let rust = each(|| {
            black_box(node.by_rust());
        });
        let [blocks, memchr] = [lowest_zero, lowest_zero_by_memchr].map(|search: fn(&[u8]) -> Option<usize>| {
            each(|| {
                black_box(node.without_colours(search));
            })
        });
        for (least, time) in best.iter_mut().zip([library, rust, blocks, memchr]) {
            *least = least.min(time);
        }
    }
    let [library, rust, blocks, memchr] = best;
    let [by_rust, by_blocks, by_memchr] = [rust, blocks, memchr].map(|time| library / time);
    format!(
        "| {} | {granted} | {library:.1} | {rust:.1} | {by_rust:.2} | {blocks:.1} | {by_blocks:.2} | {memchr:.1} | {by_memchr:.2} |",
        line.name
    )
}
