//! M-105's examples: 01's pages on machine A for jobs other than 0, nodes with more pages than there are colours, and what
//! colours leave as it was.

use crate::calls::{Answer, Call, Tables};
use crate::examples::{flat, fresh_a, granted, machine, released, Example};
use crate::record::{BIND, DEFAULT, EARLY, INTERLEAVE, LIST, RING};

/// A job is allowed all nodes and gets a policy.
fn rents(example: Example, job: usize, mode: u8, mask: u64, places: &[u8]) -> Example {
    let (allowed, mode, places) = ((1 << example.start.counts.len()) - 1, u64::from(mode), places.to_vec());
    example
        .call(Call::Rebind { job, allowed }, Answer::Done)
        .call(Call::Install { job, mode, flag: 0, mask, places }, Answer::Done)
}

/// Requests of a job from one CPU, granted from these nodes and pages.
fn grants(mut example: Example, job: usize, cpu: usize, pages: &[(u8, u32)]) -> Example {
    for (node, page) in pages {
        example = example.call(Call::Request { job, cpu }, granted(*node, *page));
    }
    example
}

/// A request of a job that is refused 8.
fn no_room(example: Example, job: usize, cpu: usize) -> Example {
    example.call(Call::Request { job, cpu }, Answer::Refused(8))
}

/// A job gives a page back.
fn gives_back(example: Example, job: usize, node: u8, page: u32) -> Example {
    example.call(Call::Release { job, page: page as usize }, released(node, page))
}

/// 01's page examples: name, CPU, mode, mask, places; the nodes and pages for a job of colour 0, 2 or 3 and of colour 1. A
/// node of machine A has two pages, of the colours 0 and 1: where the job's is not there, the lowest free page counts.
type OnA = (&'static str, usize, u8, u64, &'static [u8], [&'static [(u8, u32)]; 2]);
#[rustfmt::skip]
const ON_A: [OnA; 6] = [
    ("default, CPU 4", 4, DEFAULT, 0, &[],
        [&[(0, 0), (0, 1), (3, 4), (3, 5), (1, 2), (1, 3)], &[(0, 1), (0, 0), (3, 5), (3, 4), (1, 3), (1, 2)]]),
    ("bind 1,3, CPU 0", 0, BIND, 0b1010, &[],
        [&[(1, 2), (1, 3), (3, 4), (3, 5)], &[(1, 3), (1, 2), (3, 5), (3, 4)]]),
    ("interleave 1-3", 0, INTERLEAVE, 0b1110, &[],
        [&[(1, 2), (0, 0), (3, 4), (1, 3), (0, 1), (3, 5)], &[(1, 3), (0, 1), (3, 5), (1, 2), (0, 0), (3, 4)]]),
    ("ring {3,3,1}", 0, RING, 0, &[3, 3, 1],
        [&[(3, 4), (3, 5), (1, 2), (1, 3)], &[(3, 5), (3, 4), (1, 3), (1, 2)]]),
    ("list {3,3,1}", 0, LIST, 0, &[3, 3, 1],
        [&[(3, 4), (3, 5), (1, 2), (1, 3)], &[(3, 5), (3, 4), (1, 3), (1, 2)]]),
    ("early {0,1,3}", 0, EARLY, 0, &[0, 1, 3],
        [&[(0, 0), (0, 1), (1, 2), (3, 4), (1, 3), (3, 5)], &[(0, 1), (0, 0), (1, 3), (3, 5), (1, 2), (3, 4)]]),
];

/// "The page numbers in 01's examples stay true for job 0"; so they do for jobs 2, 3 and 4, and not for jobs 1 and 5.
pub fn on_machine_a() -> Vec<Example> {
    let mut examples = Vec::new();
    for (name, cpu, mode, mask, places, pages) in ON_A {
        for (job, pages) in [0, 1, 2, 3, 4, 5].map(|job| (job, pages[usize::from(job % 4 == 1)])) {
            let example = Example::new(&format!("M-105: {name}, job {job}"), fresh_a());
            let example = grants(rents(example, job, mode, mask, places), job, cpu, pages);
            examples.push(no_room(example, job, cpu));
        }
    }
    examples
}

/// Nodes of 7 and of 6 pages: node 1's first page is 7, whose offset is 0.
fn seven_and_six() -> Tables {
    machine(&[7, 6], &[0, 1], flat(2, 20))
}

/// "the lowest free page whose offset in its node, mod 4, equals the job number mod 4; failing that, the lowest free page".
pub fn in_larger_nodes() -> Vec<Example> {
    let node_1_first: [(usize, [u32; 13]); 6] = [
        (0, [7, 11, 8, 9, 10, 12, 0, 4, 1, 2, 3, 5, 6]),
        (1, [8, 12, 7, 9, 10, 11, 1, 5, 0, 2, 3, 4, 6]),
        (2, [9, 7, 8, 10, 11, 12, 2, 6, 0, 1, 3, 4, 5]),
        (3, [10, 7, 8, 9, 11, 12, 3, 0, 1, 2, 4, 5, 6]),
        (5, [8, 12, 7, 9, 10, 11, 1, 5, 0, 2, 3, 4, 6]),
        (6, [9, 7, 8, 10, 11, 12, 2, 6, 0, 1, 3, 4, 5]),
    ];
    let whole = |(job, pages): (usize, [u32; 13])| {
        let example =
            Example::new(&format!("M-105: pages 7 and 6, job {job}, CPU 1: {pages:?}, then 8"), seven_and_six());
        let pages = pages.map(|page| (u8::from(page > 6), page));
        no_room(grants(rents(example, job, DEFAULT, 0, &[]), job, 1, &pages), job, 1)
    };
    node_1_first.into_iter().map(whole).collect()
}

/// "On the same tables the node picked doesn't change, nor when refusal 8 is given."
pub fn between_nodes() -> Vec<Example> {
    let on = |name: &str, start| Example::new(&format!("M-105: {name}"), start);
    // Job 2 has both pages of its colour in node 0, job 3 the one of its; all of node 1 is free.
    let list =
        rents(on("a node without the colour grants before one with it: list", seven_and_six()), 2, LIST, 0, &[0, 1]);
    let near =
        rents(on("a node without the colour grants before one with it: near", seven_and_six()), 3, DEFAULT, 0, &[]);
    let turns = rents(on("a place without the colour keeps its turn", seven_and_six()), 3, RING, 0, &[0, 1]);
    // A node counted 0 is passed over with all its colours (M-100).
    let uncounted = Tables { free: vec![0, 6], ..seven_and_six() };
    let passed = rents(on("a node counted 0 is passed over, whatever its colours", uncounted), 1, DEFAULT, 0, &[]);
    vec![
        grants(list, 2, 0, &[(0, 2), (0, 6), (0, 0), (0, 1), (0, 3), (0, 4), (0, 5), (1, 9)]),
        grants(near, 3, 0, &[(0, 3), (0, 0), (0, 1), (0, 2), (0, 4), (0, 5), (0, 6), (1, 10)]),
        grants(turns, 3, 0, &[(0, 3), (1, 10), (0, 0), (1, 7), (0, 1), (1, 8)]),
        grants(passed, 1, 0, &[(1, 8), (1, 12), (1, 7)]).free(&[0, 3]),
    ]
}

/// Two jobs of different colours do not meet while both colours last; two of one colour share it.
pub fn between_jobs() -> Vec<Example> {
    let eight = || machine(&[3, 8], &[1], flat(2, 20));
    let mut four = Example::new("M-105: four jobs, a colour each", eight());
    let mut shared = Example::new("M-105: jobs 1 and 5 share a colour", eight());
    for job in 0..8 {
        four = rents(four, job, BIND, 0b10, &[]);
        shared = rents(shared, job, BIND, 0b10, &[]);
    }
    for (job, page) in [(0, 3), (1, 4), (2, 5), (3, 6), (3, 10), (2, 9), (1, 8), (0, 7)] {
        four = grants(four, job, 0, &[(1, page)]);
    }
    shared = grants(shared, 1, 0, &[(1, 4)]);
    shared = grants(shared, 5, 0, &[(1, 8), (1, 3)]);
    shared = gives_back(shared, 1, 1, 4);
    shared = grants(shared, 0, 0, &[(1, 7), (1, 4)]);
    // A page of the colour that was given back comes before a lower one of another.
    let mut back = rents(Example::new("M-105: pages given back", seven_and_six()), 2, DEFAULT, 0, &[]);
    back = grants(back, 2, 1, &[(1, 9), (1, 7), (1, 8), (1, 10)]);
    back = gives_back(gives_back(back, 2, 1, 7), 2, 1, 9);
    back = grants(back, 2, 1, &[(1, 9), (1, 7), (1, 11)]);
    back = gives_back(gives_back(back, 2, 1, 8), 2, 1, 7);
    vec![no_room(four, 4, 0), shared, grants(back, 2, 1, &[(1, 7), (1, 8), (1, 12), (0, 2)])]
}

/// Page tables handed in: a node of 300 pages from page 1 on, all held but some.
pub fn handed_in() -> Vec<Example> {
    let free_at = |name: &str, offsets: &[usize]| {
        let mut start = machine(&[1, 300], &[1], flat(2, 20));
        start.pages.fill(200);
        for offset in offsets {
            start.pages[1 + offset] = 0;
        }
        Example::new(&format!("M-105: handed in, {name}"), start.counted())
    };
    let far = rents(free_at("the colour is far behind the lowest free page", &[5, 6, 290, 294]), 2, DEFAULT, 0, &[]);
    let last = rents(free_at("the colour is that of the last page", &[0, 1, 2, 299]), 7, DEFAULT, 0, &[]);
    let gone = rents(free_at("the colour is gone", &[129, 130, 131, 298]), 4, DEFAULT, 0, &[]);
    vec![
        no_room(grants(far, 2, 0, &[(1, 7), (1, 291), (1, 295), (1, 6)]), 2, 0),
        no_room(grants(last, 7, 0, &[(1, 300), (1, 1), (1, 2), (1, 3)]), 7, 0),
        no_room(grants(gone, 4, 0, &[(1, 130), (1, 131), (1, 132), (1, 299)]), 4, 0),
    ]
}
