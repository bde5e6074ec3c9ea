//! The workloads: tables to start with and calls to make.

use reference::calls::{Call, Tables};
use reference::generate::Dice;
use reference::maps::identity_maps;
use reference::masks::all_below;

use crate::search::COLOURS;
use crate::ways::{fast_call, words_of};

/// A workload.
pub struct Work {
    pub name: &'static str,
    pub nodes: usize,
    pub start: Tables,
    pub calls: Vec<Call>,
    pub words: Vec<u64>,
}

/// A machine of N nodes as large as they may be, distances by how far apart the numbers are, 64 jobs allowed all.
pub fn machine(nodes: usize) -> Tables {
    let count = (1_048_576 / nodes as u32).min(65_536);
    let mut distances = Vec::new();
    for from in 0..nodes {
        for to in 0..nodes {
            let apart = from.abs_diff(to);
            distances.push(10 + apart.min(nodes - apart) as u8 * 3);
        }
    }
    let mut tables = Tables {
        counts: vec![count; nodes],
        cpus: (0..256).map(|cpu| (cpu * nodes / 256) as u8).collect(),
        distances,
        pages: vec![0; nodes * count as usize],
        jobs: vec![0; 64 * 6],
        free: vec![count; nodes],
        maps: identity_maps(nodes, 64),
    };
    for job in 0..64 {
        fast_made(&mut tables, &Call::Rebind { job, allowed: all_below(nodes) });
    }
    tables
}

/// A call that is done.
pub fn fast_made(tables: &mut Tables, call: &Call) {
    assert_eq!(fast_call(tables.counts.len(), tables, call) as u8, 0, "{call:?}");
}

/// The same with the lowest part of each node held, each page by some job; not counted yet.
fn held_up_to(percent: usize, nodes: usize, dice: &mut Dice) -> Tables {
    let mut tables = machine(nodes);
    let count = tables.counts[0] as usize;
    for node in tables.pages.chunks_mut(count) {
        for page in node.iter_mut().take(count * percent / 100) {
            *page = 1 + dice.below(64) as u8;
        }
    }
    tables
}

/// A CPU of the job's own.
fn cpu_of(job: usize) -> usize {
    job * 4
}

/// A page that is held, and its job.
fn held(dice: &mut Dice, tables: &Tables) -> (usize, usize) {
    loop {
        let page = dice.below(tables.pages.len());
        if tables.pages[page] != 0 {
            return (page, usize::from(tables.pages[page]) - 1);
        }
    }
}

/// A policy of some mode over some nodes.
fn policy(dice: &mut Dice, nodes: usize, job: usize, mode: u64) -> Call {
    let mut mask = 0;
    let mut flag = 0;
    let mut places = Vec::new();
    match mode {
        1..=3 => {
            mask = dice.part_of(all_below(nodes));
            flag = dice.pick(&[0, 1, 2]);
        }
        4..=6 => places = (0..dice.between(1, 16)).map(|_| dice.below(nodes) as u8).collect(),
        _ => {}
    }
    Call::Install { job, mode, flag, mask, places }
}

/// Makes a list of calls, each on the tables as the last one left them.
fn list(start: &Tables, how_many: usize, mut next: impl FnMut(&Tables, usize) -> Call) -> Vec<Call> {
    let mut tables = start.clone();
    let mut calls = Vec::new();
    for turn in 0..how_many {
        let call = next(&tables, turn);
        fast_call(tables.counts.len(), &mut tables, &call);
        calls.push(call);
    }
    calls
}

/// The five workloads for N nodes. All free counts match.
pub fn works(nodes: usize) -> Vec<Work> {
    let mut dice = Dice::new(nodes as u64);
    let empty = machine(nodes);
    let half = held_up_to(50, nodes, &mut dice).counted();
    let mut modes = held_up_to(25, nodes, &mut dice).counted();
    for job in 0..64 {
        let call = policy(&mut dice, nodes, job, job as u64 % 7);
        fast_call(nodes, &mut modes, &call);
    }
    let mut full = held_up_to(100, nodes, &mut dice);
    for _ in 0..8 {
        let page = dice.below(full.pages.len());
        full.pages[page] = 0;
    }
    let full = full.counted();
    let filling = list(&empty, 16_384, |_, _| Call::Request { job: 0, cpu: 0 });
    let steady = list(&half, 8_192, |tables, turn| turns(&mut dice, tables, turn));
    let mixed = list(&modes, 8_192, |tables, _| mixture(&mut dice, nodes, tables));
    let nearly = list(&full, 1_024, |tables, turn| turns(&mut dice, tables, turn));
    // Half way round lies the last node of near(0).
    let mut last = held_up_to(100, nodes, &mut dice);
    let far = last.pages.len() / 2;
    last.pages[far..][..last.counts[0] as usize].fill(0);
    let last = last.counted();
    let fetched = list(&last, 1_024, |_, turn| there_and_back(far, turn));
    let named = |name, start, calls: Vec<Call>| {
        let words = calls.iter().flat_map(words_of).collect();
        Work { name, nodes, start, calls, words }
    };
    vec![
        named("fill", empty, filling),
        named("steady, 64 jobs", half, steady),
        named("mixed modes", modes, mixed),
        named("nearly full", full, nearly),
        named("all full but the last", last, fetched),
    ]
}

/// A release of any held page and a request of any job in turns.
fn turns(dice: &mut Dice, tables: &Tables, turn: usize) -> Call {
    if turn % 2 == 0 {
        let (page, job) = held(dice, tables);
        return Call::Release { job, page };
    }
    let job = dice.below(64);
    Call::Request { job, cpu: cpu_of(job) }
}

/// A request from node 0 and a release of its page in turns, one job after the other; the page is the first of the job's
/// colour.
fn there_and_back(first: usize, turn: usize) -> Call {
    let job = turn / 2 % 64;
    match turn % 2 {
        0 => Call::Request { job, cpu: 0 },
        _ => Call::Release { job, page: first + job % COLOURS },
    }
}

/// Mostly requests and releases; some installs and rebinds.
fn mixture(dice: &mut Dice, nodes: usize, tables: &Tables) -> Call {
    let job = dice.below(64);
    match dice.below(20) {
        0 => Call::Rebind { job, allowed: dice.part_of(all_below(nodes)) },
        1 | 2 => {
            let mode = dice.below(7) as u64;
            policy(dice, nodes, job, mode)
        }
        3..=10 => {
            let (page, job) = held(dice, tables);
            Call::Release { job, page }
        }
        _ => Call::Request { job, cpu: cpu_of(job) },
    }
}
