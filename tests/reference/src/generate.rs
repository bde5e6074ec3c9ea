//! Made-up journals, tables, records, lists of calls and texts, all from a seed.
//!
//! Nothing here decides a rule of the paper. The book kept while a journal is
//! made only serves to name pages that are held and sets that are allowed.

use std::collections::VecDeque;

use crate::calls::{apply, Answer, Call, Tables};
use crate::drain_cases::some_drain;
use crate::journal::{call_bytes, is_used, machine_bytes, CLEAR, INSTALL, JOBS, REBIND, RELEASE, REQUEST};
use crate::machine::free_counts;
use crate::map_cases::{
    bad_keep, bad_set, good_keep, good_set, numbers_of, put_map, put_some_maps, some_good_sort, wrong_length, SORTS,
};
use crate::maps::identity_maps;
use crate::masks::{all_below, folded, has, node_of_rank, size, with};
use crate::record::{
    closes, fresh, has_a_list, has_a_mask, read, words, write, Record, BIND, CLOSING, EARLY, INTERLEAVE, LIST,
    MOST_PLACES, NO_FLAG, PREFERRED, RELATIVE, RING, STATIC, WORDS,
};

/// A small deterministic generator (splitmix64).
#[derive(Clone, Debug)]
pub struct Dice {
    state: u64,
}

impl Dice {
    /// Dice that fall the same way for the same seed.
    pub fn new(seed: u64) -> Dice {
        Dice { state: seed.wrapping_mul(0xD134_2543_DE82_EF95).wrapping_add(0x0123_4567_89AB_CDEF) }
    }

    /// The next 64 bits (splitmix64).
    pub fn next(&mut self) -> u64 {
        self.state = self.state.wrapping_add(0x9E37_79B9_7F4A_7C15);
        let mut z = self.state;
        z = (z ^ (z >> 30)).wrapping_mul(0xBF58_476D_1CE4_E5B9);
        z = (z ^ (z >> 27)).wrapping_mul(0x94D0_49BB_1331_11EB);
        z ^ (z >> 31)
    }

    /// A number from 0 up to but not including the limit.
    pub fn below(&mut self, limit: usize) -> usize {
        (self.next() % (limit.max(1) as u64)) as usize
    }

    /// A number from low to high, both included.
    pub fn between(&mut self, low: usize, high: usize) -> usize {
        low + self.below(high - low + 1)
    }

    /// True so many times in a hundred.
    pub fn chance(&mut self, percent: usize) -> bool {
        self.below(100) < percent
    }

    /// One of the things shown.
    pub fn pick<T: Copy>(&mut self, things: &[T]) -> T {
        things[self.below(things.len())]
    }

    /// Any byte.
    pub fn byte(&mut self) -> u8 {
        self.next() as u8
    }

    /// A mask: thin, even, thick, single, runs, all or empty.
    pub fn mask(&mut self) -> u64 {
        match self.below(8) {
            0 => self.next() & self.next() & self.next(),
            1 => self.next() & self.next(),
            2 => self.next(),
            3 => self.next() | self.next(),
            4 => 1 << self.below(64),
            5 => {
                let from = self.below(64);
                let run = all_below(1 + self.below(64));
                run << from
            }
            6 => self.next() & 0xFF,
            _ => self.pick(&[0, u64::MAX, 1, 1 << 63, 0xF, 0x5555_5555_5555_5555]),
        }
    }

    /// A non-empty part of a non-empty mask.
    pub fn part_of(&mut self, mask: u64) -> u64 {
        let part = mask & self.mask();
        if part != 0 {
            return part;
        }
        match node_of_rank(mask, self.below(size(mask))) {
            Some(node) => 1 << node,
            None => 0,
        }
    }
}

// ---------------------------------------------------------------- machines

/// Page counts of one of several styles; small enough to fill up.
fn some_counts(dice: &mut Dice, nodes: usize) -> Vec<u32> {
    let style = dice.below(40);
    let mut counts = Vec::new();
    for _ in 0..nodes {
        let count = match style {
            0..=9 => dice.below(4),
            10..=16 => dice.between(1, 2),
            17..=24 => dice.below(12),
            // Every colour more than once in most nodes, not as often each (M-105).
            25..=31 => dice.between(5, 11),
            32..=36 => {
                if dice.chance(35) {
                    dice.between(1, 6)
                } else {
                    0
                }
            }
            37 => 0,
            _ => 16_384 / nodes,
        };
        counts.push(count as u32);
    }
    if style < 37 && counts.iter().all(|count| *count == 0) {
        counts[dice.below(nodes)] = 3;
    }
    if style > 37 {
        counts[nodes - 1] += (16_384 % nodes) as u32;
    }
    counts
}

/// Which node each CPU is on.
fn some_cpus(dice: &mut Dice, nodes: usize, most: usize) -> Vec<u8> {
    let count = match dice.below(8) {
        0 => 1,
        1 => most,
        _ => dice.between(1, most.min(12)),
    };
    let mut cpus = Vec::new();
    for _ in 0..count {
        cpus.push(dice.below(nodes) as u8);
    }
    cpus
}

/// One distance off the diagonal, by style.
fn some_distance(dice: &mut Dice, style: usize) -> u8 {
    match style {
        0 | 1 => dice.pick(&[20, 20, 30, 40]),
        2 => dice.between(10, 254) as u8,
        3 => dice.pick(&[10, 20, 255]),
        4 => dice.pick(&[10, 11]),
        5 => dice.pick(&[20, 21, 254, 255]),
        6 => 10,
        7 => 255,
        _ => dice.pick(&[10, 20, 20, 20, 30, 255]),
    }
}

/// A distance table: symmetric or not, with ties, second tens and unreachable nodes.
fn some_distances(dice: &mut Dice, nodes: usize) -> Vec<u8> {
    let style = dice.pick(&[0, 1, 1, 2, 2, 3, 4, 5, 6, 7, 8, 8, 8]);
    let symmetric = style == 0 || dice.chance(25);
    let mut distances = vec![10; nodes * nodes];
    for from in 0..nodes {
        for to in 0..nodes {
            if from != to {
                distances[from * nodes + to] = some_distance(dice, style);
            }
        }
    }
    if symmetric {
        for from in 0..nodes {
            for to in 0..from {
                distances[from * nodes + to] = distances[to * nodes + from];
            }
        }
    }
    distances
}

/// A machine that keeps the rules, all pages free and counted, fresh jobs that number their nodes as it does.
fn some_machine(dice: &mut Dice, nodes: usize, most_cpus: usize, jobs: usize) -> Tables {
    let counts = some_counts(dice, nodes);
    let cpus = some_cpus(dice, nodes, most_cpus);
    let distances = some_distances(dice, nodes);
    let mut total = 0;
    for count in &counts {
        total += *count as usize;
    }
    let (free, maps) = (counts.clone(), identity_maps(nodes, jobs));
    Tables { counts, cpus, distances, pages: vec![0; total], jobs: vec![0; jobs * WORDS], free, maps }
}

// ---------------------------------------------------------------- free counts

/// How free counts stand to the page table (M-100).
#[derive(Clone, Copy, Debug, PartialEq, Eq, PartialOrd, Ord)]
pub enum Counts {
    Matching,
    /// Fewer entries than nodes.
    TooFew,
    /// More entries than nodes.
    TooMany,
    /// Some counts above the node's pages.
    AbovePages,
    /// Some counts a little too high.
    TooHigh,
    /// Some counts a little too low.
    TooLow,
    /// Right ones, too low and too high ones beside each other.
    Mixed,
    AllMost,
    AllZero,
}

/// Every sort of free counts; the first alone match.
pub const SORTS_OF_COUNTS: [Counts; 9] = [
    Counts::Matching,
    Counts::TooFew,
    Counts::TooMany,
    Counts::AbovePages,
    Counts::TooHigh,
    Counts::TooLow,
    Counts::Mixed,
    Counts::AllMost,
    Counts::AllZero,
];

/// Puts free counts of a sort into the tables. Where all pages are held, counts too low or all 0 may still match.
pub fn put_counts(dice: &mut Dice, tables: &mut Tables, sort: Counts) {
    let mut free = free_counts(&tables.counts, &tables.pages);
    let nodes = free.len();
    match sort {
        Counts::Matching => {}
        Counts::TooFew => {
            let missing = dice.pick(&[1, 1, nodes / 2, nodes]).max(1);
            free.truncate(nodes.saturating_sub(missing));
        }
        Counts::TooMany => {
            for _ in 0..dice.pick(&[1, 1, 2, nodes, 64, 1_000]) {
                free.push(dice.pick(&[0, 1, u32::MAX]));
            }
        }
        Counts::AbovePages | Counts::TooHigh | Counts::TooLow => {
            let percent = dice.pick(&[20, 60, 100]);
            let certain = dice.below(nodes);
            for node in 0..nodes {
                if node == certain || dice.chance(percent) {
                    let little = dice.between(1, 3) as u32;
                    free[node] = match sort {
                        Counts::AbovePages => {
                            let above = dice.pick(&[1, 2, 65_536, u32::MAX]);
                            tables.counts[node].saturating_add(above)
                        }
                        Counts::TooHigh => free[node].saturating_add(little),
                        _ => free[node].saturating_sub(little),
                    };
                }
            }
        }
        Counts::Mixed => {
            for (count, all) in free.iter_mut().zip(&tables.counts) {
                *count = dice.pick(&[*count, *count, 0, 1, *all, all.saturating_add(1), u32::MAX]);
            }
        }
        Counts::AllMost => free = vec![u32::MAX; nodes],
        Counts::AllZero => free = vec![0; nodes],
    }
    tables.free = free;
}

/// Free counts of any sort, half of them matching.
fn put_some_counts(dice: &mut Dice, tables: &mut Tables) {
    let sort = if dice.chance(50) { Counts::Matching } else { dice.pick(&SORTS_OF_COUNTS) };
    put_counts(dice, tables, sort);
}

// ---------------------------------------------------------------- policies

/// How many places.
fn some_length(dice: &mut Dice) -> usize {
    match dice.below(10) {
        0 => 16,
        1 => dice.between(1, 16),
        _ => dice.between(1, 5),
    }
}

/// Places as a record may hold them: mostly nodes of the machine, some at N or above; 255 last in about half the lists.
fn some_places(dice: &mut Dice, nodes: usize) -> Vec<u8> {
    let mut places = Vec::new();
    for _ in 0..some_length(dice) {
        let place = match dice.below(16) {
            0 => nodes as u8,
            1 => dice.byte(),
            2 => CLOSING,
            _ => dice.below(nodes) as u8,
        };
        places.push(place);
    }
    if dice.chance(45) {
        put_last(dice, &mut places);
    }
    places
}

/// Puts a 255 into the last place, or after it.
fn put_last(dice: &mut Dice, places: &mut Vec<u8>) {
    if places.len() == MOST_PLACES || dice.chance(30) {
        places.pop();
    }
    places.push(CLOSING);
}

/// Places below a map's end.
fn places_below(dice: &mut Dice, end: usize) -> Vec<u8> {
    (0..some_length(dice)).map(|_| dice.below(end) as u8).collect()
}

/// Places as an install of a mode takes them: each below a map's end, but for a closing 255 in mode 4 (M-104).
fn good_places(dice: &mut Dice, end: usize, mode: u8) -> Vec<u8> {
    let mut places = places_below(dice, end);
    if mode == LIST && dice.chance(60) {
        put_last(dice, &mut places);
    }
    places
}

/// The application nodes of a map that are in a set of system nodes.
fn seen_of(map: &[u8], set: u64) -> u64 {
    (0..map.len()).filter(|node| has(set, usize::from(map[*node]))).fold(0, with)
}

/// A mode, ring and interleave more often than the others.
fn some_mode(dice: &mut Dice) -> u8 {
    dice.pick(&[0, 1, 2, 3, 3, 3, 4, 4, 5, 5, 5, 6, 6])
}

/// A user mask that install takes with this flag, in the numbers of a map.
fn some_user_mask(dice: &mut Dice, map: &[u8], allowed: u64, flag: u8) -> u64 {
    if flag == RELATIVE {
        return dice.part_of(u64::MAX);
    }
    let inside = dice.part_of(seen_of(map, allowed));
    let anywhere = if dice.chance(50) { dice.mask() & all_below(map.len()) } else { 0 };
    inside | anywhere
}

/// An install that is accepted where the job's map has these entries and its allowed set one of them.
fn good_install(dice: &mut Dice, map: &[u8], job: usize, allowed: u64) -> Call {
    let mode = some_mode(dice);
    let mut flag = NO_FLAG;
    let mut mask = 0;
    let mut places = Vec::new();
    if has_a_list(mode) {
        places = good_places(dice, map.len(), mode);
    }
    if has_a_mask(mode) {
        flag = dice.pick(&[NO_FLAG, STATIC, RELATIVE]);
        mask = some_user_mask(dice, map, allowed, flag);
    }
    if mode == PREFERRED && dice.chance(25) {
        flag = NO_FLAG;
        mask = 0;
    }
    Call::Install { job, mode: u64::from(mode), flag: u64::from(flag), mask, places }
}

/// Places with one at or past a map's end that is not a closing 255 in mode 4 (M-104).
fn far_places(dice: &mut Dice, end: usize, mode: u8) -> Vec<u8> {
    let mut places = places_below(dice, end);
    let (at, any, last) = (dice.below(places.len()), dice.between(end, 255) as u8, places.len() - 1);
    let at = dice.pick(&[at, last]);
    places[at] = dice.pick(&[end as u8, any, CLOSING, CLOSING]);
    if closes(mode, &places) {
        // One 255 more, so that it does not stand last alone.
        places.insert(at, CLOSING);
    }
    places
}

/// An install that is refused 5, 6 or 7 (Refusal numbers), in one of many ways, all but for its map, which has these entries.
fn bad_install(dice: &mut Dice, map: &[u8], job: usize, allowed: u64) -> Call {
    let end = map.len();
    let inside = dice.part_of(seen_of(map, allowed));
    let mask_mode = u64::from(dice.pick(&[PREFERRED, BIND, INTERLEAVE]));
    let list_mode = u64::from(dice.pick(&[LIST, RING, EARLY]));
    let plain_mode = u64::from(dice.pick(&[0, LIST, RING, EARLY]));
    let any_flag = dice.below(3) as u64;
    let low_flag = dice.below(2) as u64;
    let some = places_below(dice, end);
    let past_end = if end < 64 { 1u64 << dice.between(end, 63) } else { 0 };
    let outside = all_below(end) & !seen_of(map, allowed);
    let long = dice.pick(&[17, 18, 32, 255]);
    let (mode, flag, mask, places) = match dice.below(18) {
        0 => (dice.between(7, 255) as u64, any_flag, inside, vec![]),
        1 => (mask_mode, dice.between(3, 255) as u64, inside, vec![]),
        2 => (plain_mode, 1 + low_flag, 0, if plain_mode == 0 { vec![] } else { some }),
        3 => (u64::from(PREFERRED), 1 + low_flag, 0, vec![]),
        4 => (u64::from(dice.pick(&[BIND, INTERLEAVE])), any_flag, 0, vec![]),
        5 if inside != 0 => (0, 0, inside, vec![]),
        6 if inside != 0 => (list_mode, 0, inside, some),
        7 if past_end != 0 => (mask_mode, low_flag, inside | past_end, vec![]),
        8 if outside != 0 => (mask_mode, low_flag, dice.part_of(outside), vec![]),
        9 => (mask_mode, any_flag, inside, some),
        10 => (0, 0, 0, some),
        11 => (list_mode, 0, 0, vec![0; long]),
        12 => (list_mode, 0, 0, vec![dice.below(end) as u8; 17]),
        13..=16 => (list_mode, 0, 0, far_places(dice, end, list_mode as u8)),
        _ => (list_mode, 0, 0, vec![]),
    };
    Call::Install { job, mode, flag, mask, places }
}

/// An install of anything: several faults at once, or none.
fn wild_install(dice: &mut Dice, nodes: usize, job: usize) -> Call {
    let mode = dice.below(8) as u64;
    let flag = if dice.chance(50) { 0 } else { dice.below(4) as u64 };
    let mask = match dice.below(3) {
        0 => 0,
        1 => dice.mask(),
        _ => dice.part_of(all_below(nodes)),
    };
    let places = match dice.below(4) {
        0 | 1 => vec![],
        2 => some_places(dice, nodes),
        _ => vec![dice.below(nodes) as u8; dice.pick(&[16, 17, 64])],
    };
    Call::Install { job, mode, flag, mask, places }
}

/// A rebind that is accepted; mostly to many nodes.
fn good_rebind(dice: &mut Dice, nodes: usize, job: usize) -> Call {
    let all = all_below(nodes);
    let allowed = if dice.chance(35) { all } else { dice.part_of(all) | dice.part_of(all) };
    Call::Rebind { job, allowed }
}

/// A rebind that is refused 6 or 7 (Refusal numbers).
fn bad_rebind(dice: &mut Dice, nodes: usize, job: usize) -> Call {
    if nodes < 64 && dice.chance(50) {
        let above_n = 1u64 << dice.between(nodes, 63);
        return Call::Rebind { job, allowed: above_n | (dice.mask() & all_below(nodes)) };
    }
    Call::Rebind { job, allowed: 0 }
}

// ---------------------------------------------------------------- lists of calls

/// A list of calls in the making, and the book it is made by.
struct Script {
    dice: Dice,
    book: Tables,
    /// Jobs that the list is about.
    active: Vec<usize>,
    /// Jobs whose policy must not be set by an accepted call (demand 3).
    watched: Vec<usize>,
    /// Calls that must come next.
    queue: VecDeque<Call>,
    /// One job's long run, and how many calls of it are left.
    run_job: usize,
    run_left: usize,
    /// Whether releases are more common than requests just now.
    draining: bool,
    /// Whether calls may be those that no journal has: fresh tables, maps and drains.
    past_journals: bool,
}

impl Script {
    /// The number of nodes of the machine.
    fn nodes(&self) -> usize {
        self.book.counts.len()
    }

    /// How many jobs the table has.
    fn job_count(&self) -> usize {
        self.book.jobs.len() / WORDS
    }

    /// One of the active jobs.
    fn some_job(&mut self) -> usize {
        self.dice.pick(&self.active)
    }

    /// The job's allowed set, or all nodes if it is empty.
    fn allowed(&self, job: usize) -> u64 {
        let allowed = read(&self.book.jobs, job).allowed & all_below(self.nodes());
        if allowed == 0 {
            all_below(self.nodes())
        } else {
            allowed
        }
    }

    /// Pages that some job of the table holds.
    fn held_pages(&self) -> Vec<usize> {
        let total: usize = self.book.counts.iter().map(|count| *count as usize).sum();
        let mut held = Vec::new();
        for page in 0..total {
            let byte = usize::from(self.book.pages[page]);
            if byte >= 1 && byte <= self.job_count() {
                held.push(page);
            }
        }
        held
    }

    /// True if no page is free.
    fn is_full(&self) -> bool {
        let total: usize = self.book.counts.iter().map(|count| *count as usize).sum();
        self.book.pages[..total].iter().all(|byte| *byte != 0)
    }

    /// A request from some CPU; where it would be refused, mostly a release in its stead.
    fn request(&mut self, job: usize) -> Call {
        let call = Call::Request { job, cpu: self.dice.below(self.book.cpus.len()) };
        let refused = matches!(apply(&mut self.book.clone(), &call), Answer::Refused(_));
        if refused && !self.held_pages().is_empty() && self.dice.chance(75) {
            return self.release();
        }
        call
    }

    /// A release of a held page by the job that holds it; a request if there is none.
    fn release(&mut self) -> Call {
        let held = self.held_pages();
        if held.is_empty() {
            let job = self.some_job();
            return Call::Request { job, cpu: self.dice.below(self.book.cpus.len()) };
        }
        let page = self.dice.pick(&held);
        Call::Release { job: usize::from(self.book.pages[page]) - 1, page }
    }

    /// A policy call: accepted for most jobs, refused for the watched ones.
    fn policy(&mut self, job: usize) -> Call {
        if self.watched.contains(&job) {
            return self.bad_policy(job);
        }
        let (nodes, allowed, map) = (self.nodes(), self.allowed(job), numbers_of(&self.book, job));
        if self.past_journals && self.dice.chance(30) {
            return match self.dice.chance(40) {
                true => good_keep(&mut self.dice, job, map.len()),
                false => good_set(&mut self.dice, nodes, job),
            };
        }
        if self.dice.chance(45) {
            good_rebind(&mut self.dice, nodes, job)
        } else {
            good_install(&mut self.dice, &map, job, allowed)
        }
    }

    /// A policy call that is refused.
    fn bad_policy(&mut self, job: usize) -> Call {
        let (nodes, allowed, map) = (self.nodes(), self.allowed(job), numbers_of(&self.book, job));
        if self.past_journals && self.dice.chance(20) {
            return match self.dice.chance(50) {
                true => bad_keep(&mut self.dice, job, map.len()),
                false => bad_set(&mut self.dice, nodes, job),
            };
        }
        if self.dice.chance(25) {
            bad_rebind(&mut self.dice, nodes, job)
        } else {
            bad_install(&mut self.dice, &map, job, allowed)
        }
    }

    /// Clears a job and gives it a new allowed set and policy.
    fn clear(&mut self, job: usize) -> Call {
        if self.watched.contains(&job) {
            return self.bad_policy(job);
        }
        let (nodes, map) = (self.nodes(), numbers_of(&self.book, job));
        if self.dice.chance(40) {
            let install = good_install(&mut self.dice, &map, job, all_below(nodes));
            self.queue.push_back(install);
        }
        let rebind = good_rebind(&mut self.dice, nodes, job);
        self.queue.push_back(rebind);
        let install = good_install(&mut self.dice, &map, job, all_below(nodes));
        self.queue.push_back(install);
        Call::Clear { job }
    }

    /// A release that is refused 10: another's page, a free one, or one out of range.
    fn bad_release(&mut self) -> Call {
        let total: usize = self.book.counts.iter().map(|count| *count as usize).sum();
        let job = self.some_job();
        let held = self.held_pages();
        let page = match self.dice.below(6) {
            0 => total,
            1 => self.dice.pick(&[total + 1, 65_536, 0x00FF_FFFF, 0xFFFF_FFFF]),
            2 => self.dice.below(total + 1),
            _ if held.is_empty() => total,
            _ => self.dice.pick(&held),
        };
        Call::Release { job, page }
    }

    /// A call for a job that does not exist (64 or above).
    fn call_of_no_job(&mut self) -> Call {
        let job = self.dice.pick(&[64, 65, 100, 200, 255]);
        match self.dice.below(if self.past_journals { 7 } else { 5 }) {
            0 => Call::Request { job, cpu: 0 },
            1 => Call::Release { job, page: 0 },
            2 => Call::Rebind { job, allowed: 1 },
            3 => Call::Install { job, mode: 0, flag: 0, mask: 0, places: vec![] },
            4 => Call::Clear { job },
            5 => Call::KeepNodes { job, kept: vec![0] },
            _ => Call::SetMap { job, list: vec![0] },
        }
    }

    /// One of the calls that are mostly refused.
    fn odd_call(&mut self) -> Call {
        let job = self.some_job();
        match self.dice.below(10) {
            8 | 9 => {
                let anyone = self.dice.below(self.job_count());
                let who = if self.dice.chance(50) { job } else { anyone };
                if self.watched.contains(&who) {
                    return self.bad_policy(who);
                }
                wild_install(&mut self.dice, self.book.counts.len(), who)
            }
            0 => self.call_of_no_job(),
            1 => {
                let count = self.book.cpus.len();
                let cpu = self.dice.pick(&[count, count + 1, 64, 255]);
                Call::Request { job, cpu: cpu.max(count).min(255) }
            }
            2 => {
                let anyone = self.dice.below(self.job_count());
                self.request(anyone)
            }
            3 | 4 => self.bad_release(),
            _ => self.bad_policy(job),
        }
    }

    /// Begins a long run of one ring or interleave job, if there is one.
    fn begin_run(&mut self) -> Call {
        let mut runners = Vec::new();
        for job in &self.active {
            let mode = read(&self.book.jobs, *job).mode;
            if mode == RING || mode == INTERLEAVE {
                runners.push(*job);
            }
        }
        if runners.is_empty() {
            let job = self.some_job();
            return self.policy(job);
        }
        self.run_job = self.dice.pick(&runners);
        self.run_left = self.dice.between(10, 60);
        self.request(self.run_job)
    }

    /// The next call of a long run: requests, and releases to make room.
    fn go_on_running(&mut self) -> Call {
        self.run_left -= 1;
        let releases = if self.is_full() { 70 } else { 30 };
        if self.dice.chance(releases) {
            return self.release();
        }
        if self.dice.chance(3) {
            return self.policy(self.run_job);
        }
        self.request(self.run_job)
    }

    /// Turns from filling to draining when full, and back when much is free.
    fn turn_the_tide(&mut self) {
        if self.is_full() && self.dice.chance(40) {
            self.draining = true;
        }
        let total: usize = self.book.counts.iter().map(|count| *count as usize).sum();
        if self.held_pages().len() * 3 <= total {
            self.draining = false;
        }
    }

    /// The next call of the list.
    fn next_call(&mut self) -> Call {
        if let Some(call) = self.queue.pop_front() {
            return call;
        }
        if self.past_journals && self.dice.chance(1) {
            return Call::Fresh;
        }
        if self.past_journals && self.dice.chance(3) {
            return some_drain(&mut self.dice, &self.book);
        }
        if self.run_left > 0 {
            return self.go_on_running();
        }
        self.turn_the_tide();
        let job = self.some_job();
        let release_up_to = if self.draining { 60 } else { 18 };
        match self.dice.below(100) {
            roll if roll < release_up_to => self.release(),
            0..=78 => self.request(job),
            79..=83 => self.begin_run(),
            84..=90 => self.policy(job),
            91 => self.clear(job),
            92..=95 => self.odd_call(),
            _ => self.request(job),
        }
    }

    /// So many calls, each made on the book as it comes.
    fn calls(&mut self, how_many: usize) -> Vec<Call> {
        let mut calls = Vec::new();
        for _ in 0..how_many {
            let call = self.next_call();
            apply(&mut self.book, &call);
            calls.push(call);
        }
        calls
    }
}

/// Some different jobs below the limit.
fn some_jobs(dice: &mut Dice, how_many: usize, limit: usize) -> Vec<usize> {
    let mut jobs = Vec::new();
    while jobs.len() < how_many.min(limit) {
        let job = match dice.below(6) {
            0 => 0,
            1 => limit - 1,
            _ => dice.below(limit),
        };
        if !jobs.contains(&job) {
            jobs.push(job);
        }
    }
    jobs
}

/// A journal's machine and calls: N goes from 1 to 16 with the seed.
pub fn journal_parts(seed: u64, records: usize) -> (Tables, Vec<Call>) {
    let mut dice = Dice::new(seed);
    let nodes = 1 + (seed % 16) as usize;
    let start = some_machine(&mut dice, nodes, 64, JOBS);
    let how_many = dice.pick(&[1, 2, 3, 3, 4, 6]);
    let active = some_jobs(&mut dice, how_many, JOBS);
    let mut queue = VecDeque::new();
    let map = numbers_of(&start, 0);
    for job in &active {
        if dice.chance(10) {
            queue.push_back(good_install(&mut dice, &map, *job, all_below(nodes)));
            queue.push_back(bad_install(&mut dice, &map, *job, all_below(nodes)));
        }
        queue.push_back(good_rebind(&mut dice, nodes, *job));
        queue.push_back(good_install(&mut dice, &map, *job, all_below(nodes)));
    }
    let mut script = Script {
        dice,
        book: start.clone(),
        active,
        watched: Vec::new(),
        queue,
        run_job: 0,
        run_left: 0,
        draining: false,
        past_journals: false,
    };
    let calls = script.calls(records);
    (start, calls)
}

/// The bytes of a machine and its calls.
fn bytes_of(machine: &Tables, calls: &[Call]) -> Vec<u8> {
    let mut bytes = machine_bytes(machine);
    for call in calls {
        bytes.extend(call_bytes(call));
    }
    bytes
}

/// A good journal with so many records after the machine record.
pub fn journal(seed: u64, records: usize) -> Vec<u8> {
    let (machine, calls) = journal_parts(seed, records);
    bytes_of(&machine, &calls)
}

/// A list of calls as demand 3 takes it: any page table with counts that match,
/// any job table and maps, some fresh tables and drains, and no accepted call that sets
/// policy or limits for the jobs that start in ring or interleave mode, whose maps are good.
pub fn list(seed: u64, how_many: usize) -> (Tables, Vec<Call>) {
    let mut dice = Dice::new(seed ^ 0x1157);
    let nodes = match dice.below(10) {
        0 => 64,
        1 => dice.between(1, 64),
        _ => dice.between(1, 8),
    };
    let job_count = dice.between(1, 8);
    let mut start = some_machine(&mut dice, nodes, 256, job_count);
    fill_some_pages(&mut dice, &mut start);
    start = start.counted();
    let mut watched = Vec::new();
    for job in 0..job_count {
        let ring_or_interleave = job < 2 || dice.chance(40);
        if ring_or_interleave {
            watched.push(job);
        }
        start_job(&mut dice, &mut start, job, ring_or_interleave);
    }
    let mut script = Script {
        dice,
        book: start.clone(),
        active: (0..job_count).collect(),
        watched,
        queue: VecDeque::new(),
        run_job: 0,
        run_left: 0,
        draining: false,
        past_journals: true,
    };
    let calls = script.calls(how_many);
    (start, calls)
}

/// A record and a map to start a list with.
fn start_job(dice: &mut Dice, start: &mut Tables, job: usize, ring_or_interleave: bool) {
    let record = start_record(dice, start.counts.len(), ring_or_interleave);
    start.jobs[job * WORDS..job * WORDS + WORDS].copy_from_slice(&record);
    let good_map = ring_or_interleave || dice.chance(70);
    let sort = if good_map { some_good_sort(dice) } else { dice.pick(&SORTS) };
    put_map(dice, start, job, sort);
}

/// A record to start a list with: ring or interleave, or anything at all, places in order more often than others.
fn start_record(dice: &mut Dice, nodes: usize, ring_or_interleave: bool) -> [u64; WORDS] {
    if ring_or_interleave {
        let mode = dice.pick(&[RING, INTERLEAVE]);
        let flag = if mode == RING { NO_FLAG } else { dice.below(3) as u8 };
        return good_record(dice, nodes, mode, flag);
    }
    match dice.chance(40) {
        true => good_record(dice, nodes, LIST, NO_FLAG),
        false => some_record(dice, nodes),
    }
}

/// Some pages held at the start, by jobs of the table or by nobody known: here and there, or the low part of each node.
fn fill_some_pages(dice: &mut Dice, tables: &mut Tables) {
    let job_count = tables.jobs.len() / WORDS;
    let percent = dice.pick(&[0, 0, 20, 50, 90, 100]);
    let low_parts = dice.chance(30);
    let mut first = 0;
    for count in &tables.counts {
        let low = if low_parts { dice.below(*count as usize + 1) } else { 0 };
        for (offset, page) in tables.pages[first..].iter_mut().take(*count as usize).enumerate() {
            if offset < low || (!low_parts && dice.chance(percent)) {
                *page = if dice.chance(80) { dice.between(1, job_count) as u8 } else { dice.byte() };
            }
        }
        first += *count as usize;
    }
}

// ---------------------------------------------------------------- damaged journals

/// How many kinds of damage there are; `seed % KINDS_OF_DAMAGE` names the kind.
pub const KINDS_OF_DAMAGE: u64 = 29;

/// A machine record that is sure to have room for damage: two nodes or more.
fn machine_to_damage(dice: &mut Dice) -> Tables {
    let nodes = dice.between(2, 16);
    some_machine(dice, nodes, 64, JOBS)
}

/// Cuts the bytes to a length from low to high.
fn cut(dice: &mut Dice, mut bytes: Vec<u8>, low: usize, high: usize) -> Vec<u8> {
    let length = dice.between(low, high);
    bytes.truncate(length);
    bytes
}

/// Any byte but this one.
fn other_byte(dice: &mut Dice, not: u8) -> u8 {
    let byte = dice.byte();
    if byte == not {
        byte.wrapping_add(1)
    } else {
        byte
    }
}

/// A whole record of a kind with one unused byte set.
fn record_with_unused_byte(dice: &mut Dice, nodes: usize, kind: u8) -> Vec<u8> {
    let call = match kind {
        REQUEST => Call::Request { job: dice.below(64), cpu: 0 },
        RELEASE => Call::Release { job: dice.below(64), page: dice.below(100) },
        REBIND => good_rebind(dice, nodes, 1),
        INSTALL => good_install(dice, &identity_maps(nodes, 1)[..nodes], 1, all_below(nodes)),
        _ => Call::Clear { job: dice.below(64) },
    };
    let mut record = call_bytes(&call).to_vec();
    let mut unused = Vec::new();
    for index in 0..record.len() {
        let sets_the_list_length = kind == INSTALL && index == 7;
        if !is_used(kind, record[7], index) && !sets_the_list_length {
            unused.push(index);
        }
    }
    let index = dice.pick(&unused);
    record[index] = dice.between(1, 255) as u8;
    record
}

/// The good bytes with one record put between the calls.
fn with_bad_record(dice: &mut Dice, machine: &Tables, calls: &[Call], record: &[u8]) -> Vec<u8> {
    let at = dice.below(calls.len() + 1);
    let mut bytes = bytes_of(machine, &calls[..at]);
    bytes.extend(record);
    for call in &calls[at..] {
        bytes.extend(call_bytes(call));
    }
    bytes
}

/// Page counts of more than 16,384 pages together.
fn too_many_pages(dice: &mut Dice, machine: &mut Tables) {
    let nodes = machine.counts.len();
    match dice.below(3) {
        0 => machine.counts = vec![65_535; nodes],
        1 => {
            machine.counts = vec![0; nodes];
            machine.counts[dice.below(nodes)] = 16_385;
        }
        _ => {
            machine.counts = vec![1; nodes];
            machine.counts[0] = 16_384 - nodes as u32 + 2;
        }
    }
}

/// A damaged journal, of the kind `seed % KINDS_OF_DAMAGE`.
pub fn damaged(seed: u64) -> Vec<u8> {
    let mut dice = Dice::new(seed ^ 0xDA_4A6E);
    let how_many = dice.below(12);
    let (good, calls) = journal_parts(dice.next(), how_many);
    let mut machine = machine_to_damage(&mut dice);
    let nodes = machine.counts.len();
    let head_of_good = machine_bytes(&good).len();
    let whole = bytes_of(&good, &calls);
    match seed % KINDS_OF_DAMAGE {
        0 => Vec::new(),
        1 => cut(&mut dice, whole, 1, 5),
        2 => cut(&mut dice, whole, 6, head_of_good - 1),
        3 => {
            // A last record that is good but for its missing end.
            let last = match dice.below(4) {
                0 => Call::Clear { job: dice.below(64) },
                1 => Call::Release { job: dice.below(64), page: 0 },
                2 => good_rebind(&mut dice, good.counts.len(), 1),
                _ => Call::Request { job: dice.below(64), cpu: 0 },
            };
            let mut bytes = whole.clone();
            bytes.extend(call_bytes(&last));
            cut(&mut dice, bytes, whole.len() + 1, whole.len() + 31)
        }
        4 => changed(whole, 0, other_byte(&mut dice, 0x4E)),
        5 => changed(whole, 1, other_byte(&mut dice, 0x50)),
        6 => changed(whole, 2, other_byte(&mut dice, 0)),
        7 => changed(whole, 5, other_byte(&mut dice, 0)),
        8 => {
            let bad_n = dice.pick(&[0, 17, 18, 64, 65, 128, 255]);
            changed(whole, 3, bad_n)
        }
        9 => {
            let bad_count = dice.pick(&[0, 65, 66, 128, 255]);
            changed(whole, 4, bad_count)
        }
        10 => {
            let cpu = dice.below(machine.cpus.len());
            machine.cpus[cpu] = dice.pick(&[nodes as u8, nodes as u8 + 1, 255]);
            bytes_of(&machine, &calls)
        }
        11 => {
            let node = dice.below(nodes);
            machine.distances[node * nodes + node] = other_byte(&mut dice, 10);
            bytes_of(&machine, &calls)
        }
        12 => {
            let from = dice.below(nodes);
            let to = (from + dice.between(1, nodes - 1)) % nodes;
            machine.distances[from * nodes + to] = dice.below(10) as u8;
            bytes_of(&machine, &calls)
        }
        13 => {
            too_many_pages(&mut dice, &mut machine);
            bytes_of(&machine, &calls)
        }
        14 => {
            let record = broken_record(&mut dice, 0);
            with_bad_record(&mut dice, &good, &calls, &record)
        }
        15 => {
            let record = broken_record(&mut dice, 1);
            with_bad_record(&mut dice, &good, &calls, &record)
        }
        16 => {
            let record = broken_record(&mut dice, 2);
            with_bad_record(&mut dice, &good, &calls, &record)
        }
        kind @ 17..=21 => {
            let record_kind = [REQUEST, RELEASE, REBIND, INSTALL, CLEAR][kind as usize - 17];
            let record = record_with_unused_byte(&mut dice, good.counts.len(), record_kind);
            with_bad_record(&mut dice, &good, &calls, &record)
        }
        22 => {
            // Bad N or CPU count in a head of fewer than six bytes.
            let index = dice.between(3, 4);
            let bytes = changed(whole, index, dice.pick(&[0, 65, 255]));
            cut(&mut dice, bytes, index + 1, 5)
        }
        23 => {
            // Bad N or CPU count in a whole head with nothing or little after it.
            let index = dice.between(3, 4);
            let bytes = changed(whole, index, dice.pick(&[0, 65, 255]));
            cut(&mut dice, bytes, 6, 8)
        }
        24 => {
            // Short, and a byte that is there is bad too.
            let cpu = dice.below(machine.cpus.len());
            machine.cpus[cpu] = 255;
            too_many_pages(&mut dice, &mut machine);
            machine.distances[0] = 11;
            let length = machine_bytes(&machine).len();
            cut(&mut dice, machine_bytes(&machine), 6, length - 1)
        }
        25 => {
            // Several rules of the machine record broken at once.
            let mut bytes = whole;
            for _ in 0..dice.between(2, 6) {
                let index = dice.below(head_of_good);
                bytes[index] = dice.byte();
            }
            bytes
        }
        26 => {
            // Any byte anywhere changed.
            let index = dice.below(whole.len());
            let byte = dice.byte();
            changed(whole, index, byte)
        }
        27 => {
            // A record torn out of the middle: everything after it is out of step.
            let mut bytes = whole;
            if bytes.len() > head_of_good {
                let from = dice.between(head_of_good, bytes.len() - 1);
                bytes.remove(from);
            } else {
                bytes.push(0x4E);
            }
            bytes
        }
        _ => {
            // Noise from the first byte on, or after a good machine record.
            let mut bytes = if dice.chance(50) { machine_bytes(&good) } else { Vec::new() };
            for _ in 0..dice.between(1, 200) {
                bytes.push(dice.byte());
            }
            bytes
        }
    }
}

/// The bytes with one changed.
fn changed(mut bytes: Vec<u8>, index: usize, byte: u8) -> Vec<u8> {
    bytes[index] = byte;
    bytes
}

/// A clear record with its mark or kind (byte 0, 1 or 2) broken.
fn broken_record(dice: &mut Dice, index: usize) -> Vec<u8> {
    let mut record = call_bytes(&Call::Clear { job: dice.below(64) }).to_vec();
    record[index] = match index {
        0 => other_byte(dice, 0x4E),
        1 => other_byte(dice, 0x50),
        _ => dice.pick(&[0, 6, 7, 128, 254, 255]),
    };
    record
}

// ---------------------------------------------------------------- records

/// A well-formed record of a mode and flag (flag 0 in modes 0, 4, 5, 6), as no install need have left it.
pub fn good_record(dice: &mut Dice, nodes: usize, mode: u8, flag: u8) -> [u64; WORDS] {
    let mut record = fresh();
    record.mode = mode;
    record.allowed = if dice.chance(40) { all_below(nodes) } else { dice.part_of(all_below(nodes)) };
    if mode == 0 && dice.chance(20) {
        record.allowed = 0;
    }
    if has_a_list(mode) {
        put_places(&mut record, &some_places(dice, nodes));
    }
    if has_a_mask(mode) {
        record.flag = flag;
        put_masks(dice, nodes, &mut record);
    }
    record.cursor = match mode {
        INTERLEAVE => dice.below(nodes + 1) as u8,
        RING | EARLY => dice.below(usize::from(record.length) + 1) as u8,
        _ => 0,
    };
    words(&record)
}

/// Puts places into a record.
fn put_places(record: &mut Record, places: &[u8]) {
    record.length = places.len() as u8;
    for place in 0..places.len() {
        record.places[place] = places[place];
    }
}

/// Puts a user and an effective mask that agree with the flag into a record.
fn put_masks(dice: &mut Dice, nodes: usize, record: &mut Record) {
    let all = all_below(nodes);
    match record.flag {
        NO_FLAG => {
            record.user = dice.part_of(all);
            record.effective = dice.part_of(record.allowed);
        }
        STATIC => {
            record.user = dice.part_of(all);
            record.effective = record.user & record.allowed;
        }
        _ => {
            record.user = dice.part_of(u64::MAX);
            record.effective = folded(record.user, record.allowed);
        }
    }
    if record.mode == PREFERRED && record.flag == NO_FLAG && dice.chance(30) {
        record.user = 0;
        record.effective = 0;
    }
}

/// A good record with one thing changed, mostly for the worse.
pub fn nearly_good_record(dice: &mut Dice, nodes: usize) -> [u64; WORDS] {
    let mode = dice.below(7) as u8;
    let flag = dice.below(3) as u8;
    let mut jobs = good_record(dice, nodes, mode, flag).to_vec();
    let mut record = read(&jobs, 0);
    let above_n = if nodes < 64 { 1u64 << dice.between(nodes, 63) } else { 0 };
    match dice.below(22) {
        0 => record.mode = dice.byte(),
        1 => record.mode = dice.below(8) as u8,
        2 => record.flag = dice.byte(),
        3 => record.flag = dice.below(4) as u8,
        4 => record.length = record.length.wrapping_add(1),
        5 => record.length = record.length.wrapping_sub(1),
        6 => record.length = dice.pick(&[0, 1, 15, 16, 17, 255]),
        7 => record.cursor = nodes as u8 + 1,
        8 => record.cursor = record.length.wrapping_add(1),
        9 => record.cursor = dice.byte(),
        10 => record.rest = 1 << dice.below(32),
        11 => record.user |= above_n,
        12 => record.allowed |= above_n,
        13 => record.effective |= above_n,
        14 => record.allowed = 0,
        15 => record.effective = 0,
        16 => record.user = 0,
        17 => {
            record.user = 0;
            record.effective = 0;
        }
        18 => record.effective ^= 1 << dice.below(nodes),
        19 => record.allowed ^= 1 << dice.below(nodes),
        20 => record.places[dice.below(MOST_PLACES)] = dice.byte(),
        _ => {
            write(&mut jobs, 0, &record);
            jobs[dice.below(WORDS)] ^= 1 << dice.below(64);
            record = read(&jobs, 0);
        }
    }
    words(&record)
}

/// Six words of garbage.
pub fn garbage_record(dice: &mut Dice) -> [u64; WORDS] {
    let mut record = [0; WORDS];
    let style = dice.below(3);
    for word in record.iter_mut() {
        *word = match style {
            0 => dice.next(),
            1 => dice.mask(),
            _ => u64::MAX,
        };
    }
    record
}

/// A record of any sort: good of every mode and flag, nearly good, fresh or garbage.
pub fn some_record(dice: &mut Dice, nodes: usize) -> [u64; WORDS] {
    match dice.below(20) {
        0 => [0; WORDS],
        1 => garbage_record(dice),
        2..=5 => nearly_good_record(dice, nodes),
        _ => {
            let mode = dice.pick(&[0, 1, 2, 3, LIST, LIST, RING, EARLY]);
            let flag = dice.below(3) as u8;
            good_record(dice, nodes, mode, flag)
        }
    }
}

// ---------------------------------------------------------------- tables

/// Tables no journal reaches, N for the calls that take it apart, and one call.
#[derive(Clone, Debug, PartialEq, Eq)]
pub struct Case {
    pub nodes: usize,
    pub tables: Tables,
    pub call: Call,
}

/// Good tables of up to 64 nodes, 256 CPUs and 64 jobs with records of every sort.
fn good_tables(dice: &mut Dice) -> Tables {
    let nodes = match dice.below(6) {
        0 => 64,
        1 => 63,
        2 => 1,
        3 => dice.between(1, 64),
        _ => dice.between(1, 8),
    };
    let job_count = match dice.below(4) {
        0 => 64,
        1 => 1,
        _ => dice.between(1, 9),
    };
    let mut tables = some_machine(dice, nodes, 256, job_count);
    fill_some_pages(dice, &mut tables);
    if dice.chance(40) {
        for _ in 0..dice.between(1, 9) {
            tables.pages.push(dice.pick(&[0, 0, 1, 255]));
        }
    }
    for job in 0..job_count {
        let record = some_record(dice, nodes);
        tables.jobs[job * WORDS..job * WORDS + WORDS].copy_from_slice(&record);
    }
    tables
}

/// The largest tables there may be, and one page more.
fn huge_tables(dice: &mut Dice) -> Tables {
    let mut tables = good_tables(dice);
    let nodes = dice.pick(&[16, 17, 64]);
    tables.counts = vec![0; nodes];
    for node in 0..16 {
        tables.counts[node] = 65_536;
    }
    if nodes > 16 && dice.chance(50) {
        tables.counts[nodes - 1] = 1;
    }
    tables.cpus = some_cpus(dice, nodes, 256);
    tables.distances = some_distances(dice, nodes);
    tables.pages = vec![77; 1_048_577];
    for _ in 0..dice.below(4) {
        let page = dice.below(1_048_577);
        tables.pages[page] = dice.pick(&[0, 1, 2]);
    }
    tables
}

/// Damages tables in one way.
fn damage_tables(dice: &mut Dice, tables: &mut Tables) {
    let node = dice.below(tables.counts.len());
    match dice.below(21) {
        0 => tables.counts = Vec::new(),
        1 => tables.counts.push(0),
        2 => tables.counts = vec![0; 65],
        3 if !tables.counts.is_empty() => tables.counts[node] = 65_537,
        4 if !tables.counts.is_empty() => tables.counts[node] = u32::MAX,
        5 => tables.counts = vec![u32::MAX; 64],
        6 => tables.cpus = Vec::new(),
        7 => tables.cpus = vec![0; 257],
        8 if !tables.cpus.is_empty() => {
            let cpu = dice.below(tables.cpus.len());
            tables.cpus[cpu] = dice.pick(&[tables.counts.len() as u8, 255]);
        }
        9 => tables.distances.push(10),
        10 => {
            tables.distances.pop();
        }
        11 => tables.distances = Vec::new(),
        12 if !tables.distances.is_empty() => {
            let index = dice.below(tables.distances.len());
            tables.distances[index] = dice.pick(&[0, 9, 11]);
        }
        13 if !tables.pages.is_empty() => {
            let length = dice.below(tables.pages.len());
            tables.pages.truncate(length);
        }
        14..=18 => damage_jobs(dice, tables),
        _ => wrong_length(dice, tables),
    }
}

/// Damages the job table, with its maps or without them.
fn damage_jobs(dice: &mut Dice, tables: &mut Tables) {
    match dice.below(5) {
        0 => tables.jobs = Vec::new(),
        1 => tables.jobs.push(0),
        2 => {
            tables.jobs.pop();
        }
        3 => tables.jobs = vec![0; 65 * WORDS],
        _ => {
            // As many maps as jobs, but too many of both.
            tables.jobs = vec![0; 65 * WORDS];
            tables.maps = identity_maps(tables.counts.len(), 65);
        }
    }
}

/// A job number: mostly one of the table.
pub fn some_job_number(dice: &mut Dice, tables: &Tables) -> usize {
    let count = tables.jobs.len() / WORDS;
    match dice.below(20) {
        0 => count,
        1 => dice.pick(&[64, 255, 256, usize::MAX, usize::MAX / 6 + 1, 1 << 32]),
        _ => dice.below(count),
    }
}

/// A call on tables, its numbers not bound to a journal's fields.
fn some_call(dice: &mut Dice, nodes: usize, tables: &Tables) -> Call {
    let job = some_job_number(dice, tables);
    let mut allowed = all_below(nodes);
    if job < tables.jobs.len() / WORDS {
        allowed = read(&tables.jobs, job).allowed;
    }
    let map = numbers_of(tables, job);
    match dice.below(20) {
        0..=4 => {
            let count = tables.cpus.len();
            let far = dice.pick(&[count, count + 1, 256, usize::MAX, 1 << 32]);
            let cpu = if dice.chance(8) { far } else { dice.below(count) };
            Call::Request { job, cpu }
        }
        5 | 6 => some_release(dice, tables, job),
        7 | 8 => good_install(dice, &map, job, allowed),
        9 => bad_install(dice, &map, job, allowed),
        10 => Call::Install {
            job,
            mode: dice.pick(&[0, 3, 7, 255, 256, 257, u64::MAX, 1 << 32]),
            flag: dice.pick(&[0, 1, 2, 3, 256, u64::MAX]),
            mask: dice.mask(),
            places: vec![dice.byte(); dice.pick(&[0, 1, 16, 17, 255, 256, 257, 1000])],
        },
        11 => good_rebind(dice, nodes, job),
        12 => Call::Rebind { job, allowed: dice.mask() },
        13 => Call::Clear { job },
        14 => good_keep(dice, job, map.len()),
        15 => bad_keep(dice, job, map.len()),
        16 => good_set(dice, nodes, job),
        17 => bad_set(dice, nodes, job),
        18 => some_drain(dice, tables),
        _ => Call::Fresh,
    }
}

/// A release: of a held page by its job, or of any page by any job.
fn some_release(dice: &mut Dice, tables: &Tables, job: usize) -> Call {
    let length = tables.pages.len();
    if dice.chance(20) {
        let page = dice.pick(&[length, length + 1, 1_048_576, usize::MAX, 1 << 32, 65_536]);
        return Call::Release { job, page };
    }
    let page = dice.below(length);
    if page < length && tables.pages[page] != 0 && dice.chance(80) {
        return Call::Release { job: usize::from(tables.pages[page]) - 1, page };
    }
    Call::Release { job, page }
}

/// A call on tables, mostly good ones, some damaged.
pub fn case(seed: u64) -> Case {
    let mut dice = Dice::new(seed ^ 0x7AB1E5);
    let mut tables = if seed % 97 == 96 { huge_tables(&mut dice) } else { good_tables(&mut dice) };
    put_some_counts(&mut dice, &mut tables);
    put_some_maps(&mut dice, &mut tables);
    let mut nodes = tables.counts.len();
    let call = some_call(&mut dice, nodes, &tables);
    if dice.chance(12) {
        nodes = dice.pick(&[0, 1, 2, 63, 64, 65, 256, usize::MAX, 1 << 32]);
    }
    if dice.chance(20) {
        damage_tables(&mut dice, &mut tables);
        if dice.chance(25) {
            damage_tables(&mut dice, &mut tables);
        }
        if dice.chance(50) {
            put_some_counts(&mut dice, &mut tables);
        }
    }
    Case { nodes, tables, call }
}

/// A list of calls of a given length on tables of any sort, damaged ones too.
pub fn tables(seed: u64, how_many: usize) -> (usize, Tables, Vec<Call>) {
    let mut dice = Dice::new(seed ^ 0x7AB1E);
    let Case { nodes, tables, call } = case(seed);
    let mut calls = vec![call];
    while calls.len() < how_many {
        calls.push(some_call(&mut dice, nodes.clamp(1, 64), &tables));
    }
    (nodes, tables, calls)
}

// ---------------------------------------------------------------- texts

/// A text to read (Node-list text).
#[derive(Clone, Debug, PartialEq, Eq)]
pub struct TextCase {
    pub nodes: usize,
    pub allowed: u64,
    pub text: Vec<u8>,
}

/// A mask to write, and how many bytes of output are lent (Node-list text).
#[derive(Clone, Debug, PartialEq, Eq)]
pub struct WriteCase {
    pub nodes: usize,
    pub mask: u64,
    pub room: usize,
}

/// N for texts: mostly 1 to 64.
fn some_text_nodes(dice: &mut Dice) -> usize {
    match dice.below(20) {
        0 => dice.pick(&[0, 65, 66, 256, usize::MAX, 1 << 32]),
        1 | 2 => 64,
        3 => 1,
        _ => dice.between(1, 64),
    }
}

/// One item below the limit, as text.
fn some_item(dice: &mut Dice, limit: usize) -> String {
    let a = dice.below(limit);
    if dice.chance(50) {
        return format!("{a}");
    }
    let b = dice.between(a, limit.max(1) - 1);
    format!("{a}-{b}")
}

/// Items split by commas, not longer than the text may be.
fn some_items(dice: &mut Dice, limit: usize) -> String {
    let mut text = some_item(dice, limit);
    let more = dice.pick(&[0, 0, 1, 2, 3, 5, 40]);
    for _ in 0..more {
        let item = some_item(dice, limit);
        if text.len() + item.len() < 250 {
            text.push(',');
            text.push_str(&item);
        }
    }
    text
}

/// A text of the kind the reader takes.
fn good_text(dice: &mut Dice, nodes: usize, allowed: u64) -> Vec<u8> {
    let nodes = nodes.clamp(1, 64);
    let text = match dice.below(10) {
        0 => String::new(),
        1 => String::from("all"),
        2 | 3 => format!("!{}", some_items(dice, nodes)),
        4..=6 => format!("+{}", some_items(dice, size(allowed))),
        _ => some_items(dice, nodes),
    };
    text.into_bytes()
}

/// A good text with one byte put in, taken out or changed.
fn nearly_good_text(dice: &mut Dice, nodes: usize, allowed: u64) -> Vec<u8> {
    let mut text = good_text(dice, nodes, allowed);
    let byte = if dice.chance(85) { dice.pick(b"0123456789,-!+al ") } else { dice.byte() };
    let at = dice.below(text.len() + 1);
    match dice.below(4) {
        0 if at < text.len() => {
            text.remove(at);
        }
        1 if at < text.len() => text[at] = byte,
        2 => {
            // A number at the limit, or far above every integer type.
            let big = dice.pick(&[
                "63",
                "64",
                "65",
                "255",
                "256",
                "257",
                "4294967296",
                "18446744073709551616",
                "18446744073709551617",
                "340282366920938463463374607431768211456",
            ]);
            if !text.is_empty() {
                text.push(dice.pick(b",-"));
            }
            text.extend(big.as_bytes());
        }
        _ => text.insert(at, byte),
    }
    text
}

/// A text of exactly so many bytes: valid but perhaps for its length, or not.
fn text_of_length(dice: &mut Dice, nodes: usize, length: usize) -> Vec<u8> {
    let mut text = Vec::new();
    if dice.chance(20) {
        return vec![dice.pick(b"01,-!+a"); length];
    }
    let digits = nodes.clamp(1, 10);
    while text.len() + 2 <= length {
        text.push(b'0' + dice.below(digits) as u8);
        text.push(b',');
    }
    if text.len() < length {
        text.push(b'0');
    } else if text.len() >= 4 && nodes > 10 {
        // An even length ends in a number of two digits.
        let end = text.len();
        text[end - 2] = b'1';
        text[end - 1] = b'0';
    }
    text
}

/// Noise of up to 300 bytes.
fn noise(dice: &mut Dice) -> Vec<u8> {
    let likely = dice.chance(70);
    let mut text = Vec::new();
    for _ in 0..dice.pick(&[1, 2, 3, 4, 5, 8, 20, 300]) {
        text.push(if likely { dice.pick(b"0123456789,,--!+al") } else { dice.byte() });
    }
    text
}

/// A text to read, with N and the allowed set.
pub fn text_case(seed: u64) -> TextCase {
    let mut dice = Dice::new(seed ^ 0x7E_7755);
    let nodes = some_text_nodes(&mut dice);
    let mut allowed = dice.mask();
    if dice.chance(92) {
        allowed &= all_below(nodes);
    }
    let text = match dice.below(20) {
        0..=8 => good_text(&mut dice, nodes, allowed),
        9..=14 => nearly_good_text(&mut dice, nodes, allowed),
        15 => text_of_length(&mut dice, nodes, 255),
        16 => text_of_length(&mut dice, nodes, 256),
        17 => {
            let length = dice.pick(&[254, 255, 256, 257, 511, 512, 65_536, 1_000_000]);
            text_of_length(&mut dice, nodes, length)
        }
        _ => noise(&mut dice),
    };
    TextCase { nodes, allowed, text }
}

/// A mask to write, with N and the room for it: ample, exact, one too few, or none.
pub fn write_case(seed: u64) -> WriteCase {
    let mut dice = Dice::new(seed ^ 0x3B_17E5);
    let nodes = some_text_nodes(&mut dice);
    let mut mask = dice.mask();
    if dice.chance(10) {
        mask = 0;
        for node in 0..64 {
            if node % 3 != 2 {
                mask = with(mask, node);
            }
        }
    }
    if dice.chance(92) {
        mask &= all_below(nodes);
    }
    let mut long = [0; 255];
    let need = crate::text::write_nodes(64, mask, &mut long).unwrap_or(0);
    let room = match dice.below(6) {
        0 => need,
        1 => need.saturating_sub(1),
        2 => need + 1,
        3 => dice.below(need + 1),
        4 => 0,
        _ => 255,
    };
    WriteCase { nodes, mask, room }
}

#[cfg(test)]
mod tests {
    use super::*;
    use crate::calls::apply_with;
    use crate::journal::{run, ANSWER};
    use crate::machine::first_page;
    use crate::record::well_formed;
    use crate::text::{read_nodes, write_nodes};
    use std::collections::BTreeSet;

    /// What journals showed: refusals by kind, modes and flags granted, and more.
    #[derive(Default, Debug)]
    struct Shown {
        refusals: BTreeSet<u8>,
        refusals_of_kind: BTreeSet<(u8, u8)>,
        granted: BTreeSet<(u8, u8)>,
        installed: BTreeSet<(u8, u8)>,
        nodes: BTreeSet<usize>,
        records: usize,
        grants: usize,
        releases: usize,
        full: usize,
        emptied: usize,
        static_and_empty: usize,
        served_by_other: usize,
        rebinds_with_cursor: usize,
        others_page: usize,
        long_lists: usize,
        far_places: usize,
        wraps: usize,
    }

    /// Enters the answers of a run.
    fn enter_answers(shown: &mut Shown, answers: &[u8]) {
        for answer in answers.chunks(ANSWER) {
            shown.refusals.insert(answer[3]);
            shown.refusals_of_kind.insert((answer[2], answer[3]));
        }
    }

    /// Enters what a good journal's calls do.
    fn enter_calls(shown: &mut Shown, start: &Tables, calls: &[Call]) {
        let mut tables = start.clone();
        shown.nodes.insert(tables.counts.len());
        for call in calls {
            shown.records += 1;
            let before = tables.clone();
            let answer = apply(&mut tables, call);
            match (call, answer) {
                (Call::Request { job, .. }, Answer::Granted { node, .. }) => {
                    let old = read(&before.jobs, *job);
                    let new = read(&tables.jobs, *job);
                    shown.grants += 1;
                    shown.granted.insert((old.mode, old.flag));
                    if old.flag == STATIC && old.effective == 0 {
                        shown.static_and_empty += 1;
                    }
                    if old.mode == INTERLEAVE && new.cursor != node.0 + 1 {
                        shown.served_by_other += 1;
                    }
                    if old.mode == RING && old.cursor != 0 && new.cursor <= old.cursor {
                        shown.wraps += 1;
                    }
                    if tables.pages.iter().all(|byte| *byte != 0) {
                        shown.full += 1;
                    }
                }
                (Call::Release { .. }, Answer::Released { .. }) => {
                    shown.releases += 1;
                    if tables.pages.iter().all(|byte| *byte == 0) {
                        shown.emptied += 1;
                    }
                }
                (Call::Release { page, .. }, Answer::Refused(10)) => {
                    if *page < before.pages.len() && before.pages[*page] != 0 {
                        shown.others_page += 1;
                    }
                }
                (Call::Install { mode, flag, .. }, Answer::Done) => {
                    shown.installed.insert((*mode as u8, *flag as u8));
                }
                (Call::Install { places, .. }, Answer::Refused(6)) => {
                    let is_far = |place: &u8| usize::from(*place) >= tables.counts.len();
                    shown.long_lists += usize::from(places.len() > 16);
                    shown.far_places += usize::from(places.len() <= 16 && places.iter().any(is_far));
                }
                (Call::Rebind { job, .. }, Answer::Done) if read(&before.jobs, *job).cursor != 0 => {
                    shown.rebinds_with_cursor += 1;
                }
                _ => {}
            }
        }
    }

    /// All modes with their flags.
    fn all_modes_and_flags() -> BTreeSet<(u8, u8)> {
        let mut all = BTreeSet::new();
        for mode in 0..7 {
            for flag in 0..3 {
                if flag == NO_FLAG || has_a_mask(mode) {
                    all.insert((mode, flag));
                }
            }
        }
        all
    }

    #[test]
    fn journals_show_everything_they_can() {
        let mut shown = Shown::default();
        for seed in 0..200 {
            let (start, calls) = journal_parts(seed, 150);
            let answers = run(&journal(seed, 150));
            assert_eq!(answers.len(), 150 * ANSWER);
            enter_answers(&mut shown, &answers);
            enter_calls(&mut shown, &start, &calls);
            enter_answers(&mut shown, &run(&damaged(seed)));
        }
        println!("{shown:?}");
        assert_eq!(shown.refusals, BTreeSet::from([0, 1, 2, 3, 5, 6, 7, 8, 10, 13]));
        let by_kind = [
            (1, 0),
            (1, 2),
            (1, 3),
            (1, 8),
            (2, 0),
            (2, 2),
            (2, 10),
            (3, 0),
            (3, 2),
            (3, 6),
            (3, 7),
            (4, 0),
            (4, 2),
            (4, 5),
            (4, 6),
            (4, 7),
            (5, 0),
            (5, 2),
            (0xFF, 1),
            (0xFF, 13),
        ];
        assert_eq!(shown.refusals_of_kind, BTreeSet::from(by_kind));
        assert_eq!(shown.installed, all_modes_and_flags());
        assert_eq!(shown.granted, all_modes_and_flags());
        assert_eq!(shown.nodes, (1..=16).collect());
        assert!(shown.grants * 100 > shown.records * 35, "grants are common");
        assert!(shown.releases * 100 > shown.records * 15, "releases are common");
        for count in [
            shown.full,
            shown.emptied,
            shown.static_and_empty,
            shown.served_by_other,
            shown.rebinds_with_cursor,
            shown.others_page,
            shown.long_lists,
            shown.far_places,
            shown.wraps,
        ] {
            assert!(count >= 5, "{shown:?}");
        }
    }

    #[test]
    fn machines_are_of_every_sort() {
        let mut zero_pages = 0;
        let mut most_pages = 0;
        let mut unreachable = 0;
        let mut one_way = 0;
        let mut second_tens = 0;
        let mut most_cpus = 0;
        let mut uneven = 0;
        for seed in 0..200 {
            let (start, _) = journal_parts(seed, 0);
            let nodes = start.counts.len();
            zero_pages += usize::from(start.counts.contains(&0));
            most_pages += usize::from(start.pages.len() == 16_384);
            most_cpus += usize::from(start.cpus.len() == 64);
            // More pages than colours, not as often each, and offsets that differ from page numbers (M-105).
            let is_uneven = |node: usize| {
                start.counts[node] > 4 && start.counts[node] % 4 != 0 && first_page(&start.counts, node) % 4 != 0
            };
            uneven += usize::from((0..nodes).any(is_uneven));
            unreachable += usize::from(start.distances.contains(&255));
            second_tens += usize::from(start.distances.iter().filter(|far| **far == 10).count() > nodes);
            let there_and_back =
                |from: usize, to: usize| start.distances[from * nodes + to] != start.distances[to * nodes + from];
            one_way += usize::from((0..nodes).any(|from| (0..nodes).any(|to| there_and_back(from, to))));
        }
        for count in [zero_pages, most_pages, unreachable, one_way, second_tens, most_cpus] {
            assert!(count >= 3);
        }
        assert!(uneven >= 60, "{uneven}");
    }

    #[test]
    fn damage_ends_in_1_or_13() {
        let mut endings = BTreeSet::new();
        for seed in 0..KINDS_OF_DAMAGE * 40 {
            let kind = seed % KINDS_OF_DAMAGE;
            let answers = run(&damaged(seed));
            let sure_damage = kind < 25;
            let last = answers.chunks(ANSWER).last().map(|answer| (answer[2], answer[3]));
            if sure_damage {
                assert!(last == Some((0xFF, 1)) || last == Some((0xFF, 13)), "seed {seed} {last:?}");
                endings.insert((kind, last.map(|ending| ending.1)));
            }
        }
        for kind in [0, 1, 2, 3, 4, 5, 6, 7, 14, 15, 16, 17, 18, 19, 20, 21, 22, 24] {
            assert!(endings.contains(&(kind, Some(13))), "kind {kind}");
        }
        for kind in [8, 9, 10, 11, 12, 13, 23] {
            assert!(endings.contains(&(kind, Some(1))), "kind {kind}");
        }
        for kind in [8, 9, 10, 11, 12, 13, 23] {
            assert!(!endings.contains(&(kind, Some(13))), "kind {kind}");
        }
    }

    #[test]
    fn the_same_seed_gives_the_same_bytes() {
        for seed in 0..20 {
            assert_eq!(journal(seed, 50), journal(seed, 50));
            assert_eq!(damaged(seed), damaged(seed));
            assert_eq!(case(seed), case(seed));
            assert_eq!(text_case(seed), text_case(seed));
        }
        assert_ne!(journal(1, 50), journal(17, 50));
    }

    #[test]
    fn good_records_are_good_and_nearly_good_ones_mostly_not() {
        let mut dice = Dice::new(3);
        let mut good = 0;
        for turn in 0..20_000 {
            let nodes = dice.between(1, 64);
            let mode = (turn % 7) as u8;
            let flag = (turn / 7 % 3) as u8;
            let record = good_record(&mut dice, nodes, mode, flag);
            assert!(well_formed(nodes, &read(&record, 0)), "{:?}", read(&record, 0));
            let nearly = nearly_good_record(&mut dice, nodes);
            good += usize::from(well_formed(nodes, &read(&nearly, 0)));
        }
        assert!(good > 2_000 && good < 10_000, "{good}");
    }

    /// The refusal of an answer, 0 for none.
    fn refusal(answer: Answer) -> u8 {
        match answer {
            Answer::Refused(number) => number,
            _ => 0,
        }
    }

    #[test]
    fn cases_show_every_refusal_and_a_refused_call_changes_nothing() {
        let mut shown = BTreeSet::new();
        let mut granted = BTreeSet::new();
        for seed in 0..20_000 {
            if seed % 97 == 96 && seed > 2_000 {
                continue;
            }
            let Case { nodes, tables, call } = case(seed);
            let mut after = tables.clone();
            let answer = apply_with(nodes, &mut after, &call);
            let kind = match &call {
                Call::Request { .. } => 1,
                Call::Release { .. } => 2,
                Call::Rebind { .. } => 3,
                Call::Install { .. } => 4,
                Call::Clear { .. } => 5,
                Call::Fresh => 16,
                Call::KeepNodes { .. } => 17,
                Call::SetMap { .. } => 18,
                Call::Drain { .. } => 19,
            };
            shown.insert((kind, refusal(answer)));
            if refusal(answer) != 0 {
                assert_eq!(after, tables, "seed {seed}");
            }
            if let (Call::Request { job, .. }, Answer::Granted { .. }) = (&call, answer) {
                let record = read(&tables.jobs, *job);
                granted.insert((record.mode, record.flag));
                assert!(well_formed(tables.counts.len(), &read(&after.jobs, *job)));
            }
            let policy_done = answer == Answer::Done;
            if let (Call::Install { job, .. } | Call::Rebind { job, .. } | Call::Clear { job }, true) =
                (&call, policy_done)
            {
                assert!(well_formed(nodes, &read(&after.jobs, *job)), "seed {seed}");
            }
        }
        let expected = [
            (1, 0),
            (1, 1),
            (1, 2),
            (1, 3),
            (1, 4),
            (1, 8),
            (1, 14),
            (1, 15),
            (2, 0),
            (2, 1),
            (2, 2),
            (2, 10),
            (2, 14),
            (2, 15),
            (3, 0),
            (3, 1),
            (3, 2),
            (3, 4),
            (3, 6),
            (3, 7),
            (4, 0),
            (4, 1),
            (4, 2),
            (4, 4),
            (4, 5),
            (4, 6),
            (4, 7),
            (4, 15),
            (5, 0),
            (5, 1),
            (5, 2),
            (16, 0),
            (16, 1),
            (17, 0),
            (17, 1),
            (17, 2),
            (17, 15),
            (18, 0),
            (18, 1),
            (18, 2),
            (18, 15),
            (19, 0),
            (19, 1),
            (19, 6),
            (19, 11),
            (19, 14),
            (19, 17),
        ];
        assert_eq!(shown, BTreeSet::from(expected));
        assert_eq!(granted, all_modes_and_flags());
    }

    #[test]
    fn lists_on_odd_tables_always_answer() {
        for seed in 0..500 {
            if seed % 97 == 96 {
                continue;
            }
            let (nodes, mut now, calls) = tables(seed, 20);
            for call in &calls {
                apply_with(nodes, &mut now, call);
            }
        }
    }

    #[test]
    fn texts_show_every_answer() {
        let mut shown = BTreeSet::new();
        let mut lengths = BTreeSet::new();
        let mut good_255 = 0;
        for seed in 0..20_000 {
            let TextCase { nodes, allowed, text } = text_case(seed);
            let answer = read_nodes(nodes, allowed, &text);
            shown.insert(answer.err().unwrap_or(0));
            lengths.insert(text.len());
            good_255 += usize::from(answer.is_ok() && text.len() == 255);
        }
        assert_eq!(shown, BTreeSet::from([0, 1, 6, 12]));
        for length in [0, 255, 256, 1_000_000] {
            assert!(lengths.contains(&length));
        }
        assert!(good_255 > 10);
    }

    #[test]
    fn masks_to_write_show_every_answer() {
        let mut shown = BTreeSet::new();
        for seed in 0..5_000 {
            let WriteCase { nodes, mask, room } = write_case(seed);
            let mut out = vec![0xEE; room];
            let answer = write_nodes(nodes, mask, &mut out);
            let untouched = answer.unwrap_or(0);
            assert!(out[untouched..].iter().all(|byte| *byte == 0xEE));
            shown.insert(answer.err().unwrap_or(0));
        }
        assert_eq!(shown, BTreeSet::from([0, 1, 6, 11]));
    }
}
