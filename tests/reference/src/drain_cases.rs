//! Made-up drains, from a seed. Nothing here decides a rule of the papers.

use crate::calls::{Call, Tables};
use crate::drain::drain_pairs;
use crate::generate::{case, put_counts, Dice, SORTS_OF_COUNTS};
use crate::machine::{all_pages, first_page, free_counts};
use crate::masks::{all_below, with};
use crate::near_cases::some_room;
use crate::reason_cases::{put_good_job, put_some_gaps};
use crate::record::{read, words, WORDS};

/// One drain: the tables, the node, and the room for the pairs, in numbers.
#[derive(Clone, Debug, PartialEq, Eq)]
pub struct DrainCase {
    pub tables: Tables,
    pub node: usize,
    pub room: usize,
}

/// Good jobs that may use many nodes, or few; some stay as they were.
fn put_jobs(dice: &mut Dice, tables: &mut Tables) {
    let (all, percent) = (all_below(tables.counts.len()), dice.pick(&[0, 50, 90]));
    let bad = if dice.chance(40) { 10 } else { 0 };
    for job in 0..tables.jobs.len() / WORDS {
        if dice.chance(bad) {
            continue;
        }
        put_good_job(dice, tables, job);
        let mut record = read(&tables.jobs, job);
        if record.flag == 0 && dice.chance(percent) {
            record.allowed = all;
            tables.jobs[job * WORDS..(job + 1) * WORDS].copy_from_slice(&words(&record));
        }
        if dice.chance(bad) {
            // A node after the map's end, or one twice.
            let map = &mut tables.maps[job * 64..(job + 1) * 64];
            map[63] = map[0];
        }
    }
}

/// Pages of the machine that are held by jobs of the table, and free ones, as many as a share says; few of them are free in
/// the node to be drained. Some are held by no job.
fn put_pages(dice: &mut Dice, tables: &mut Tables, node: usize) {
    let first = first_page(&tables.counts, node);
    let mine = first..first + tables.counts[node] as usize;
    let (jobs, share) = (tables.jobs.len() / WORDS, dice.pick(&[10, 30, 60, 90]));
    let nobody = if dice.chance(12) { 3 } else { 0 };
    for page in 0..all_pages(&tables.counts) as usize {
        let free = if mine.contains(&page) { 30 } else { share };
        tables.pages[page] = match dice.chance(free) {
            true => 0,
            false if mine.contains(&page) && dice.chance(nobody) => dice.between(jobs + 1, 255) as u8,
            false => dice.between(1, jobs) as u8,
        };
    }
}

/// One free page that several jobs would like: all others are held outside the node.
fn put_last_page(dice: &mut Dice, tables: &mut Tables, node: usize) {
    let (counts, held) = (tables.counts.clone(), tables.jobs.len() / WORDS);
    let other = dice.below(counts.len());
    for page in 0..all_pages(&counts) as usize {
        if tables.pages[page] == 0 {
            tables.pages[page] = dice.between(1, held) as u8;
        }
    }
    let (first, count) = (first_page(&counts, other), counts[other] as usize);
    if other != node && count > 0 {
        tables.pages[first + dice.below(count)] = 0;
    }
    // The node has few pages left.
    let (first, count) = (first_page(&counts, node), counts[node] as usize);
    tables.pages[first..first + count].iter_mut().skip(dice.between(1, 2)).for_each(|byte| *byte = 0);
}

/// One count that is one off, or counts of any sort.
fn put_wrong_counts(dice: &mut Dice, tables: &mut Tables) {
    if dice.chance(40) {
        let sort = dice.pick(&SORTS_OF_COUNTS);
        return put_counts(dice, tables, sort);
    }
    let node = dice.below(tables.counts.len());
    let count = tables.free[node];
    tables.free[node] = if dice.chance(50) { count + 1 } else { count.saturating_sub(1) };
}

/// A number that is no node of the machine, or is one in fewer bits.
fn no_node(dice: &mut Dice, nodes: usize) -> usize {
    let node = dice.below(nodes);
    dice.pick(&[nodes, nodes + 1, 64, 255, 256 + node, 1 << 32 | node, 1 << 63 | node, usize::MAX])
}

/// A node, mostly one that holds pages, or at least has some.
fn some_node(dice: &mut Dice, tables: &Tables) -> usize {
    let least = if dice.chance(75) { free_counts(&tables.counts, &tables.pages) } else { vec![0; tables.counts.len()] };
    let holds = (0..tables.counts.len().min(64)).filter(|node| tables.counts[*node] > least[*node]).fold(0, with);
    let any = dice.below(tables.counts.len());
    if holds == 0 || dice.chance(10) {
        return any;
    }
    dice.part_of(holds).trailing_zeros() as usize
}

/// Room for the pairs, in numbers: mostly what they take; also none, a number too few, an odd number, and more.
fn some_room_for(dice: &mut Dice, tables: &Tables, node: usize) -> usize {
    let held = || tables.counts.get(node).map_or(0, |count| 2 * (*count as usize).min(tables.pages.len()));
    let need = drain_pairs(&mut tables.clone(), node, usize::MAX).map_or_else(|_| held(), |pairs| pairs.len());
    match dice.below(10) {
        0..=4 => need,
        5 => need + 1,
        6 => need.saturating_sub(2),
        _ => some_room(dice, need),
    }
}

/// A drain of some node of these tables, or of none, as a call of a list.
pub(crate) fn some_drain(dice: &mut Dice, tables: &Tables) -> Call {
    let node = if dice.chance(5) { no_node(dice, tables.counts.len()) } else { some_node(dice, tables) };
    Call::Drain { node, room: some_room_for(dice, tables, node) }
}

/// Are they tables that can be filled anew: of a right shape, and not huge?
fn fit(tables: &Tables) -> bool {
    let Tables { counts, pages, jobs, maps, distances, .. } = tables;
    let shape = (1..=64).contains(&counts.len()) && distances.len() == counts.len() * counts.len();
    let jobs_fit = (1..=64).contains(&(jobs.len() / WORDS)) && jobs.len() / WORDS * 64 == maps.len();
    shape && jobs_fit && all_pages(counts) <= 2_000 && pages.len() as u64 >= all_pages(counts)
}

/// A drain of any sort: mostly on good tables with counts that match, some on damaged ones.
pub fn drain_case(seed: u64) -> DrainCase {
    let mut dice = Dice::new(seed ^ 0xD4A1_0107);
    let mut tables = case(seed).tables;
    let mut node = some_node(&mut dice, &tables);
    if fit(&tables) && dice.chance(85) {
        put_jobs(&mut dice, &mut tables);
        put_pages(&mut dice, &mut tables, node);
        if dice.chance(15) {
            put_last_page(&mut dice, &mut tables, node);
        }
        if dice.chance(25) {
            put_some_gaps(&mut dice, &mut tables);
        }
        tables = tables.counted();
        if dice.chance(15) {
            put_wrong_counts(&mut dice, &mut tables);
        }
    }
    if dice.chance(5) {
        node = no_node(&mut dice, tables.counts.len());
    }
    let room = some_room_for(&mut dice, &tables, node);
    DrainCase { tables, node, room }
}
