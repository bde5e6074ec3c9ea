//! M-101 by brute force: lists of requests and releases of jobs in mode 6, by a book that knows the last place that granted, not the cursor.

use hosts::seeds;
use reference::calls::Tables;
use reference::generate::Dice;
use reference::machine::lowest_free_page;
use reference::maps::identity_maps;
use reference::record::{fresh, read, write, Record, EARLY, WORDS};
use spirerivet::{Answer, Refusal};

const JOBS: usize = 3;
const NODES: usize = 4;

/// Three jobs in mode 6: places that name nodes, allowed or not, or none of the machine's; with a cursor or none. Counts that match or don't.
fn start(dice: &mut Dice) -> Tables {
    let counts: Vec<u32> = (0..NODES).map(|_| dice.below(5) as u32).collect();
    let pages = (0..counts.iter().sum()).map(|_| dice.pick(&[0, 0, 0, 1, 2, 3, 200])).collect();
    let distances = (0..NODES * NODES).map(|at| if at / NODES == at % NODES { 10 } else { 20 }).collect();
    let (cpus, free, maps) = (vec![0], vec![0; NODES], identity_maps(NODES, JOBS));
    let mut tables = Tables { counts, cpus, distances, pages, jobs: vec![0; JOBS * WORDS], free, maps }.counted();
    if dice.chance(30) {
        let node = dice.below(NODES);
        tables.free[node] = dice.below(5) as u32;
    }
    for job in 0..JOBS {
        let length = dice.between(1, 6);
        let mut record = Record { mode: EARLY, length: length as u8, ..fresh() };
        record.cursor = dice.below(length + 1) as u8;
        record.allowed = dice.pick(&[0b1111, 0b1111, 0b0111, 0b1010]);
        for place in &mut record.places[..length] {
            *place = dice.pick(&[0, 1, 2, 3, 0, 1, 2, 3, 4, 255]);
        }
        write(&mut tables.jobs, job, &record);
    }
    tables
}

/// Place 0, else the first from `next` on, once round, whose node is one of the machine's, allowed, and counted above 0.
fn place(tables: &Tables, record: &Record, next: usize) -> Option<usize> {
    let length = usize::from(record.length);
    let can_grant = |place: &usize| {
        let node = usize::from(record.places[*place]);
        node < NODES && record.allowed >> node & 1 == 1 && tables.free[node] > 0
    };
    std::iter::once(0).chain((0..length).map(|step| (next + step) % length)).find(can_grant)
}

/// What the book has of a job: one past the last place that granted, and the same by 01's rule before M-101.
#[derive(Clone, Copy)]
struct Book {
    next: usize,
    before: usize,
}

#[derive(Default, Debug)]
struct Seen {
    by_place_0: u64,
    by_ring_part: u64,
    told_apart: u64,
    refused: u64,
}

fn request(told: &str, tables: &mut Tables, book: &mut Book, job: usize, seen: &mut Seen) {
    let record = read(&tables.jobs, job);
    let asked = place(tables, &record, book.next);
    seen.told_apart += u64::from(asked != place(tables, &record, book.before));
    let kept = tables.clone();
    let Tables { counts, cpus, distances, pages, jobs, free, maps } = tables;
    match spirerivet::request(counts, cpus, distances, pages, jobs, free, maps, job, 0) {
        Answer::Granted { node, .. } => {
            let granted = asked.unwrap_or_else(|| panic!("{told}: granted though no place can grant"));
            assert_eq!(node.0, record.places[granted], "{told}: the node of place {granted}");
            assert_eq!(usize::from(read(jobs, job).cursor), granted + 1, "{told}: the cursor after place {granted}");
            book.next = granted + 1;
            if granted == 0 {
                seen.by_place_0 += 1;
            } else {
                book.before = granted + 1;
                seen.by_ring_part += 1;
            }
        }
        Answer::Refused(refusal) => {
            let has_no_page =
                |place| lowest_free_page(&kept.counts, &kept.pages, usize::from(record.places[place])).is_none();
            assert_eq!(refusal, if asked.is_some() { Refusal::WrongCount } else { Refusal::NoRoom }, "{told}");
            assert!(asked.map_or(true, has_no_page), "{told}: refused 14 with a free page");
            assert_eq!(*tables, kept, "{told}: changed by a refused request");
            seen.refused += 1;
        }
        other => panic!("{told}: {other:?}"),
    }
}

#[test]
fn early_goes_on_from_where_it_stopped() {
    let mut seen = Seen::default();
    for seed in seeds(2_000) {
        let mut dice = Dice::new(seed);
        let mut tables = start(&mut dice);
        let mut books = [0, 1, 2].map(|job| {
            let next = usize::from(read(&tables.jobs, job).cursor);
            Book { next, before: next }
        });
        for turn in 0..60 {
            let (job, page) = (dice.below(JOBS), dice.below(tables.pages.len() + 1));
            match tables.pages.get(page) {
                Some(holder @ 1..=3) => {
                    let holder = usize::from(*holder) - 1;
                    let Tables { counts, pages, jobs, free, maps, .. } = &mut tables;
                    spirerivet::release(counts, pages, jobs, free, maps, holder, page);
                }
                _ => {
                    request(&format!("seed {seed} turn {turn} job {job}"), &mut tables, &mut books[job], job, &mut seen)
                }
            }
        }
    }
    println!("{seen:?}");
    assert!(seen.by_place_0 > 5_000 && seen.by_ring_part > 5_000 && seen.refused > 5_000, "{seen:?}");
    assert!(seen.told_apart > 200, "{seen:?}");
}
