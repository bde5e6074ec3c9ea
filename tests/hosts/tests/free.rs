//! M-100's free counts by the linked library and by the second implementation: counts that match, and counts that don't.

use hosts::{seeds, Both, Seen, Shown};
use reference::calls::{apply_without_counts, Answer, Call, Tables};
use reference::generate::{case, journal_parts, list, put_counts, tables, Case, Dice, SORTS_OF_COUNTS};
use reference::machine::{all_pages, fresh_tables_fit};
use reference::maps::identity_maps;
use reference::record::{BIND, DEFAULT, EARLY, INTERLEAVE, LIST, RING, WORDS};

/// Makes the calls by both; gives what they showed.
fn run(told: &str, nodes: usize, start: Tables, calls: &[Call]) -> Shown {
    let mut shown = Shown::default();
    let mut both = Both::new(nodes, start);
    for (turn, call) in calls.iter().enumerate() {
        let before = both.tables.clone();
        match both.call(call, &mut Seen::default()) {
            Ok(answer) => shown.enter(&before, call, answer),
            Err(difference) => panic!("{told} call {turn}: {difference}"),
        }
    }
    shown
}

/// "If the counts match the page table at entry, every call answers as before and they match afterwards" (M-100).
fn as_before(told: &str, nodes: usize, start: Tables, calls: &[Call], seen: &mut Seen) {
    let mut before = start.counted();
    let mut both = Both::new(nodes, before.clone());
    for (turn, call) in calls.iter().enumerate() {
        let answer = apply_without_counts(nodes, &mut before, call);
        assert_eq!(both.call(call, seen), Ok(answer), "{told} call {turn}");
        before = before.counted();
        assert_eq!(both.lent.difference(&before), None, "{told} call {turn}: {call:?}");
    }
}

#[test]
fn with_matching_counts_every_call_answers_as_before() {
    let mut seen = Seen::default();
    for seed in seeds(6_000) {
        let Case { nodes, tables, call } = case(seed);
        as_before(&format!("case {seed}"), nodes, tables, &[call], &mut seen);
    }
    for seed in seeds(80) {
        for (what, (start, calls)) in [("list", list(seed, 120)), ("journal", journal_parts(seed, 120))] {
            as_before(&format!("{what} {seed}"), start.counts.len(), start, &calls, &mut seen);
        }
    }
    println!("{seen:?}");
    assert!(seen.granted > 5_000 && seen.released > 1_000 && seen.refused[8] > 500, "{seen:?}");
    assert_eq!(seen.refused[14], 0, "{seen:?}");
}

#[test]
fn calls_on_counts_of_every_sort() {
    let mut calls_made = 0;
    for sort in SORTS_OF_COUNTS {
        let mut shown = Shown::default();
        for seed in seeds(2_000) {
            let Case { nodes, mut tables, call } = case(seed);
            put_counts(&mut Dice::new(seed ^ 0xC0_4271), &mut tables, sort);
            shown.add(run(&format!("{sort:?} case {seed}"), nodes, tables, &[call]));
        }
        for seed in seeds(300) {
            let (mut start, calls) = list(seed, 30);
            put_counts(&mut Dice::new(seed ^ 0xC0_4272), &mut start, sort);
            shown.add(run(&format!("{sort:?} list {seed}"), start.counts.len(), start, &calls));
        }
        println!("{sort:?}: {shown:?}");
        assert!(shown.is_enough(sort), "{sort:?}: {shown:?}");
        calls_made += shown.calls;
    }
    println!("{calls_made} calls");
}

/// "it frees every page of the machine, can be refused only 1"; then every call answers as before (M-100).
#[test]
fn fresh_tables() {
    let (mut done, mut refused, mut tails) = (0, 0, 0);
    for seed in seeds(3_000) {
        let told = format!("tables {seed}");
        let (nodes, start, calls) = tables(seed, 6);
        let mut both = Both::new(nodes, start.clone());
        let answer = both.call(&Call::Fresh, &mut Seen::default());
        if !fresh_tables_fit(&start.counts, &start.pages, &start.free) {
            assert_eq!(answer, Ok(Answer::Refused(1)), "{told}");
            refused += 1;
            continue;
        }
        assert_eq!(answer, Ok(Answer::Done), "{told}");
        let (mine, past) = both.lent.pages.now().split_at(all_pages(&start.counts) as usize);
        assert!(mine.iter().all(|byte| *byte == 0), "{told}: a page that is not free");
        assert_eq!(past, &start.pages[mine.len()..], "{told}: bytes past the last page");
        assert_eq!(both.lent.free.now(), start.counts, "{told}");
        tails += u64::from(past.iter().any(|byte| *byte != 0));
        done += 1;
        as_before(&told, nodes, both.tables, &calls, &mut Seen::default());
    }
    println!("{done} done, {tails} of them with held bytes past the last page, {refused} refused");
    assert!(done > 1_500 && tails > 200 && refused > 200, "{done} {tails} {refused}");
}

/// Two nodes of one page and two: every page table of free, own and other's pages, counts about the pages, several records.
#[test]
fn every_small_table() {
    let record = |mode: u8, length: u64, cursor: u64, mask: u64, places: u64| -> [u64; WORDS] {
        [u64::from(mode) | length << 16 | cursor << 24, mask, 0b11, mask, places, 0]
    };
    let records = [
        record(DEFAULT, 0, 0, 0, 0),
        record(BIND, 0, 0, 0b10, 0),
        record(INTERLEAVE, 0, 0, 0b11, 0),
        record(INTERLEAVE, 0, 1, 0b11, 0),
        record(LIST, 2, 0, 0, 0x0001),
        record(RING, 2, 0, 0, 0x0100),
        record(RING, 2, 1, 0, 0x0100),
        record(EARLY, 2, 2, 0, 0x0001),
    ];
    let (bytes, numbers) = ([0, 1, 200], [0, 1, 2, 3, u32::MAX]);
    let mut shown = Shown::default();
    for turn in 0..27 * 25 {
        let pages = vec![bytes[turn % 3], bytes[turn / 3 % 3], bytes[turn / 9 % 3]];
        let free = vec![numbers[turn / 27 % 5], numbers[turn / 135]];
        let small = |jobs: &[u64]| {
            let (pages, jobs, free, maps) = (pages.clone(), jobs.to_vec(), free.clone(), identity_maps(2, 1));
            Tables { counts: vec![1, 2], cpus: vec![0], distances: vec![10, 20, 20, 10], pages, jobs, free, maps }
        };
        let told = format!("pages {pages:?} free {free:?}");
        for record in &records {
            shown.add(run(&told, 2, small(record), &[Call::Request { job: 0, cpu: 0 }]));
        }
        for page in 0..=3 {
            shown.add(run(&told, 2, small(&records[0]), &[Call::Release { job: 0, page }]));
        }
        shown.add(run(&told, 2, small(&records[0]), &[Call::Fresh]));
    }
    println!("{shown:?}");
    assert_eq!(shown.calls, 27 * 25 * 13);
    assert!(shown.request_14 > 500 && shown.release_14 > 200 && shown.room_counted_0 > 100, "{shown:?}");
    assert!(shown.passed_over > 100 && shown.wrong_granted > 500 && shown.fresh == 27 * 25, "{shown:?}");
}
