//! M-100: "If the counts match the page table at entry, every call answers as before and they match afterwards."

use crate::calls::{apply, apply_with, apply_without_counts, Answer, Call, Tables};
use crate::drain_requests::by_requests;
use crate::generate::{case, journal_parts, list, put_counts, tables, Case, Counts, Dice, SORTS_OF_COUNTS};
use crate::machine::{all_pages, byte_of_job};

/// Makes the calls with counts, which match at the start, and without them; gives how many were granted, and refused.
fn as_before(told: &str, nodes: usize, start: Tables, calls: &[Call]) -> (u64, u64) {
    let mut now = start.counted();
    let mut before = now.clone();
    let (mut granted, mut refused) = (0, 0);
    for (turn, call) in calls.iter().enumerate() {
        let answer = apply_with(nodes, &mut now, call);
        assert_eq!(answer, apply_without_counts(nodes, &mut before, call), "{told} call {turn}: {call:?}");
        before.free.clone_from(&now.free);
        assert_eq!(now, before, "{told} call {turn}: {call:?}");
        assert!(now.counts_match(), "{told} call {turn}: {call:?}");
        granted += u64::from(matches!(answer, Answer::Granted { .. }));
        refused += u64::from(matches!(answer, Answer::Refused(_)));
    }
    (granted, refused)
}

#[test]
fn single_calls_are_answered_as_before() {
    let (mut granted, mut refused) = (0, 0);
    for seed in 0..20_000 {
        if seed % 97 == 96 && seed > 1_000 {
            continue;
        }
        let Case { nodes, tables, call } = case(seed);
        let seen = as_before(&format!("case {seed}"), nodes, tables, &[call]);
        granted += seen.0;
        refused += seen.1;
    }
    println!("{granted} granted, {refused} refused");
    assert!(granted > 1_000 && refused > 5_000, "{granted} {refused}");
}

#[test]
fn lists_are_answered_as_before() {
    let (mut granted, mut refused) = (0, 0);
    for seed in 0..200 {
        let (start, calls) = list(seed, 150);
        assert!(start.counts_match(), "list {seed}");
        let seen = as_before(&format!("list {seed}"), start.counts.len(), start, &calls);
        let (start, calls) = journal_parts(seed, 150);
        assert!(start.counts_match(), "journal {seed}");
        let more = as_before(&format!("journal {seed}"), start.counts.len(), start, &calls);
        granted += seen.0 + more.0;
        refused += seen.1 + more.1;
        if seed % 97 != 96 {
            let (nodes, start, calls) = tables(seed, 20);
            as_before(&format!("tables {seed}"), nodes, start, &calls);
        }
    }
    println!("{granted} granted, {refused} refused");
    assert!(granted > 10_000 && refused > 1_000, "{granted} {refused}");
}

/// From any counts at all, a fresh table makes them match, and they go on matching.
#[test]
fn after_a_fresh_table_the_counts_match() {
    let mut done = 0;
    for seed in 0..2_000 {
        if seed % 97 == 96 {
            continue;
        }
        let (nodes, mut now, calls) = tables(seed, 12);
        if apply_with(nodes, &mut now, &Call::Fresh) == Answer::Done {
            assert!(now.counts_match(), "seed {seed}");
            as_before(&format!("seed {seed}"), nodes, now, &calls);
            done += 1;
        }
    }
    assert!(done > 1_000, "{done}");
}

/// "A grant to job j writes j + 1 at its page in the ledger, a release 0" (The lists of demand 3); a fresh table "in the
/// ledger is a release of each page" (M-100), and a move "a release and a grant in one step" (M-107). With counts of any sort,
/// the answers, and a drain's pairs, alone say what the page table is.
#[test]
fn the_ledger_goes_by_the_answers() {
    let mut changes = 0;
    for sort in SORTS_OF_COUNTS {
        for seed in 0..100 {
            let (mut tables, calls) = list(seed, 100);
            put_counts(&mut Dice::new(seed), &mut tables, sort);
            let mut ledger = tables.pages.clone();
            for (turn, call) in calls.iter().enumerate() {
                let before = tables.clone();
                match (call, apply(&mut tables, call)) {
                    (Call::Drain { node, .. }, Answer::Drained { .. }) => {
                        for pair in by_requests(&before, *node).expect("a drain that was granted").chunks(2) {
                            ledger[pair[1] as usize] = ledger[pair[0] as usize];
                            ledger[pair[0] as usize] = 0;
                            changes += 1;
                        }
                    }
                    (Call::Request { job, .. }, Answer::Granted { page, .. }) => {
                        ledger[page as usize] = byte_of_job(*job);
                        changes += 1;
                    }
                    (Call::Release { .. }, Answer::Released { page, .. }) => {
                        ledger[page as usize] = 0;
                        changes += 1;
                    }
                    (Call::Fresh, Answer::Done) => {
                        for page in 0..all_pages(&tables.counts) as usize {
                            ledger[page] = 0;
                        }
                        changes += 1;
                    }
                    _ => {}
                }
                assert_eq!(tables.pages, ledger, "{sort:?} list {seed} call {turn}: {call:?}");
            }
        }
    }
    println!("{changes} changes");
    assert!(changes > 10_000, "{changes}");
}

/// Each sort of wrong counts is what its name says, and mostly wrong.
#[test]
fn sorts_of_counts() {
    let mut dice = Dice::new(5);
    let mut wrong = 0;
    for seed in 0..300 {
        let (start, _) = list(seed, 0);
        let nodes = start.counts.len();
        let mut with = |sort| {
            let mut tables = start.clone();
            put_counts(&mut dice, &mut tables, sort);
            wrong += u64::from(!tables.counts_match());
            tables.free
        };
        assert_eq!(with(Counts::Matching), start.free);
        assert!(with(Counts::TooFew).len() < nodes);
        assert!(with(Counts::TooMany).len() > nodes);
        let above = with(Counts::AbovePages);
        assert!(above.len() == nodes && above.iter().zip(&start.counts).any(|(free, count)| free > count));
        let high = with(Counts::TooHigh);
        assert!(high.len() == nodes && high.iter().zip(&start.free).all(|(free, matching)| free >= matching));
        let low = with(Counts::TooLow);
        assert!(low.len() == nodes && low.iter().zip(&start.free).all(|(free, matching)| free <= matching));
        assert_eq!(with(Counts::Mixed).len(), nodes);
        assert_eq!(with(Counts::AllMost), vec![u32::MAX; nodes]);
        assert_eq!(with(Counts::AllZero), vec![0; nodes]);
    }
    assert!(wrong > 300 * 6, "{wrong}");
}
