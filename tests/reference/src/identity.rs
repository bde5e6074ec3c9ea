//! M-103 beside the rules before it: with map 0 to N-1 every call answers as before, but for a place at N or above, which an
//! install of modes 4 to 6 now refuses 6. M-104's closing 255 is no such place: it stands as it is, with maps and without.

use crate::calls::{apply_with, apply_without_maps, Answer, Call, Tables};
use crate::generate::{case, journal_parts, list, put_counts, tables, Case, Dice, SORTS_OF_COUNTS};
use crate::map_cases::{good_set, has_far_place};
use crate::maps::identity_maps;
use crate::record::WORDS;

/// What calls with identity maps showed.
#[derive(Default, Debug)]
struct Shown {
    granted: u64,
    released: u64,
    done: u64,
    refused: u64,
    /// Installs that were done before M-103 and are refused 6 now.
    far_places: u64,
}

/// Makes the calls with identity maps and without maps.
fn as_before(told: &str, nodes: usize, start: Tables, calls: &[Call], shown: &mut Shown) {
    // An install goes by the N that it is given, and not by the number of page counts.
    let maps = identity_maps(nodes, start.jobs.len() / WORDS);
    let mut now = Tables { maps, ..start };
    for (turn, call) in calls.iter().enumerate().filter(|(_, call)| !call.is_of_maps()) {
        let mut before = now.clone();
        let old = apply_without_maps(nodes, &mut before, call);
        let kept = now.clone();
        let answer = apply_with(nodes, &mut now, call);
        if has_far_place(nodes, call) && old == Answer::Done {
            assert_eq!(answer, Answer::Refused(6), "{told} call {turn}: {call:?}");
            assert_eq!(now, kept, "{told} call {turn}: {call:?}");
            shown.far_places += 1;
            continue;
        }
        assert_eq!(answer, old, "{told} call {turn}: N {nodes} {call:?}");
        assert_eq!(now, before, "{told} call {turn}: {call:?}");
        match answer {
            Answer::Granted { .. } => shown.granted += 1,
            Answer::Released { .. } => shown.released += 1,
            Answer::Done | Answer::Drained { .. } => shown.done += 1,
            Answer::Refused(_) => shown.refused += 1,
        }
    }
}

/// The maps fit N for the call: a request or release goes by the page counts, an install by the N that it is given.
fn maps_fit_the_call(nodes: usize, tables: &Tables, call: &Call) -> bool {
    matches!(call, Call::Install { .. }) || nodes == tables.counts.len()
}

#[test]
fn single_calls_are_answered_as_before() {
    let mut shown = Shown::default();
    for seed in 0..20_000 {
        let Case { nodes, tables, call } = case(seed);
        let good_n = (1..=64).contains(&nodes) && (1..=64).contains(&tables.counts.len());
        if (seed % 97 == 96 && seed > 1_000) || !good_n || !maps_fit_the_call(nodes, &tables, &call) {
            continue;
        }
        as_before(&format!("case {seed}"), nodes, tables, &[call], &mut shown);
    }
    println!("{shown:?}");
    assert!(shown.granted > 500 && shown.released > 100 && shown.done > 1_000, "{shown:?}");
    assert!(shown.refused > 3_000 && shown.far_places > 20, "{shown:?}");
}

#[test]
fn lists_are_answered_as_before() {
    let mut shown = Shown::default();
    for seed in 0..200 {
        for (mut start, calls) in [list(seed, 150), journal_parts(seed, 150)] {
            let sort = SORTS_OF_COUNTS[seed as usize % SORTS_OF_COUNTS.len()];
            put_counts(&mut Dice::new(seed), &mut start, sort);
            as_before(&format!("list {seed} {sort:?}"), start.counts.len(), start, &calls, &mut shown);
        }
        let (nodes, start, calls) = tables(seed, 20);
        if seed % 97 != 96 && nodes == start.counts.len() && (1..=64).contains(&nodes) {
            as_before(&format!("tables {seed}"), nodes, start, &calls, &mut shown);
        }
    }
    println!("{shown:?}");
    assert!(shown.granted > 5_000 && shown.released > 2_000 && shown.done > 1_000, "{shown:?}");
    assert!(shown.refused > 1_000 && shown.far_places > 50, "{shown:?}");
}

/// Another map is told apart from the rules before: the comparison above can fail.
#[test]
fn another_map_is_told_apart() {
    let mut apart = 0;
    for seed in 0..200 {
        let (mut tables, calls) = journal_parts(seed, 100);
        let nodes = tables.counts.len();
        let mut dice = Dice::new(seed);
        for job in 0..tables.jobs.len() / WORDS {
            let set = good_set(&mut dice, nodes, job);
            assert_eq!(apply_with(nodes, &mut tables, &set), Answer::Done);
        }
        let mut before = tables.clone();
        let differs = |call: &Call| {
            apply_with(nodes, &mut tables, call) != apply_without_maps(nodes, &mut before, call) || tables != before
        };
        apart += usize::from(calls.iter().any(differs));
    }
    assert!(apart > 120, "{apart}");
}
