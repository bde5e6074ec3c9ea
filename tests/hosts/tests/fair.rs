//! Demand 3 by brute force, counted on the grants of the library's replays; the free counts match at the start (M-100).

use hosts::{seeds, words};
use reference::calls::{apply_each, Answer, Call, Tables};
use reference::closing::Closings;
use reference::fair::{add, check, check_with, Grant, Seen};
use reference::generate::{journal_parts, list};
use reference::machine::node_of_page;
use reference::record::{read, RING};

/// A request by a replay of that one call; in ring mode the record's cursor says which place was granted.
fn ask_replay(tables: &mut Tables, job: usize, cpu: usize) -> Option<Grant> {
    let call = words(&Call::Request { job, cpu });
    let mut answers = [0];
    let Tables { counts, cpus, distances, pages, jobs, free, maps } = tables;
    spirerivet::replay(counts, cpus, distances, pages, jobs, free, maps, &call, &mut answers).ok()?;
    match spirerivet::answer_of(&spirerivet::Call::Request { job: 0, cpu: 0 }, answers[0]) {
        spirerivet::Answer::Granted { page, .. } => {
            let record = read(jobs, job);
            let place = if record.mode == RING { Some(usize::from(record.cursor) - 1) } else { None };
            Some(Grant { node: node_of_page(counts, page as usize)?, page: page as usize, place })
        }
        _ => None,
    }
}

/// Checks a list by both; they must count the same.
fn fair(told: &str, start: &Tables, calls: &[Call], total: &mut Seen) {
    let by_library = match check_with(start, calls, ask_replay) {
        Ok(seen) => seen,
        Err(unfair) => panic!("{told}: {unfair:?}"),
    };
    assert_eq!(Ok(by_library), check(start, calls), "{told}");
    add(total, by_library);
}

#[test]
fn every_window_of_every_replay_is_fair() {
    let (mut total, mut closings) = (Seen::default(), Closings::default());
    let (mut fresh, mut drained) = (0, 0);
    for seed in seeds(150) {
        let (start, calls) = list(seed, 160);
        fresh += calls.iter().filter(|call| **call == Call::Fresh).count();
        fair(&format!("list seed {seed}"), &start, &calls, &mut total);
        closings.enter_list(&start, &calls);
        apply_each(&start, &calls, |_, _, answer| {
            drained += u64::from(matches!(answer, Answer::Drained { moves: 1.. }))
        });
    }
    for seed in seeds(60) {
        let (start, calls) = journal_parts(seed, 160);
        fair(&format!("journal seed {seed}"), &start, &calls, &mut total);
        closings.enter_list(&start, &calls);
    }
    println!("{total:?}, {fresh} fresh tables, {drained} drains that moved pages, {closings:?}");
    // Between the grants that are counted, other jobs go by a closing 255 (M-104).
    assert!(closings.each_at_least(20), "{closings:?}");
    assert!(total.grants > 3_000 && total.at_least > 3_000 && total.exact > 300, "{total:?}");
    // A drain is no grant and sets no policy (M-107).
    assert!(fresh > 100 && drained > 50, "{fresh} {drained}");
}
