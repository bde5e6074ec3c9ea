//! The calls by the linked library and by the second implementation.

use hosts::{seeds, Both, Seen};
use reference::calls::{Call, Tables};
use reference::closing::Closings;
use reference::generate::{case, journal_parts, list, tables, Case};

/// Makes all calls by both; a difference names the generator and its seed. Closing 255s (M-104) are counted.
fn run(what: &str, seed: u64, nodes: usize, start: Tables, calls: &[Call], seen: &mut Seen, closings: &mut Closings) {
    let mut both = Both::new(nodes, start);
    for (turn, call) in calls.iter().enumerate() {
        let before = both.tables.clone();
        match both.call(call, seen) {
            Ok(answer) => closings.enter(&before, call, answer),
            Err(difference) => panic!("{what} seed {seed} call {turn}: {difference}"),
        }
    }
}

#[test]
fn single_calls_on_tables_no_journal_reaches() {
    let (mut seen, mut closings) = (Seen::default(), Closings::default());
    for seed in seeds(20_000) {
        let Case { nodes, tables, call } = case(seed);
        run("case", seed, nodes, tables, &[call], &mut seen, &mut closings);
    }
    println!("{seen:?}\n{closings:?}");
    assert!(closings.each_at_least(5), "{closings:?}");
    assert!(seen.calls >= 20_000 && seen.granted > 500 && seen.released > 200 && seen.done > 500, "{seen:?}");
    assert!(seen.drained > 50, "{seen:?}");
    for number in [1, 2, 3, 4, 5, 6, 7, 8, 10, 14, 15, 17] {
        assert!(seen.refused[number] > 20, "refusal {number}: {seen:?}");
    }
}

#[test]
fn runs_of_calls_on_tables_of_any_sort() {
    let (mut seen, mut closings) = (Seen::default(), Closings::default());
    for seed in seeds(600) {
        let (nodes, start, calls) = tables(seed, 40);
        run("tables", seed, nodes, start, &calls, &mut seen, &mut closings);
    }
    println!("{seen:?}\n{closings:?}");
    assert!(closings.each_at_least(5), "{closings:?}");
    assert!(seen.calls >= 24_000 && seen.granted > 500, "{seen:?}");
}

#[test]
fn runs_of_calls_as_jobs_make_them() {
    let (mut seen, mut closings) = (Seen::default(), Closings::default());
    for seed in seeds(120) {
        for (what, (start, calls)) in [("list", list(seed, 150)), ("journal", journal_parts(seed, 150))] {
            run(what, seed, start.counts.len(), start, &calls, &mut seen, &mut closings);
        }
    }
    println!("{seen:?}\n{closings:?}");
    assert!(closings.each_at_least(5), "{closings:?}");
    assert!(seen.calls >= 36_000 && seen.granted > 5_000 && seen.released > 1_000, "{seen:?}");
    assert!(seen.drained > 100 && seen.refused[17] > 100, "{seen:?}");
}
