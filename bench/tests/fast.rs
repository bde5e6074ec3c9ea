//! The careful Rust implementation against the second implementation, with free counts that match and with wrong ones, with
//! maps good and bad, with closing 255s, and by colours.

use std::collections::BTreeMap;

use bench::colours::{lines, Node};
use bench::fast;
use bench::ways::{fast_call, words_of};
use bench::works::{works, Work};
use reference::calls::{apply, apply_with, Answer, Call, Tables};
use reference::closing::Closings;
use reference::colours::Colours;
use reference::generate::{case, journal_parts, list, put_counts, tables, Case, Dice, SORTS_OF_COUNTS};
use reference::map_cases::{put_map, wrong_length, SORTS};
use reference::maps::identity_maps;

/// The word of the second implementation's answer.
fn word(answer: Answer) -> u64 {
    let (refusal, node, page) = match answer {
        Answer::Granted { node, page } => (0, node.0, page),
        Answer::Released { node, page } => (0, node.map_or(255, |node| node.0), page),
        Answer::Drained { moves } => (0, 255, moves),
        Answer::Done => (0, 255, u32::MAX),
        Answer::Refused(number) => (number, 255, u32::MAX),
    };
    fast::Out { refusal, node, page }.word()
}

/// How often each kind of call that is lent counts or maps was refused by each number, or not (0).
#[derive(Default)]
struct Seen(BTreeMap<(&'static str, u8), usize>);

impl Seen {
    fn note(&mut self, call: &Call, word: u64) {
        let kind = match call {
            Call::Request { .. } => "request",
            Call::Release { .. } => "release",
            Call::Fresh => "fresh",
            Call::Install { .. } => "install",
            Call::KeepNodes { .. } => "keep",
            Call::SetMap { .. } => "set",
            Call::Drain { .. } => "drain",
            _ => return,
        };
        *self.0.entry((kind, word as u8)).or_default() += 1;
    }

    /// Each of these was seen often.
    fn all(&self, kind: &'static str, refusals: &[u8]) {
        for refusal in refusals {
            let seen = self.0.get(&(kind, *refusal)).copied().unwrap_or(0);
            assert!(seen >= 20, "{kind} {refusal}: {:?}", self.0);
        }
    }

    /// Each refusal of each call.
    fn all_of_every_call(&self) {
        self.all("request", &[0, 1, 2, 15, 3, 4, 8, 14]);
        self.all("release", &[0, 1, 2, 15, 10, 14]);
        self.all("install", &[0, 1, 2, 15, 4, 5, 7, 6]);
        self.all("fresh", &[0, 1]);
        self.all("keep", &[0, 1, 2, 15]);
        self.all("set", &[0, 1, 2, 15]);
        self.all("drain", &[0, 1, 6, 14, 17]);
    }
}

/// The same tables with free counts of every sort: matching, wrong, too few and too many.
fn counts_of_every_sort(seed: u64, start: &Tables) -> Vec<Tables> {
    let mut dice = Dice::new(seed);
    let mut with = |sort| {
        let mut tables = start.clone();
        put_counts(&mut dice, &mut tables, sort);
        tables
    };
    SORTS_OF_COUNTS.map(&mut with).into()
}

/// Makes the calls by both, one by one.
fn same(told: &str, nodes: usize, start: Tables, calls: &[Call], seen: &mut Seen) {
    let mut fast_tables = start.clone();
    let mut tables = start;
    for (turn, call) in calls.iter().enumerate() {
        let expected = word(apply_with(nodes, &mut tables, call));
        let found = fast_call(nodes, &mut fast_tables, call);
        assert_eq!(found, expected, "{told} call {turn}: N {nodes} {call:?}");
        assert!(fast_tables == tables, "{told} call {turn}: N {nodes} {call:?}: tables differ");
        seen.note(call, found);
    }
}

#[test]
fn single_calls_agree() {
    let mut seen = Seen::default();
    for seed in 0..14_000 {
        let Case { nodes, tables, call } = case(seed);
        same(&format!("case {seed}"), nodes, tables, &[call], &mut seen);
    }
    seen.all_of_every_call();
}

#[test]
fn runs_of_calls_agree() {
    let (mut seen, mut closings, mut colours) = (Seen::default(), Closings::default(), Colours::default());
    for seed in 0..120 {
        let (nodes, start, calls) = tables(seed, 40);
        same(&format!("tables {seed}"), nodes, start, &calls, &mut seen);
        for (start, calls) in [list(seed, 150), journal_parts(seed, 150)] {
            closings.enter_list(&start, &calls);
            colours.enter_list(&start, &calls);
            for start in counts_of_every_sort(seed, &start) {
                same(&format!("list {seed}"), start.counts.len(), start, &calls, &mut seen);
            }
        }
    }
    seen.all_of_every_call();
    assert!(closings.each_at_least(20), "{closings:?}");
    assert!(colours.each_at_least(200), "{colours:?}");
}

/// Each timed page table of the search by colours grants the page that its line says, by both.
#[test]
fn the_timed_searches_by_colour_agree() {
    assert_eq!(lines().len(), 13);
    for line in lines() {
        let mut node = Node::new(&line.pages);
        assert_eq!((node.by_rust(), node.by_rust()), (line.granted, line.granted), "{}", line.name);
        assert_eq!((node.by_library(), node.by_library()), (line.granted, line.granted), "{}", line.name);
    }
}

/// Replays calls by the careful Rust.
fn replay(tables: &mut Tables, words: &[u64], answers: &mut [u64]) -> Result<usize, u8> {
    let Tables { counts, cpus, distances, pages, jobs, free, maps } = tables;
    bench::list::replay(counts, cpus, distances, pages, jobs, free, maps, words, answers)
}

#[test]
fn replays_agree() {
    let mut seen = Seen::default();
    for seed in 200..300 {
        for (start, calls) in [list(seed, 150), journal_parts(seed, 150)] {
            let words: Vec<u64> = calls.iter().flat_map(words_of).collect();
            for start in counts_of_every_sort(seed, &start) {
                let (mut tables, mut fast_tables, mut answers) = (start.clone(), start, vec![7; calls.len()]);
                let ran = replay(&mut fast_tables, &words, &mut answers);
                if tables.free.len() != tables.counts.len() {
                    assert!(ran == Err(1) && fast_tables == tables && answers.iter().all(|answer| *answer == 7));
                    continue;
                }
                assert_eq!(ran, Ok(calls.len()));
                for (call, answer) in calls.iter().zip(answers) {
                    assert_eq!(answer, word(apply(&mut tables, call)), "seed {seed} {call:?}");
                    seen.note(call, answer);
                }
                assert!(fast_tables == tables, "seed {seed}");
            }
        }
    }
    seen.all("request", &[0, 8, 14, 15]);
    seen.all("release", &[0, 10, 14, 15]);
    seen.all("install", &[0, 5, 6, 15]);
    seen.all("fresh", &[0]);
    seen.all("keep", &[0, 15]);
    seen.all("set", &[0, 15]);
}

#[test]
fn the_timed_calls_agree_and_their_counts_match() {
    for Work { name, nodes, start, calls, words } in [4, 16, 64].into_iter().flat_map(works) {
        assert!(start.counts_match() && start.maps == identity_maps(nodes, 64), "{name} N {nodes}");
        let (mut tables, mut single, mut run) = (start.clone(), start.clone(), start);
        let mut answers = vec![0; calls.len()];
        assert_eq!(replay(&mut run, &words, &mut answers), Ok(calls.len()));
        let mut refused = 0;
        for (call, answer) in calls.iter().zip(&answers) {
            assert_eq!(*answer, word(apply(&mut tables, call)), "{name} N {nodes} {call:?}");
            assert_eq!(*answer, fast_call(nodes, &mut single, call), "{name} N {nodes} {call:?}");
            refused += usize::from(*answer as u8 != 0);
        }
        assert!(single == tables && run == tables && tables.counts_match(), "{name} N {nodes}");
        assert!(refused * 10 < calls.len(), "{name} N {nodes}: {refused} refused");
        if name == "all full but the last" {
            let served = |answer: &u64| usize::from((*answer >> 8) as u8) == nodes / 2;
            assert!(refused == 0 && answers.iter().all(served), "{name} N {nodes}");
        }
    }
}

/// Both replays on the same list: the careful one and the library's.
fn both_replays(start: &Tables, words: &[u64], room: usize) -> Result<usize, u8> {
    let (mut one, mut other) = (start.clone(), start.clone());
    let (mut answers, mut expected) = (vec![7; room], vec![7; room]);
    let ran = replay(&mut one, words, &mut answers);
    let Tables { counts, cpus, distances, pages, jobs, free, maps } = &mut other;
    let told = spirerivet::replay(counts, cpus, distances, pages, jobs, free, maps, words, &mut expected);
    assert_eq!(ran, told.map_err(|refusal| refusal.number()));
    assert!(one == other && answers == expected);
    ran
}

#[test]
fn bad_lists_are_refused_alike() {
    for seed in 0..60 {
        let (start, calls) = list(seed, 20);
        let words: Vec<u64> = calls.iter().flat_map(words_of).collect();
        assert_eq!(both_replays(&start, &words, calls.len()), Ok(calls.len()));
        assert_eq!(both_replays(&start, &words, calls.len() - 1), Err(11));
        assert_eq!(both_replays(&start, &words[1..], calls.len()), Err(13));
        for kind in [0, 6, 15, 20, u64::MAX] {
            let mut words = words.clone();
            words[16 * (seed as usize % calls.len())] = kind;
            assert_eq!(both_replays(&start, &words, calls.len()), Err(13));
        }
        let mut broken = start.clone();
        broken.distances[0] = 11;
        assert_eq!(both_replays(&broken, &words, 0), Err(1));
        let mut broken = start.clone();
        wrong_length(&mut Dice::new(seed), &mut broken);
        assert_eq!(both_replays(&broken, &words, 0), Err(1));
        for start in counts_of_every_sort(seed, &start) {
            let fits = start.free.len() == start.counts.len();
            assert_eq!(both_replays(&start, &words, calls.len()), if fits { Ok(calls.len()) } else { Err(1) });
        }
    }
}

/// Every call of a list on maps of one sort for all jobs, by single calls and by replay.
#[test]
fn maps_of_every_sort_agree() {
    let mut seen = Seen::default();
    for seed in 0..60 {
        for sort in SORTS {
            let mut dice = Dice::new(seed);
            let (mut start, mut calls) = list(seed, 40);
            for job in 0..start.jobs.len() / 6 {
                put_map(&mut dice, &mut start, job, sort);
                calls.push(Call::KeepNodes { job, kept: vec![0] });
                calls.push(Call::SetMap { job, list: vec![0] });
                calls.push(Call::Request { job, cpu: 0 });
            }
            let words: Vec<u64> = calls.iter().flat_map(words_of).collect();
            assert_eq!(both_replays(&start, &words, calls.len()), Ok(calls.len()), "{sort:?} {seed}");
            same(&format!("{sort:?} {seed}"), start.counts.len(), start, &calls, &mut seen);
        }
    }
    seen.all("request", &[0, 8, 15]);
    seen.all("release", &[0, 15]);
    seen.all("install", &[0, 6, 15]);
    seen.all("keep", &[0, 15]);
    seen.all("set", &[0, 15]);
}

/// The lists of keep nodes and set map in a replay: any length may be said.
#[test]
fn lists_of_nodes_of_any_length_are_answered_alike() {
    for seed in 0..60 {
        let (start, _) = list(seed, 1);
        for length in [0, 1, 2, 15, 16, 17, 63, 64, 65, 256, 257, 1 << 32, 1 << 32 | 1, u64::MAX] {
            for (kind, nodes) in [(17, 0x0302_0100), (18, 0x0302_0100), (18, 0), (17, 0xFF00)] {
                let mut call = [0x0F0E_0D0C_0B0A_0908; 16];
                call[..6].copy_from_slice(&[kind, 0, 7, 7, 7, length]);
                call[8] = nodes;
                assert_eq!(both_replays(&start, &call, 1), Ok(1), "{length} nodes");
            }
        }
    }
}

#[test]
fn a_fresh_table_takes_no_other_word_of_its_call() {
    for seed in 0..60 {
        let (start, _) = list(seed, 1);
        let mut fresh = [u64::MAX; 16];
        fresh[0] = 16;
        for start in counts_of_every_sort(seed, &start) {
            let fits = start.free.len() == start.counts.len();
            assert_eq!(both_replays(&start, &fresh, 1), if fits { Ok(1) } else { Err(1) });
        }
    }
}

#[test]
fn installs_of_any_number_of_places_are_answered_alike() {
    for seed in 0..60 {
        let (start, _) = list(seed, 1);
        for length in [0, 1, 15, 16, 17, 64, 65, 256, 257, 1 << 32, u64::MAX] {
            for mode in 0..8 {
                let mut install = [0x0807_0605_0403_0201; 16];
                install[..6].copy_from_slice(&[4, 0, mode, 0, 0, length]);
                assert_eq!(both_replays(&start, &install, 1), Ok(1), "{length} places");
            }
        }
    }
}
