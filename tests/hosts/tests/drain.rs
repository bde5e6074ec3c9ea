//! M-107's drains by the linked library and by the second implementation, on tables good, damaged and hostile; and what M-107
//! says of them, asked of page bytes and of requests.

use hosts::{drain_by_both, library_drain, seeds, Both, LentTables, Seen, NUMBERS};
use reference::calls::Tables;
use reference::drain_cases::{drain_case, DrainCase};
use reference::drain_requests::{by_requests, wrong_after};
use reference::drain_ways::Drains;
use reference::examples::machine_a;
use reference::generate::{journal_parts, list, put_counts, tables, Counts, Dice, SORTS_OF_COUNTS};
use reference::maps::{identity_maps, write_map};
use reference::masks::all_below;
use reference::record::WORDS;

#[test]
fn drains_are_alike() {
    let (mut shown, mut refused, mut calls) = (Drains::default(), [0; NUMBERS], 0);
    for seed in seeds(12_000) {
        let case = drain_case(seed);
        calls += 1;
        let found = drain_by_both(&format!("seed {seed}"), &case);
        let outcome = found.as_deref().map_err(|number| *number);
        if seed % 97 != 96 {
            shown.enter(&case.tables, case.node, case.room, outcome);
        }
        refused[usize::from(outcome.err().unwrap_or(0))] += 1;
    }
    println!("{calls} drains, refused {refused:?}\n{shown:?}");
    assert!(shown.each_at_least(80), "{shown:?}");
    for (number, times) in refused.into_iter().enumerate() {
        assert_eq!(times > 300, [0, 1, 6, 11, 14, 17].contains(&number), "refusal {number}: {refused:?}");
    }
}

/// "In the ledger a move is a release and a grant in one step": as a request of default mode from a CPU of the node, by a job
/// that is not allowed it, and a release. 17 exactly where one of them is refused.
#[test]
fn a_move_is_a_request_and_a_release() {
    let (mut moves, mut stuck) = (0, 0);
    for seed in seeds(8_000).filter(|seed| seed % 97 != 96) {
        let DrainCase { tables, node, .. } = drain_case(seed);
        let (room, tables) = (2 * tables.pages.len(), tables.counted());
        match drain_by_both(&format!("seed {seed}"), &DrainCase { tables: tables.clone(), node, room }) {
            Ok(pairs) => {
                moves += pairs.len() / 2;
                assert_eq!(by_requests(&tables, node), Some(pairs), "seed {seed}");
            }
            Err(17) => {
                stuck += 1;
                assert_eq!(by_requests(&tables, node), None, "seed {seed}");
            }
            Err(number) => assert!([1, 6].contains(&number), "seed {seed}: {number}"),
        }
    }
    println!("{moves} moves, {stuck} refused 17");
    assert!(moves > 2_000 && stuck > 2_000, "{moves} {stuck}");
}

/// On tables as other calls left them: after every few calls of a list any node is drained, and the list goes on.
#[test]
fn between_the_calls_of_lists() {
    let (mut moved, mut refused) = (0, [0; NUMBERS]);
    for seed in seeds(120) {
        let (nodes, start, calls) = tables(seed, 20);
        let (journal, job_list) = (journal_parts(seed, 100), list(seed, 100));
        let lists = [(nodes, start, calls)].into_iter();
        let lists = lists.chain([journal, job_list].map(|(start, calls)| (start.counts.len(), start, calls)));
        for (nodes, start, calls) in lists {
            let (mut both, mut dice) = (Both::new(nodes, start), Dice::new(seed ^ 0xD4A1));
            for (turn, call) in calls.iter().enumerate() {
                both.call(call, &mut Seen::default())
                    .unwrap_or_else(|other| panic!("seed {seed} call {turn}: {other}"));
                if turn % 3 == 0 {
                    let (tables, node) = (both.tables.clone(), dice.below(both.tables.counts.len() + 1));
                    let case = DrainCase { tables, node, room: dice.pick(&[0, 3, 8, 4_000]) };
                    match drain_by_both(&format!("seed {seed} call {turn}"), &case) {
                        Ok(pairs) => moved += u64::from(!pairs.is_empty()),
                        Err(number) => refused[usize::from(number)] += 1,
                    }
                }
            }
        }
    }
    println!("{moved} drains that moved pages, refused {refused:?}");
    assert!(moved > 500 && [6, 11, 14, 17].iter().all(|number| refused[*number] > 60), "{moved} {refused:?}");
}

/// "counts that don't match at entry are 14": exactly where one of them differs, of whatever sort, if 1 and 6 are not.
#[test]
fn counts_of_every_sort() {
    for sort in SORTS_OF_COUNTS {
        let (mut matching, mut wrong, mut lengths) = (0, 0, 0);
        for seed in seeds(1_500).filter(|seed| seed % 97 != 96) {
            let mut case = drain_case(seed);
            put_counts(&mut Dice::new(seed), &mut case.tables, sort);
            match drain_by_both(&format!("{sort:?} seed {seed}"), &case) {
                Err(1) => lengths += u64::from(case.tables.free.len() != case.tables.counts.len()),
                Err(6) => {}
                Err(14) => {
                    assert!(!case.tables.counts_match(), "{sort:?} seed {seed}");
                    wrong += 1;
                }
                _ => {
                    assert!(case.tables.counts_match(), "{sort:?} seed {seed}");
                    matching += 1;
                }
            }
        }
        println!("{sort:?}: {matching} match, {wrong} are wrong, {lengths} of a wrong length");
        let wrong_length = matches!(sort, Counts::TooFew | Counts::TooMany);
        assert_eq!(
            (lengths > 1_000, wrong > 300),
            (wrong_length, !wrong_length && sort != Counts::Matching),
            "{sort:?}"
        );
        assert!(matching > 500 || sort != Counts::Matching, "{sort:?}: {matching}");
    }
}

/// Nodes of these pages, all at distance 20, and jobs of default mode that may use all.
fn flat(counts: &[u32], pages: Vec<u8>, jobs: usize) -> Tables {
    let nodes = counts.len();
    let distances = (0..nodes * nodes).map(|cell| if cell % (nodes + 1) == 0 { 10 } else { 20 }).collect();
    let (counts, records) = (counts.to_vec(), [0, 0, all_below(nodes), 0, 0, 0].repeat(jobs));
    let maps = identity_maps(nodes, jobs);
    Tables { counts, cpus: vec![], distances, pages, jobs: records, maps, ..machine_a() }.counted()
}

/// The outcome of a drain by both.
fn drained(told: &str, tables: &Tables, node: usize, room: usize) -> Result<Vec<u32>, u8> {
    drain_by_both(told, &DrainCase { tables: tables.clone(), node, room })
}

/// Every room for every number of held pages: 11 exactly if it is less than two numbers a move; 17 whatever the room.
#[test]
fn every_room() {
    let (mut done, mut too_short, mut stuck) = (0, 0, 0);
    for held in 0..=8 {
        let pages: Vec<u8> = (0..20).map(|page| if page < held { 1 + page as u8 % 3 } else { 0 }).collect();
        let good = flat(&[8, 12], pages, 3);
        let mut bad = good.clone();
        if held > 0 {
            bad.pages[held - 1] = 200;
        }
        for room in 0..=2 * held + 3 {
            match drained("room", &good, 0, room) {
                Ok(pairs) if room >= 2 * held && pairs.len() == 2 * held => done += 1,
                Err(11) if room < 2 * held => too_short += 1,
                other => panic!("{held} pages, room {room}: {other:?}"),
            }
            if held > 0 {
                assert_eq!(drained("stuck", &bad, 0, room), Err(17), "{held} pages, room {room}");
                stuck += 1;
            }
        }
    }
    assert_eq!((done, too_short, stuck), (4 * 9, 72, 72 + 4 * 8));
}

/// Of 64 nodes of a page each, every one drained to every other: the only one allowed, in the map, nearest, reached, with room.
#[test]
fn every_node_to_every_other() {
    for (x, y) in (0..64).flat_map(|x| (0..64).map(move |y| (x, y))) {
        let mut start = flat(&[1; 64], vec![0; 64], 1);
        start.pages[x] = 1;
        let with = |change: &dyn Fn(&mut Tables)| {
            let mut tables = start.clone();
            change(&mut tables);
            tables.counted()
        };
        let row = |far: u8, near: u8| {
            move |t: &mut Tables| {
                (0..64).filter(|node| *node != x).for_each(|node| t.distances[x * 64 + node] = far);
                t.distances[x * 64 + y] = if x == y { 10 } else { near };
            }
        };
        let full = |t: &mut Tables| (0..64).filter(|node| *node != y).for_each(|node| t.pages[node] = 1);
        for (told, tables, is_first) in [
            ("allowed", with(&|t| t.jobs[2] = 1 << y), false),
            ("in the map", with(&|t| write_map(&mut t.maps, 0, &[y as u8])), false),
            ("nearest", with(&row(21, 11)), x == y),
            ("nearest, last of all distances", with(&row(254, 253)), x == y),
            ("reached", with(&row(255, 254)), false),
            ("with room", with(&full), false),
        ] {
            let expected = match (x == y, is_first) {
                (false, _) => Ok(vec![x as u32, y as u32]),
                (true, true) => Ok(vec![x as u32, u32::from(x == 0)]),
                (true, false) => Err(17),
            };
            assert_eq!(drained(told, &tables, x, 2), expected, "{told}: {x} to {y}");
        }
    }
}

/// Three nodes of one page, two and one: every page table of free, two jobs' and nobody's pages, every two allowed sets.
#[test]
fn every_small_table() {
    let (mut moved, mut stuck, mut calls) = (0, 0, 0);
    for turn in 0..256 * 64 {
        let bytes = [0, 1, 2, 3];
        let pages = (0..4).map(|page| bytes[turn >> (2 * page) & 3]).collect();
        let mut tables = flat(&[1, 2, 1], pages, 2);
        (tables.jobs[2], tables.jobs[WORDS + 2]) = (turn as u64 >> 8 & 7, turn as u64 >> 11 & 7);
        // Node 2 is nearer to node 1 than node 0.
        tables.distances[5] = 15;
        for node in 0..3 {
            calls += 1;
            match drained("small", &tables, node, 4) {
                Ok(pairs) => moved += u64::from(!pairs.is_empty()),
                Err(17) => stuck += 1,
                Err(number) => panic!("{tables:?} node {node}: {number}"),
            }
        }
    }
    println!("{calls} drains, {moved} moved pages, {stuck} refused 17");
    assert!(calls == 3 * 256 * 64 && moved > 3_000 && stuck > 20_000, "{moved} {stuck}");
}

/// Two pages of any two of eight jobs, into a node with any free pages of six, then into one of four free pages: M-105's page of
/// the holder, by hand.
#[test]
fn every_colour() {
    let picked = |free: &mut Vec<u32>, from: u32, job: u32| {
        let of_colour = free.iter().position(|page| (page - from) % 4 == job % 4);
        free.remove(of_colour.unwrap_or(0))
    };
    let mut gone = 0;
    for (set, jobs) in (0..64).flat_map(|set| (0..64).map(move |jobs| (set, jobs))) {
        let (first, second) = (jobs % 8, jobs / 8);
        let pages = [first as u8 + 1, second as u8 + 1].into_iter();
        let pages = pages.chain((0..6).map(|page| if set >> page & 1 == 1 { 0 } else { 9 })).chain([0; 4]);
        let tables = flat(&[2, 6, 4], pages.collect(), 8);
        let mut near: Vec<u32> = (2..8).filter(|page| set >> (page - 2) & 1 == 1).collect();
        let mut far: Vec<u32> = (8..12).collect();
        let mut expected = Vec::new();
        for (old, job) in [(0, first), (1, second)] {
            let (free, from) = if near.is_empty() { (&mut far, 8) } else { (&mut near, 2) };
            let new = picked(free, from, job);
            gone += u64::from((new - from) % 4 != job % 4);
            expected.extend([old, new]);
        }
        assert_eq!(drained("colours", &tables, 0, 4), Ok(expected), "free {set:#b}, jobs {first} and {second}");
    }
    assert!(gone > 500, "{gone}");
}

/// A whole node of 65,536 pages of one job into another that is free: first those of its colour, then the others, upward.
#[test]
fn a_whole_node() {
    const PAGES: usize = 65_536;
    let start = flat(&[PAGES as u32; 2], [vec![3; PAGES], vec![0; PAGES]].concat(), 3);
    let (mut lent, mut moves) = (LentTables::new(&start), vec![7; 2 * PAGES + 1]);
    assert_eq!(library_drain(&mut lent, 0, &mut moves[..2 * PAGES - 1]), Err(11));
    assert!(lent.difference(&start).is_none() && moves.iter().all(|number| *number == 7));
    assert_eq!(library_drain(&mut lent, 0, &mut moves), Ok(PAGES));
    let (of_colour, others): (Vec<u32>, _) = (0..PAGES as u32).partition(|offset| offset % 4 == 2);
    for (turn, offset) in of_colour.into_iter().chain(others).enumerate() {
        assert_eq!(moves[2 * turn..][..2], [turn as u32, PAGES as u32 + offset], "move {turn}");
    }
    assert_eq!(moves[2 * PAGES], 7);
    let after = Tables { pages: [vec![0; PAGES], vec![3; PAGES]].concat(), ..start.clone() }.counted();
    assert_eq!((lent.difference(&after), wrong_after(&start, &after, 0)), (None, None));
}
