//! M-106's reasons by the linked library and by the second implementation, on tables good, damaged and hostile; and what M-106
//! says of them, asked of search orders, page bytes and the request that follows.

use std::collections::BTreeSet;

use hosts::{library_call, library_reasons, reasons_by_both, seeds, Both, LentTables, Seen, NUMBERS};
use reference::calls::{Answer, Call, Tables};
use reference::examples::{all, machine_a};
use reference::generate::{journal_parts, list, put_counts, tables, Counts, Dice, SORTS_OF_COUNTS};
use reference::machine::node_of_page;
use reference::maps::{identity_maps, map_with, write_map};
use reference::masks::all_below;
use reference::reason_cases::{reason_case, ReasonCase};
use reference::reason_orders::by_orders;
use reference::reason_ways::Reasons;
use reference::record::WORDS;

#[test]
fn reasons_are_alike() {
    let (mut shown, mut refused, mut calls) = (Reasons::default(), [0; NUMBERS], 0);
    for seed in seeds(30_000) {
        let case = reason_case(seed);
        calls += 1;
        match reasons_by_both(&format!("seed {seed}"), &case) {
            Ok(reasons) => shown.enter(&case.tables, case.job, case.cpu, &reasons),
            Err(number) => refused[usize::from(number)] += 1,
        }
    }
    println!("{calls} calls, refused {refused:?}\n{shown:?}");
    assert!(shown.each_at_least(150), "{shown:?}");
    for (number, times) in refused.into_iter().enumerate() {
        assert_eq!(times > 150, [1, 2, 3, 4, 11, 14, 15].contains(&number), "refusal {number}: {refused:?}");
    }
}

/// What reasons and the requests after them showed.
#[derive(Default, Debug)]
struct Followed {
    granted: u64,
    no_room: u64,
    /// Refused alike, by number.
    refused: [u64; NUMBERS],
}

impl Followed {
    /// The library's reasons, with room for them, beside its answer to the request that followed on the same tables: one node
    /// has 6, that of the granted page; none on 8; else the same refusal.
    fn enter(&mut self, told: &str, counts: &[u32], reasons: Result<&[u8], u8>, answer: Answer) {
        let with_6 = |reasons: &[u8]| (0..reasons.len()).filter(|node| reasons[*node] == 6).collect::<Vec<usize>>();
        match (reasons, answer) {
            (Ok(reasons), Answer::Granted { page, .. }) => {
                let node = node_of_page(counts, page as usize).expect("a page of the machine");
                assert_eq!(with_6(reasons), [node], "{told}: {reasons:?}");
                self.granted += 1;
            }
            (Ok(reasons), Answer::Refused(8)) => {
                assert!(with_6(reasons).is_empty(), "{told}: {reasons:?}");
                self.no_room += 1;
            }
            (Err(number), Answer::Refused(other)) => {
                assert_eq!(number, other, "{told}");
                self.refused[usize::from(number)] += 1;
            }
            other => panic!("{told}: {other:?}"),
        }
    }
}

/// Reasons, then the request, by the library alone on the same lent tables; the reasons change none of them. Gives them.
fn ask_and_request(told: &str, tables: &Tables, job: usize, cpu: usize, followed: &mut Followed) -> Option<Vec<u8>> {
    let (mut lent, mut out) = (LentTables::new(tables), vec![0xA5; tables.counts.len()]);
    let found = library_reasons(&lent, job, cpu, &mut out);
    assert_eq!(lent.difference(tables), None, "{told}");
    let reasons = found.map(|length| &out[..length]);
    let answer = library_call(tables.counts.len(), &mut lent, &Call::Request { job, cpu });
    followed.enter(told, &tables.counts, reasons, answer);
    reasons.ok().map(<[u8]>::to_vec)
}

/// "code 6 present exactly once on a grant and never on 8": for counts of every sort.
#[test]
fn the_request_that_follows_gets_the_node_with_6() {
    for sort in SORTS_OF_COUNTS {
        let mut followed = Followed::default();
        for seed in seeds(4_000) {
            let ReasonCase { mut tables, job, cpu, .. } = reason_case(seed);
            put_counts(&mut Dice::new(seed), &mut tables, sort);
            ask_and_request(&format!("{sort:?} seed {seed}"), &tables, job, cpu, &mut followed);
        }
        println!("{sort:?}: {followed:?}");
        let Followed { granted, no_room, refused } = followed;
        let fits = !matches!(sort, Counts::TooFew | Counts::TooMany);
        assert!(refused[1] > 300 && [2, 3, 4, 15].iter().all(|number| !fits || refused[*number] > 50), "{refused:?}");
        let too_high = matches!(sort, Counts::AbovePages | Counts::TooHigh | Counts::Mixed | Counts::AllMost);
        assert_eq!(refused[14] > 50, too_high, "{sort:?}: {refused:?}");
        assert_eq!(granted > 300, fits && sort != Counts::AllZero, "{sort:?}: {granted}");
        assert_eq!(no_room > 300, fits, "{sort:?}: {no_room}");
    }
}

/// "Prove each reason true of document 01's order": by orders and page bytes alone, the counts matching.
#[test]
fn each_reason_is_true_of_the_order() {
    let (mut shown, mut followed) = (Reasons::default(), Followed::default());
    for seed in seeds(20_000) {
        let ReasonCase { tables, job, cpu, .. } = reason_case(seed);
        let tables = tables.counted();
        let Some(reasons) = ask_and_request(&format!("seed {seed}"), &tables, job, cpu, &mut followed) else {
            continue;
        };
        assert_eq!(reasons, by_orders(&tables, job, cpu), "seed {seed} job {job} CPU {cpu}");
        shown.enter(&tables, job, cpu, &reasons);
    }
    println!("{followed:?}\n{shown:?}");
    let given = |reason: usize| shown.given.iter().map(|of_mode| of_mode[reason]).sum::<u64>();
    assert!((1..=7).all(|reason| given(reason) > 1_000), "{shown:?}");
    assert!(shown.granted > 3_000 && shown.no_room > 3_000, "{shown:?}");
}

/// Before every request of a list of calls, on tables as the calls left them.
fn along(told: &str, nodes: usize, start: Tables, calls: &[Call], followed: &mut Followed) {
    let mut both = Both::new(nodes, start);
    for (turn, call) in calls.iter().enumerate() {
        let told = format!("{told} call {turn}: {call:?}");
        let before = both.tables.clone();
        let mut out = vec![0xA5; before.counts.len() + 1];
        let asked = match call {
            Call::Request { job, cpu } => Some((library_reasons(&both.lent, *job, *cpu, &mut out), *job, *cpu)),
            _ => None,
        };
        assert_eq!(both.lent.difference(&before), None, "{told}: reasons");
        let answer = both.call(call, &mut Seen::default()).unwrap_or_else(|other| panic!("{told}: {other}"));
        let Some((found, job, cpu)) = asked else { continue };
        let reasons = found.map(|length| &out[..length]);
        followed.enter(&told, &before.counts, reasons, answer);
        if let (Ok(reasons), true) = (reasons, before.counts_match()) {
            assert_eq!(reasons, by_orders(&before, job, cpu), "{told}");
        }
        assert!(out[found.unwrap_or(0)..].iter().all(|byte| *byte == 0xA5), "{told}: {out:?}");
    }
}

#[test]
fn before_every_request_of_lists_and_examples() {
    let mut followed = Followed::default();
    for seed in seeds(150) {
        let (nodes, start, calls) = tables(seed, 40);
        along(&format!("tables {seed}"), nodes, start, &calls, &mut followed);
        for (what, (start, calls)) in [("list", list(seed, 150)), ("journal", journal_parts(seed, 150))] {
            along(&format!("{what} {seed}"), start.counts.len(), start, &calls, &mut followed);
        }
    }
    println!("{followed:?}");
    assert!(followed.granted > 10_000 && followed.no_room > 1_000, "{followed:?}");
    let mut of_examples = Followed::default();
    for example in all() {
        let calls: Vec<Call> = example.calls().into_iter().map(|(call, _)| call.clone()).collect();
        along(&example.name, example.start.counts.len(), example.start.clone(), &calls, &mut of_examples);
    }
    println!("examples: {of_examples:?}");
    assert!(of_examples.granted > 300 && of_examples.no_room > 60 && of_examples.refused[14] > 3, "{of_examples:?}");
}

/// Records for three nodes: every mask with every allowed set, static and not; every list of up to two places out of all
/// nodes, one that is none and 255, in modes 4 to 6 with every cursor.
fn small_records() -> Vec<[u64; WORDS]> {
    let mut records = Vec::new();
    for allowed in 1..8u64 {
        records.push([0, 0, allowed, 0, 0, 0]);
        records.push([1, 0, allowed, 0, 0, 0]);
        for (mode, mask) in (1..4).flat_map(|mode| (1..8).map(move |mask| (mode, mask))) {
            let effective = mask & allowed;
            records.push([mode | 1 << 8, mask, allowed, effective, 0, 0]);
            let cursors = if mode == 3 { 0..=3 } else { 0..=0 };
            records.extend(
                cursors.filter(|_| effective != 0).map(|cursor| [mode | cursor << 24, mask, allowed, effective, 0, 0]),
            );
        }
    }
    let bytes = [0, 1, 2, 9, 255];
    for (mode, first, second) in
        (4..7).flat_map(|mode| bytes.map(|first| bytes.map(|second| (mode, first, second))).concat())
    {
        let cursors = if mode == 4 { 0..=0 } else { 0..=2 };
        records.extend(cursors.map(|cursor| [mode | 2 << 16 | cursor << 24, 0, 0b101, 0, first | second << 8, 0]));
        records.push([mode | 1 << 16, 0, 0b111, 0, first, 0]);
    }
    records
}

/// Three nodes of one page, CPU k on node k: the record with some nodes reached from some others and some not; the pages held,
/// the map and the CPU go through all that there may be in turn.
fn small_machine(record: [u64; WORDS], gaps: usize, turn: usize) -> (Tables, usize) {
    // The six cells off the diagonal have a bit each.
    let far = |cell: usize| if gaps >> (cell - cell / 4 - 1) & 1 == 1 { 255 } else { 20 };
    let list = [&[0, 1, 2][..], &[2, 0], &[1]][turn / 8 % 3];
    let small = Tables {
        counts: vec![1; 3],
        cpus: vec![0, 1, 2],
        distances: (0..9).map(|cell| if cell % 4 == 0 { 10 } else { far(cell) }).collect(),
        pages: (0..3).map(|page| 9 * (turn >> page & 1) as u8).collect(),
        jobs: record.to_vec(),
        maps: map_with(list),
        ..machine_a()
    };
    (small.counted(), turn / 24 % 3)
}

/// Every record above with every set of gaps: by both, by orders, and by the request that follows.
#[test]
fn every_small_record() {
    let (mut followed, mut seen, mut turn) = (Followed::default(), BTreeSet::new(), 0);
    for (record, gaps) in small_records().into_iter().flat_map(|record| (0..64).map(move |gaps| (record, gaps))) {
        let (tables, cpu) = small_machine(record, gaps, turn);
        let told = format!("record {record:x?} gaps {gaps:06b} turn {turn}");
        let reasons = ask_and_request(&told, &tables, 0, cpu, &mut followed).expect("good tables");
        assert_eq!(reasons, by_orders(&tables, 0, cpu), "{told}");
        let case = ReasonCase { tables, job: 0, cpu, room: 3 };
        assert_eq!(reasons_by_both(&told, &case), Ok(reasons.clone()), "{told}");
        seen.insert((record[0] as u8, reasons));
        // One more than a whole round at the end of each record's gaps, so that rounds and gaps do not keep step.
        turn += if gaps == 63 { 10 } else { 1 };
    }
    println!("{} different reasons by mode, {followed:?}", seen.len());
    assert!(seen.len() > 300 && followed.granted > 10_000 && followed.no_room > 10_000, "{} {followed:?}", seen.len());
}

/// Machines of N nodes with a page each, allowed all; the last is counted too high where asked.
fn of_nodes(nodes: usize, wrong: bool) -> Tables {
    let counts = vec![1; nodes];
    let jobs = vec![0, 0, all_below(nodes), 0, 0, 0];
    let pages = (0..nodes).map(|node| u8::from(wrong || node % 2 == 0)).collect();
    let start = Tables { counts, cpus: vec![0], distances: vec![10; nodes * nodes], pages, jobs, ..machine_a() };
    let mut start = Tables { maps: identity_maps(nodes, 1), ..start }.counted();
    if wrong {
        start.free[nodes - 1] = 1;
    }
    start
}

/// Every length of room for every number of nodes: 11 exactly if it is shorter than N, before 14.
#[test]
fn every_room() {
    let (mut written, mut too_short, mut wrong_counts) = (0, 0, 0);
    for (nodes, wrong) in (1..=64).flat_map(|nodes| [(nodes, false), (nodes, true)]) {
        for room in 0..=nodes + 1 {
            let case = ReasonCase { tables: of_nodes(nodes, wrong), job: 0, cpu: 0, room };
            match reasons_by_both("room", &case) {
                Err(11) if room < nodes => too_short += 1,
                Err(14) if wrong && room >= nodes => wrong_counts += 1,
                Ok(reasons) if !wrong && reasons.len() == nodes => written += 1,
                other => panic!("N {nodes} room {room}: {other:?}"),
            }
        }
    }
    assert_eq!((written, too_short, wrong_counts), (2 * 64, 64 * 65, 2 * 64));
}

/// 64 nodes of a page each, CPU 0 on one of them.
fn seen_from(node: usize) -> Tables {
    Tables { cpus: vec![node as u8], pages: vec![0; 64], ..of_nodes(64, false) }
}

/// One node after the other of 64 is not allowed, outside the map, outside the bind set, unreachable, named by no place under a
/// closing 255, full, chosen, the only one that is bound or named: it has its own byte and no other's.
#[test]
fn every_node_has_its_own_byte() {
    for node in 0..64 {
        let (bit, other) = (1 << node, usize::from(node == 0));
        let with = |change: &dyn Fn(&mut Tables)| {
            let mut tables = seen_from(node);
            change(&mut tables);
            tables.counted()
        };
        let mut gap = seen_from(other).counted();
        gap.distances[other * 64 + node] = 255;
        let one = |tables, mine, others, chosen: usize| {
            let mut expected = vec![others; 64];
            (expected[chosen], expected[node]) = (6, mine);
            let found = reasons_by_both("node", &ReasonCase { tables, job: 0, cpu: 0, room: 64 });
            assert_eq!(found, Ok(expected), "node {node}, reason {mine}");
        };
        let without: Vec<u8> = (0..64).filter(|entry| usize::from(*entry) != node).collect();
        let all = u64::MAX;
        one(with(&|t| t.jobs[2] = !bit), 1, 7, other);
        one(with(&|t| write_map(&mut t.maps, 0, &without)), 1, 7, other);
        one(with(&|t| t.jobs = vec![2, !bit, all, !bit, 0, 0]), 2, 7, other);
        let closing = vec![4 | 2 << 16, 0, all, 0, other as u64 | 255 << 8, 0];
        one(Tables { jobs: closing, ..gap.clone() }, 4, 7, other);
        one(gap, 3, 7, other);
        one(with(&|t| t.pages[node] = 9), 5, 7, other);
        one(with(&|_| {}), 6, 7, node);
        one(with(&|t| t.jobs = vec![2, bit, all, bit, 0, 0]), 6, 2, node);
        one(with(&|t| t.jobs = vec![4 | 1 << 16, 0, all, 0, node as u64, 0]), 6, 4, node);
    }
}
