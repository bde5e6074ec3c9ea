//! M-103's maps by the linked library and by the second implementation: good ones and bad ones, and what M-103 says of them.

use std::collections::BTreeMap;

use hosts::{library_call, seeds, words, Both, LentTables, Seen};
use reference::calls::{apply, apply_without_maps, Answer, Call, Tables};
use reference::examples::machine_a;
use reference::fair::{add, check_with, Grant, Seen as Fair};
use reference::generate::{case, journal_parts, list, tables, Case, Dice};
use reference::machine::node_of_page;
use reference::map_cases::{
    bad_keep, good_keep, has_far_place, map_of_sort, numbers_of, put_map, wrong_length, Sort, SORTS,
};
use reference::maps::{entries, map_of, map_with, maps_fit, AppNode, MAP_BYTES};
use reference::record::{read, INTERLEAVE, RING, WORDS};

/// How many nodes there are, and jobs.
fn sizes(tables: &Tables) -> (usize, usize) {
    (tables.counts.len(), tables.jobs.len() / WORDS)
}

/// The lists of a seed: on tables of any sort, and as jobs make them.
fn lists(seed: u64) -> [(usize, Tables, Vec<Call>); 2] {
    let (start, calls) = list(seed, 60);
    [tables(seed, 20), (start.counts.len(), start, calls)]
}

/// The same tables with a map of this sort for each job.
fn mapped(dice: &mut Dice, tables: Tables, sort: Sort) -> Tables {
    let mut tables = tables.numbered_as_the_machine();
    for job in 0..sizes(&tables).1 {
        put_map(dice, &mut tables, job, sort);
    }
    tables
}

/// Makes a call by the library alone: what it must do is then asked of the tables, and not of the second implementation.
fn by_library(nodes: usize, lent: &mut LentTables, call: &Call) -> Answer {
    let answer = library_call(nodes, lent, call);
    let LentTables { pages, jobs, free, maps, .. } = lent;
    assert!(pages.marks_stand() && jobs.marks_stand() && free.marks_stand() && maps.marks_stand(), "{call:?}");
    answer
}

/// Makes a call by both, all lent memory compared.
fn made(told: &str, both: &mut Both, call: &Call) -> Answer {
    both.call(call, &mut Seen::default()).unwrap_or_else(|difference| panic!("{told}: {difference}"))
}

/// "The search order drops nodes outside the map"; "answers back": by the page alone, and not by the order.
#[test]
fn a_granted_page_lies_in_an_allowed_node_of_the_map_and_the_answered_number_names_it() {
    let (mut granted, mut renumbered) = (0, 0);
    for seed in seeds(300) {
        for (nodes, start, calls) in lists(seed) {
            let mut lent = LentTables::new(&start);
            for (turn, call) in calls.iter().enumerate() {
                let told = format!("seed {seed} call {turn}: {call:?}");
                let answer = by_library(nodes, &mut lent, call);
                let (Call::Request { job, .. }, Answer::Granted { node, page }) = (call, answer) else { continue };
                let of_page = node_of_page(&start.counts, page as usize).expect("a page of the machine");
                let map = map_of(lent.maps.now(), *job);
                assert_eq!(map.get(usize::from(node.0)), Some(&(of_page as u8)), "{told}: {answer:?}");
                assert_eq!(read(lent.jobs.now(), *job).allowed >> of_page & 1, 1, "{told}: {answer:?}");
                assert_eq!(lent.pages.now()[page as usize], *job as u8 + 1, "{told}: {answer:?}");
                granted += 1;
                renumbered += u64::from(usize::from(node.0) != of_page);
            }
        }
    }
    println!("{granted} granted, {renumbered} of them with another number than the machine's");
    assert!(granted > 2_000 && renumbered > 500, "{granted} {renumbered}");
}

/// "The tenant's call may only drop nodes": the new map is the old one without some entries, in the old order.
#[test]
fn keep_never_adds_a_node_and_keeps_the_order() {
    let (mut done, mut dropped, mut refused) = (0, 0, 0);
    for seed in seeds(20_000) {
        let mut dice = Dice::new(seed ^ 0x6EE9);
        let (nodes, job) = (dice.between(1, 64), dice.below(3));
        let mut start = Tables { jobs: vec![u64::MAX; 3 * WORDS], counts: vec![0; nodes], ..machine_a() };
        start = start.numbered_as_the_machine();
        let sort = dice.pick(&SORTS);
        put_map(&mut dice, &mut start, job, sort);
        let length = numbers_of(&start, job).len();
        let call = match dice.chance(75) {
            true => good_keep(&mut dice, job, length),
            false => bad_keep(&mut dice, job, length),
        };
        let mut lent = LentTables::new(&start);
        let answer = by_library(nodes, &mut lent, &call);
        let (old, new) = (entries(map_of(&start.maps, job)), entries(map_of(lent.maps.now(), job)));
        let mut rest = old.iter();
        assert!(new.iter().all(|node| rest.any(|old| old == node)), "seed {seed}: {old:?} became {new:?}");
        let Call::KeepNodes { kept, .. } = &call else { panic!("{call:?}") };
        if answer == Answer::Refused(15) {
            assert_eq!(lent.difference(&start), None, "seed {seed}");
            refused += 1;
            continue;
        }
        assert!(answer == Answer::Done && sort.is_good(nodes) && !new.is_empty(), "seed {seed}: {answer:?}");
        let expected: Vec<u8> = kept.iter().map(|node| old[usize::from(*node)]).collect();
        start.maps[job * MAP_BYTES..(job + 1) * MAP_BYTES].copy_from_slice(&map_with(&expected));
        dropped += u64::from(new.len() < length);
        assert_eq!(lent.difference(&start), None, "seed {seed}");
        done += 1;
    }
    println!("{done} done, {dropped} of them dropped nodes, {refused} refused");
    assert!(done > 4_000 && dropped > 2_000 && refused > 4_000, "{done} {dropped} {refused}");
}

/// "A released page outside the map answers node FF", and is free; inside, its number in the map.
#[test]
fn a_released_page_outside_the_map_answers_ff() {
    let (mut inside, mut outside) = (0, 0);
    for seed in seeds(2_000) {
        let mut dice = Dice::new(seed ^ 0xFF);
        let (start, _) = list(seed, 0);
        let sort = dice.pick(&[Sort::Permuted, Sort::Part, Sort::Part, Sort::Single]);
        let start = mapped(&mut dice, start, sort);
        let mut lent = LentTables::new(&start);
        for page in 0..start.pages.len().min(20) {
            let holder = usize::from(start.pages[page]);
            if holder == 0 || holder > sizes(&start).1 {
                continue;
            }
            let told = format!("seed {seed} page {page}");
            let call = Call::Release { job: holder - 1, page };
            let answer = by_library(start.counts.len(), &mut lent, &call);
            let node = node_of_page(&start.counts, page).expect("a page of the machine") as u8;
            let place = entries(map_of(&start.maps, holder - 1)).iter().position(|entry| *entry == node);
            let named = place.map(|place| AppNode(place as u8));
            assert_eq!(answer, Answer::Released { node: named, page: page as u32 }, "{told}");
            assert_eq!(lent.pages.now()[page], 0, "{told}");
            inside += u64::from(place.is_some());
            outside += u64::from(place.is_none());
        }
    }
    println!("{inside} inside the map, {outside} outside");
    assert!(inside > 1_000 && outside > 1_000, "{inside} {outside}");
}

/// With map 0 to N-1 every call answers and leaves what it did before M-103, but that such an install is refused 6.
#[test]
fn with_identity_maps_every_call_answers_as_before() {
    let (mut same, mut far_places, mut granted) = (0, 0, 0);
    for seed in seeds(200) {
        let (journal_start, journal_calls) = journal_parts(seed, 60);
        let [any, jobs] = lists(seed);
        for (nodes, start, calls) in [any, jobs, (journal_start.counts.len(), journal_start, journal_calls)] {
            if nodes != start.counts.len() || !(1..=64).contains(&nodes) {
                continue;
            }
            let mut both = Both::new(nodes, start.numbered_as_the_machine());
            for (turn, call) in calls.iter().enumerate().filter(|(_, call)| !call.is_of_maps()) {
                let told = format!("seed {seed} call {turn}: {call:?}");
                let mut before = both.tables.clone();
                let old = apply_without_maps(nodes, &mut before, call);
                let answer = made(&told, &mut both, call);
                if has_far_place(nodes, call) && old == Answer::Done {
                    assert_eq!(answer, Answer::Refused(6), "{told}");
                    far_places += 1;
                    continue;
                }
                assert_eq!(answer, old, "{told}");
                assert_eq!(both.lent.difference(&before), None, "{told}");
                same += 1;
                granted += u64::from(matches!(answer, Answer::Granted { .. }));
            }
        }
    }
    println!("{same} calls as before, {granted} of them granted; {far_places} installs now refused 6");
    assert!(same > 10_000 && granted > 3_000 && far_places > 20, "{same} {granted} {far_places}");
}

/// Every call on maps of every sort: bad ones are 15 in the calls that look at the map, right after 2, and nothing changes.
#[test]
fn calls_on_maps_of_every_sort() {
    for sort in SORTS {
        let (mut answers, mut looked_at_64) = (BTreeMap::new(), 0);
        for seed in seeds(2_500) {
            let mut dice = Dice::new(seed ^ 0x3A95);
            let Case { nodes, tables, call } = case(seed);
            if nodes != tables.counts.len() || !(1..=64).contains(&nodes) || seed % 97 == 96 {
                continue;
            }
            let tables = mapped(&mut dice, tables, sort);
            let told = format!("{sort:?} case {seed}");
            let mut both = Both::new(nodes, tables);
            let answer = made(&told, &mut both, &call);
            let refusal = if let Answer::Refused(number) = answer { number } else { 0 };
            // A drain looks at the maps of those whose pages it moves: a bad one is 17.
            assert!(
                sort.is_good(nodes) || !matches!(answer, Answer::Drained { moves: 1.. }),
                "{told}: {call:?} {answer:?}"
            );
            let looks = matches!(
                call,
                Call::Request { .. } | Call::Release { .. } | Call::Install { .. } | Call::KeepNodes { .. }
            );
            let went_on = looks && ![1, 2, 15].contains(&refusal);
            assert!(sort.is_good(nodes) || !went_on, "{told}: {call:?} {answer:?}");
            looked_at_64 += u64::from(went_on && nodes == 64);
            *answers.entry(refusal).or_insert(0) += 1;
        }
        println!("{sort:?}: {answers:?}");
        let often = |number| answers.get(&number).copied().unwrap_or(0) > 100;
        assert!(often(15) && often(0) && often(1), "{sort:?}: {answers:?}");
        assert_eq!(looked_at_64 > 20, sort.is_good(64), "{sort:?}: {looked_at_64}");
    }
}

/// "in a further lent table of 64 bytes a job, else 1": in every call that is lent it, and in no other.
#[test]
fn maps_of_a_wrong_length_are_refused_1() {
    let (mut refused, mut others) = (0, 0);
    for seed in seeds(4_000) {
        let mut dice = Dice::new(seed ^ 0x1E46);
        let Case { nodes, mut tables, call } = case(seed);
        if seed % 97 == 96 {
            continue;
        }
        wrong_length(&mut dice, &mut tables);
        if maps_fit(&tables.jobs, &tables.maps) {
            continue;
        }
        let mut both = Both::new(nodes, tables);
        let answer = made(&format!("seed {seed}"), &mut both, &call);
        if matches!(call, Call::Rebind { .. } | Call::Clear { .. } | Call::Fresh) {
            others += u64::from(answer == Answer::Done);
        } else {
            assert_eq!(answer, Answer::Refused(1), "seed {seed}: {call:?}");
            refused += 1;
        }
    }
    println!("{refused} refused 1, {others} done by calls that are not lent the maps");
    assert!(refused > 2_000 && others > 200, "{refused} {others}");
}

/// Three nodes, and every map of up to three bytes out of all nodes, an unknown one and FF: every call that is lent it.
#[test]
fn every_small_map() {
    let bytes = [0, 1, 2, 3, 0xFF];
    let (mut good, mut bad) = (0, 0);
    for turn in 0..125 {
        let list = [bytes[turn % 5], bytes[turn / 5 % 5], bytes[turn / 25]];
        let mut start = Tables { counts: vec![1, 2, 1], cpus: vec![0, 1, 2], ..machine_a() };
        start.distances = vec![10, 20, 30, 20, 10, 20, 30, 20, 10];
        (start.pages, start.jobs) = (vec![0, 1, 0, 0], vec![0, 0, 0b111, 0, 0, 0]);
        start.maps = map_with(&list);
        let start = start.counted();
        let mut calls: Vec<Call> = (0..4).map(|cpu| Call::Request { job: 0, cpu }).collect();
        calls.extend((0..5).map(|page| Call::Release { job: 0, page }));
        for set in 0..16 {
            let places = |places: &[u8]| places.to_vec();
            calls.push(Call::Install { job: 0, mode: 2, flag: set % 3, mask: set, places: vec![] });
            let place = set as u8 % 5;
            calls.push(Call::Install { job: 0, mode: 4, flag: 0, mask: 0, places: places(&[place, 0]) });
            let kept: Vec<u8> = (0..4).filter(|node| set >> node & 1 == 1).collect();
            calls.push(Call::KeepNodes { job: 0, kept: kept.clone() });
            calls.push(Call::KeepNodes { job: 0, kept: places(&[place, place / 2]) });
            calls.push(Call::SetMap { job: 0, list: places(&[place, set as u8 / 4]) });
        }
        for call in &calls {
            let mut both = Both::new(3, start.clone());
            match made(&format!("map {list:?}"), &mut both, call) {
                Answer::Refused(15) => bad += 1,
                _ => good += 1,
            }
            // A request after it goes by what it left.
            made(&format!("map {list:?} after {call:?}"), &mut both, &Call::Request { job: 0, cpu: 1 });
        }
    }
    println!("{good} calls not refused 15, {bad} refused 15");
    assert!(good > 1_000 && bad > 5_000, "{good} {bad}");
}

/// One byte of a good map after the other set to every byte, N up to 64: 15 exactly by the rule, which both have.
#[test]
fn every_byte_of_a_map_is_tested() {
    let (mut refused, mut served) = (0, 0);
    for nodes in [1, 2, 5, 63, 64] {
        let mut dice = Dice::new(nodes as u64);
        for sort in [Sort::Identity, Sort::Part, Sort::Permuted] {
            let map = map_of_sort(&mut dice, nodes, sort);
            for at in 0..MAP_BYTES {
                let any = dice.byte();
                for byte in [0, 1, nodes as u8 - 1, nodes as u8, 63, 64, 128, 254, 0xFF, any] {
                    let mut start = Tables { counts: vec![1; nodes], cpus: vec![0], ..machine_a() };
                    start.distances = vec![10; nodes * nodes];
                    start.pages = vec![0; nodes];
                    start.jobs = vec![0, 0, u64::MAX >> (64 - nodes), 0, 0, 0];
                    start.maps = map.clone();
                    start.maps[at] = byte;
                    let mut both = Both::new(nodes, start.counted());
                    match made(&format!("N {nodes} byte {at}"), &mut both, &Call::Request { job: 0, cpu: 0 }) {
                        Answer::Refused(15) => refused += 1,
                        Answer::Granted { .. } => served += 1,
                        other => panic!("N {nodes} byte {at} is {byte}: {other:?}"),
                    }
                }
            }
        }
    }
    println!("{refused} refused 15, {served} served");
    assert!(refused > 5_000 && served > 500, "{refused} {served}");
}

/// A request by a replay of that one call; in ring mode the record's cursor says which place was granted.
fn ask(tables: &mut Tables, job: usize, cpu: usize) -> Option<Grant> {
    let mut answers = [0];
    let Tables { counts, cpus, distances, pages, jobs, free, maps } = tables;
    let call = words(&Call::Request { job, cpu });
    spirerivet::replay(counts, cpus, distances, pages, jobs, free, maps, &call, &mut answers).ok()?;
    if answers[0] as u8 != 0 {
        return None;
    }
    let (page, record) = ((answers[0] >> 32) as usize, read(jobs, job));
    let place = (record.mode == RING).then(|| usize::from(record.cursor) - 1);
    Some(Grant { node: node_of_page(counts, page)?, page, place })
}

/// Does the job's policy name a node outside its map?
fn names_outside(tables: &Tables, job: usize) -> bool {
    let record = read(&tables.jobs, job);
    let named: Vec<u8> = match record.mode {
        RING => record.places.iter().take(usize::from(record.length)).copied().collect(),
        INTERLEAVE => (0..64).filter(|node| record.effective >> node & 1 == 1).collect(),
        _ => Vec::new(),
    };
    let numbers = numbers_of(tables, job);
    named.iter().any(|node| !numbers.contains(node))
}

/// How many calls of a list set a map, of some other job than those that are watched.
fn maps_set(start: &Tables, calls: &[Call]) -> u64 {
    let mut tables = start.clone();
    calls.iter().map(|call| u64::from(apply(&mut tables, call) == Answer::Done && call.is_of_maps())).sum()
}

/// "In demand 3 "allowed" then means in both, for places and effective nodes alike; L still counts every place or effective
/// node": jobs whose map has all their places or nodes, and jobs whose map lacks some; other jobs' maps are set meanwhile.
#[test]
fn every_window_is_fair_with_maps() {
    for sort in [Sort::Permuted, Sort::Part] {
        let (mut total, mut outside, mut set) = (Fair::default(), 0, 0);
        for seed in seeds(240) {
            let (start, calls) = list(seed, 160);
            let start = mapped(&mut Dice::new(seed), start, sort);
            outside += (0..sizes(&start).1).filter(|job| names_outside(&start, *job)).count();
            set += maps_set(&start, &calls);
            match check_with(&start, &calls, ask) {
                Ok(seen) => add(&mut total, seen),
                Err(unfair) => panic!("{sort:?} seed {seed}: {unfair:?}"),
            }
        }
        println!("{sort:?}: {total:?}, {outside} jobs with a place or node outside their map, {set} maps set");
        assert!(total.grants > 1_500 && total.at_least > 1_500 && set > 30, "{sort:?}: {total:?} {set}");
        assert!(if sort == Sort::Part { outside > 100 } else { total.exact > 200 }, "{sort:?}: {total:?} {outside}");
    }
}
