//! `replay` against the second implementation's calls one by one.

use hosts::{
    answer_word, install_in, library_replay, list_refusal, map_call_in, packed, seeds, Lent, LentTables, Shown,
    NUMBERS, RUBBISH,
};
use reference::calls::{apply, apply_without_counts, Answer, Call, Tables};
use reference::closing::Closings;
use reference::drain_cases::drain_case;
use reference::drain_requests::wrong_after;
use reference::examples::machine_a;
use reference::generate::{journal_parts, list, put_counts, tables, Counts, Dice, SORTS_OF_COUNTS};
use reference::map_cases::{good_keep, good_set, put_map, SORTS};

/// Numbers of places over 16, and of nodes: the next one, those about 64, and such as are small when cut or shifted.
const LONG: [u64; 16] =
    [17, 63, 64, 65, 66, 255, 256, 257, 320, 65_537, 1 << 32, 1 << 32 | 1, 1 << 61 | 1, 1 << 63, 1 << 63 | 1, u64::MAX];

/// The word of a refusal, but for its number.
const REFUSED: u64 = 0xFFFF_FFFF_0000_FF00;

/// A replay by the library, and everything it was lent.
struct Run {
    outcome: Result<usize, u8>,
    lent: LentTables,
    answers: Lent<u64>,
}

/// Runs the list with so many answer cells; the list itself must stay.
fn run(start: &Tables, words: &[u64], room: usize) -> Run {
    let mut lent = LentTables::new(start);
    let calls = Lent::new(words, 1);
    let mut answers = Lent::new(&vec![RUBBISH; room], !RUBBISH);
    let outcome = library_replay(&mut lent, calls.now(), answers.now_mut());
    assert!(calls.is(words), "the list of calls was changed");
    Run { outcome, lent, answers }
}

/// What the run must leave: the answers and tables of the calls one by one, or all as it was.
fn check(told: &str, start: &Tables, words: &[u64], calls: &[Call], room: usize) -> usize {
    let mut tables = start.clone();
    let mut answers = vec![RUBBISH; room];
    let found = run(start, words, room);
    let expected = match list_refusal(start, words, room) {
        Some(number) => Err(number),
        None => {
            for (turn, call) in calls.iter().enumerate() {
                answers[turn] = answer_word(apply(&mut tables, call));
            }
            Ok(calls.len())
        }
    };
    assert_eq!(found.outcome, expected, "{told}");
    for (turn, answer) in answers.iter().enumerate() {
        assert_eq!(found.answers.now()[turn], *answer, "{told}: answer {turn} of {:?}", calls.get(turn));
    }
    assert!(found.answers.marks_stand(), "{told}: written beside the answers");
    assert_eq!(found.lent.difference(&tables), None, "{told}");
    expected.unwrap_or(0)
}

/// The starts and lists of a seed: as jobs make them, as a journal has them, and of any sort.
fn lists(seed: u64) -> Vec<(String, Tables, Vec<Call>)> {
    let (any_start, any_calls) = {
        let (_, start, calls) = tables(seed, 50);
        (start, calls)
    };
    let (list_start, list_calls) = list(seed, 150);
    let (journal_start, journal_calls) = journal_parts(seed, 150);
    vec![
        (format!("tables seed {seed}"), any_start, any_calls),
        (format!("list seed {seed}"), list_start, list_calls),
        (format!("journal seed {seed}"), journal_start, journal_calls),
    ]
}

#[test]
fn a_replay_is_its_calls_one_by_one() {
    let (mut ran, mut closings) = (0, Closings::default());
    for seed in seeds(120) {
        for (told, start, calls) in lists(seed) {
            let mut dice = Dice::new(seed);
            let words = packed(&mut dice, &calls);
            let room = calls.len() + dice.below(3);
            match check(&told, &start, &words, &calls, room) {
                0 => {}
                calls_run => {
                    closings.enter_list(&start, &calls);
                    ran += calls_run;
                }
            }
        }
    }
    println!("{ran} calls replayed, {closings:?}");
    assert!(ran > 30_000 && closings.each_at_least(20), "{ran} {closings:?}");
}

/// "If the counts match the page table at entry, every call answers as before and they match afterwards" (M-100).
#[test]
fn with_matching_counts_a_replay_answers_as_before() {
    let mut ran = 0;
    for seed in seeds(120) {
        for (told, start, calls) in lists(seed) {
            let start = start.counted();
            let words = packed(&mut Dice::new(seed), &calls);
            if list_refusal(&start, &words, calls.len()).is_some() {
                continue;
            }
            let Run { outcome, lent, answers } = run(&start, &words, calls.len());
            assert_eq!(outcome, Ok(calls.len()), "{told}");
            let mut before = start.clone();
            for (turn, call) in calls.iter().enumerate() {
                let answer = answer_word(apply_without_counts(start.counts.len(), &mut before, call));
                assert_eq!(answers.now()[turn], answer, "{told}: answer {turn} of {call:?}");
            }
            assert_eq!(lent.difference(&before.counted()), None, "{told}");
            ran += calls.len();
        }
    }
    println!("{ran} calls replayed");
    assert!(ran > 30_000, "{ran}");
}

#[test]
fn replays_on_counts_of_every_sort() {
    for sort in SORTS_OF_COUNTS {
        let mut shown = Shown::default();
        let (mut ran, mut refused) = (0, 0);
        for seed in seeds(300) {
            let mut dice = Dice::new(seed ^ 0xC0_4273);
            let (mut start, calls) = list(seed, 30);
            put_counts(&mut dice, &mut start, sort);
            let words = packed(&mut dice, &calls);
            match check(&format!("{sort:?} seed {seed}"), &start, &words, &calls, calls.len()) {
                0 => refused += 1,
                _ => ran += 1,
            }
            let mut tables = start.clone();
            for call in &calls {
                let before = tables.clone();
                shown.enter(&before, call, apply(&mut tables, call));
            }
        }
        println!("{sort:?}: {ran} lists ran, {refused} were refused 1; call by call {shown:?}");
        let wrong_length = matches!(sort, Counts::TooFew | Counts::TooMany);
        assert!(if wrong_length { ran == 0 } else { refused == 0 }, "{sort:?}: {ran} ran, {refused} refused");
        assert!(shown.is_enough(sort), "{sort:?}: {shown:?}");
    }
}

/// A list of one kind, all its other words rubbish, and what it must be: a fresh table, or 13.
#[test]
fn kind_16_is_a_fresh_table_and_reads_no_other_word() {
    let (start, _) = list(9, 1);
    let start = Tables { free: vec![7; start.counts.len()], ..start };
    let mut dice = Dice::new(16);
    for turn in 0..200 {
        let word = if turn % 2 == 0 { dice.next() } else { dice.pick(&[0, 1, u64::MAX]) };
        let mut words = [word; 16];
        words[0] = 16;
        assert_eq!(check("fresh", &start, &words, &[Call::Fresh], 1), 1);
        let found = run(&start, &words, 1);
        assert_eq!(found.answers.now(), [answer_word(Answer::Done)]);
        assert_eq!(found.lent.free.now(), start.counts);
    }
    let like_16 = [16 << 8 | 16, 1 << 32 | 16, 1 << 63 | 16, 16 << 8, 16 << 32, 16 << 56, u64::MAX - 15, u64::MAX];
    for kind in (0..=300).chain(like_16) {
        let mut words = [0; 16];
        words[0] = kind;
        let known = (1..=5).contains(&kind) || (16..=19).contains(&kind);
        assert_eq!(list_refusal(&start, &words, 1), if known { None } else { Some(13) }, "kind {kind}");
        assert_eq!(run(&start, &words, 1).outcome, if known { Ok(1) } else { Err(13) }, "kind {kind}");
    }
}

/// Damages a list in one way, or makes a call of it one that says too many places or nodes, which is no damage; gives the
/// answer cells to lend.
fn damage(dice: &mut Dice, words: &mut Vec<u64>, calls: &mut [Call]) -> usize {
    let turn = dice.below(calls.len());
    let at = 16 * turn;
    match dice.below(8) {
        0 => words[at] = dice.pick(&[0, 6, 7, 15, 20, 255, 256, 257, 272, 1 << 32, 1 << 32 | 19, u64::MAX]),
        1 => {
            words[at] = 4;
            words[at + 5] = dice.pick(&LONG);
            if dice.chance(80) {
                words[at + 2] = dice.below(8) as u64;
                words[at + 3] = dice.pick(&[0, 0, 0, 1, 2, 3]);
                words[at + 4] = dice.pick(&[0, 0, 1, 3, u64::MAX]);
            }
            calls[turn] = install_in(&words[at..at + 16]);
        }
        2 => words.truncate(at + dice.between(1, 15)),
        3 => {
            for _ in 0..dice.between(1, 15) {
                words.push(dice.below(6) as u64);
            }
        }
        4 => return dice.below(calls.len()),
        5 => return 0,
        6 => {
            words[at] = dice.pick(&[17, 18]);
            words[at + 5] = dice.pick(&LONG);
            calls[turn] = map_call_in(&words[at..at + 16]);
        }
        _ => {}
    }
    if dice.chance(30) {
        return dice.below(calls.len());
    }
    calls.len()
}

#[test]
fn damaged_lists_change_nothing() {
    let mut refused = [0; NUMBERS];
    for seed in seeds(1_500) {
        let mut dice = Dice::new(seed ^ 0xDA4A);
        let (start, mut calls) = if seed % 3 == 0 {
            let (_, start, calls) = tables(seed, 12);
            (start, calls)
        } else {
            list(seed, 12)
        };
        let mut words = packed(&mut dice, &calls);
        let room = damage(&mut dice, &mut words, &mut calls);
        check(&format!("damaged list seed {seed}"), &start, &words, &calls, room);
        refused[usize::from(list_refusal(&start, &words, room).unwrap_or(0))] += 1;
    }
    println!("refused {refused:?}");
    for number in [0, 1, 11, 13] {
        assert!(refused[number] > 50, "{number}: {refused:?}");
    }
}

#[test]
fn an_install_of_over_16_places_is_refused_6() {
    let (mut start, _) = list(3, 1);
    start.jobs[..6].copy_from_slice(&[0, 0, 1, 0, 0, 0]);
    for length in (0..=80).chain([255, 256, 257, 65_536]) {
        let calls = [Call::Install { job: 0, mode: 5, flag: 0, mask: 0, places: vec![0; length] }];
        let words = packed(&mut Dice::new(7), &calls);
        check("many places", &start, &words, &calls, 1);
        let refused = run(&start, &words, 1).answers.now()[0] as u8;
        assert_eq!(refused, if (1..=16).contains(&length) { 0 } else { 6 }, "{length}");
    }
}

/// Machine A with job 0 allowed all nodes, job 1 none, a malformed record for job 2, and no job 8. Then job, mode, flag and
/// mask of installs, and the refusal of each if it says over 16 places.
fn long_installs() -> (Tables, Vec<([u64; 4], u8)>) {
    let mut start = machine_a();
    start.jobs[12] = 7;
    let all = u64::MAX;
    let mut installs = vec![
        ([8, 7, 3, all], 2),
        ([all, 5, 0, 0], 2),
        ([2, 7, 3, all], 4),
        ([2, 5, 0, 0], 4),
        ([1, 7, 0, all], 5),
        ([0, all, 0, 0], 5),
        ([0, 5, 3, all], 5),
        ([0, 5, 1, 0], 5),
        ([0, 1, 2, 0], 5),
        ([1, 5, 0, 0], 7),
        ([1, 2, 0, all], 7),
        ([0, 5, 0, 1], 6),
    ];
    // Each of these would be granted with the places that its mode takes.
    installs.extend((0..=6).map(|mode| ([0, mode, 0, u64::from((1..=3).contains(&mode))], 6)));
    (start, installs)
}

#[test]
fn any_number_of_places_is_refused_in_the_order_of_install() {
    let (start, installs) = long_installs();
    let mut dice = Dice::new(11);
    for length in LONG {
        let told = format!("{length} places");
        let mut words = Vec::new();
        for ([job, mode, flag, mask], _) in &installs {
            words.extend([4, *job, *mode, *flag, *mask, length]);
            words.extend((6..16).map(|_| dice.next()));
        }
        let mut calls: Vec<Call> = words.chunks(16).map(install_in).collect();
        // The run goes on after them.
        calls.push(Call::Install { job: 0, mode: 5, flag: 0, mask: 0, places: vec![3] });
        calls.push(Call::Request { job: 0, cpu: 0 });
        words.extend(packed(&mut dice, &calls[installs.len()..]));
        assert_eq!(check(&told, &start, &words, &calls, calls.len()), calls.len());
        let found = run(&start, &words, calls.len()).answers;
        for (answer, (install, refusal)) in found.now().iter().zip(&installs) {
            assert_eq!(*answer as u8, *refusal, "{told}: {install:?}");
        }
        assert_eq!(found.now().last(), Some(&(3 << 8 | 4 << 32)), "{told}: node 3, page 4");
    }
}

#[test]
fn any_number_of_places_leaves_the_refusals_of_a_list() {
    let start = machine_a();
    let broken = Tables { cpus: vec![4], ..machine_a() };
    for length in LONG {
        let mut words = [[0; 16]; 3].concat();
        for call in words.chunks_mut(16) {
            call[..6].copy_from_slice(&[4, 0, 5, 0, 0, length]);
        }
        let calls: Vec<Call> = words.chunks(16).map(install_in).collect();
        assert_eq!(check("room", &start, &words, &calls, 3), 3);
        for (told, start, words, room, refusal) in [
            ("too little room", &start, &words[..], 2, 11),
            ("cut short", &start, &words[..47], 3, 13),
            ("cut short, too little room", &start, &words[1..], 0, 13),
            ("bad tables", &broken, &words[..47], 0, 1),
        ] {
            assert_eq!(list_refusal(start, words, room), Some(refusal), "{told}");
            check(told, start, words, &calls, room);
        }
        words[32] = 6;
        assert_eq!(list_refusal(&start, &words, 0), Some(13));
        check("an unknown kind after them", &start, &words, &calls, 0);
    }
}

/// Machine A with 64 nodes of a page each, all at distance 10, and two jobs allowed all.
fn sixty_four_nodes() -> Tables {
    let mut tables = Tables { counts: vec![1; 64], cpus: vec![0], pages: vec![0; 64], ..machine_a() };
    tables.distances = vec![10; 64 * 64];
    tables.jobs = [0, 0, u64::MAX, 0, 0, 0].repeat(2);
    tables.counted().numbered_as_the_machine()
}

/// Kinds 17 and 18: "any length may be said; entries past the 64th are zero bytes, so a longer list gets the call's own
/// refusal", 15, and never 13.
#[test]
fn any_number_of_nodes_is_answered_as_by_the_calls() {
    let start = sixty_four_nodes();
    let all: Vec<u8> = (0..64).collect();
    let backward: Vec<u8> = (0..64).rev().collect();
    for (kind, nodes) in [(17, &all), (18, &all), (18, &backward), (17, &backward)] {
        for length in (0..=66).chain(LONG) {
            let mut words = [RUBBISH; 16];
            (words[0], words[1], words[5]) = (kind, 1, length);
            for (word, eight) in words[8..].iter_mut().zip(nodes.chunks(8)) {
                *word = eight.iter().rev().fold(0, |word, node| word << 8 | u64::from(*node));
            }
            let told = format!("kind {kind}, {length} nodes");
            let calls = [map_call_in(&words), Call::Request { job: 1, cpu: 0 }];
            let list = [words.to_vec(), packed(&mut Dice::new(length), &calls[1..])].concat();
            assert_eq!(check(&told, &start, &list, &calls, 2), 2);
            let answer = run(&start, &list, 2).answers.now()[0] as u8;
            let good = (1..=64).contains(&length) && (kind == 18 || nodes == &all || length == 1 && nodes[0] < 64);
            assert_eq!(answer, if good { 0 } else { 15 }, "{told}");
        }
    }
    let mut none = [0; 16];
    (none[0], none[1], none[5]) = (18, 2, u64::MAX);
    assert_eq!(check("no such job", &start, &none, &[map_call_in(&none)], 1), 1);
    assert_eq!(run(&start, &none, 1).answers.now()[0] as u8, 2);
}

/// What a replay does with maps of every sort, kinds 17 and 18 among its calls, is what its calls do one by one.
#[test]
fn replays_on_maps_of_every_sort() {
    let (mut kept, mut set, mut refused) = (0, 0, 0);
    for sort in SORTS {
        for seed in seeds(60) {
            let mut dice = Dice::new(seed ^ 0x3A9);
            let (mut start, mut calls) = list(seed, 40);
            for job in 0..start.jobs.len() / 6 {
                put_map(&mut dice, &mut start, job, sort);
                calls.insert(dice.below(calls.len()), good_keep(&mut dice, job, 1));
                calls.insert(dice.below(calls.len()), good_set(&mut dice, start.counts.len(), job));
            }
            let words = packed(&mut dice, &calls);
            assert_eq!(check(&format!("{sort:?} seed {seed}"), &start, &words, &calls, calls.len()), calls.len());
            let mut tables = start.clone();
            for call in &calls {
                match (call, apply(&mut tables, call)) {
                    (Call::KeepNodes { .. }, Answer::Done) => kept += 1,
                    (Call::SetMap { .. }, Answer::Done) => set += 1,
                    (_, Answer::Refused(15)) => refused += 1,
                    _ => {}
                }
            }
        }
    }
    println!("{kept} kept nodes, {set} set maps, {refused} refused 15");
    assert!(kept > 300 && set > 1_000 && refused > 1_000, "{kept} {set} {refused}");
}

/// Kind 19 reads the node and the room, whole words both, and no other; the pairs are not handed out.
#[test]
fn kind_19_is_a_drain_and_reads_two_words() {
    let start = Tables { pages: vec![0, 1, 0, 0, 1, 1], ..machine_a() }.counted();
    let mut dice = Dice::new(19);
    let rooms = (0..=5).chain(LONG).map(|room| (3, room, if room < 4 { 11 } else { 0 }));
    let nodes = [4, 5, 64, 256, 259, 1 << 32 | 3, 1 << 63 | 3, u64::MAX].map(|node| (node, 9, 6));
    for (node, room, refusal) in rooms.chain(nodes) {
        let mut words: Vec<u64> = (0..16).map(|_| dice.next()).collect();
        words[..3].copy_from_slice(&[19, node, room]);
        let calls = [Call::Drain { node: node as usize, room: room as usize }, Call::Request { job: 0, cpu: 6 }];
        words.extend(packed(&mut dice, &calls[1..]));
        let told = format!("node {node}, room {room}");
        assert_eq!(check(&told, &start, &words, &calls, 2), 2);
        let found = run(&start, &words, 2);
        assert_eq!(found.answers.now()[0], if refusal == 0 { 255 << 8 | 2 << 32 } else { REFUSED | refusal }, "{told}");
        if refusal == 0 {
            assert_eq!(found.lent.pages.now(), [0, 1, 1, 1, 1, 0], "{told}: and the request got page 4");
        }
    }
    let empty = machine_a();
    assert_eq!(run(&empty, &[[19, 2].to_vec(), vec![0; 14]].concat(), 1).answers.now(), [255 << 8]);
}

/// Drains put between the calls of lists, on counts that match or are wrong: as the calls one by one; and each drain that is
/// made leaves what the page bytes alone ask for.
#[test]
fn replays_with_drains() {
    let (mut moved, mut refused) = (0, [0; NUMBERS]);
    for seed in seeds(1_000).filter(|seed| seed % 97 != 96) {
        let mut dice = Dice::new(seed ^ 0x107);
        let (mut start, mut calls) = match seed % 2 {
            0 => list(seed, 40),
            _ => (drain_case(seed).tables, tables(seed, 20).2),
        };
        if dice.chance(15) {
            put_counts(&mut dice, &mut start, Counts::TooLow);
        }
        for _ in 0..8 {
            let (node, room) = (dice.below(start.counts.len() + 1), dice.pick(&[0, 2, 5, 40, usize::MAX]));
            calls.insert(dice.below(calls.len()), Call::Drain { node, room });
        }
        let words = packed(&mut dice, &calls);
        let told = format!("seed {seed}");
        if check(&told, &start, &words, &calls, calls.len()) == 0 {
            continue;
        }
        let mut tables = start.clone();
        for (turn, call) in calls.iter().enumerate() {
            match (call, apply(&mut tables, call)) {
                (Call::Drain { node, .. }, Answer::Drained { moves: 1.. }) => {
                    let [before, after] = [turn, turn + 1].map(|end| tables_after(&start, &words[..16 * end]));
                    assert_eq!(wrong_after(&before, &after, *node), None, "{told} call {turn}");
                    moved += 1;
                }
                (Call::Drain { .. }, Answer::Refused(number)) => refused[usize::from(number)] += 1,
                _ => {}
            }
        }
    }
    println!("{moved} drains that moved pages, refused {refused:?}");
    assert!(moved > 150 && [6, 11, 14, 17].iter().all(|number| refused[*number] > 50), "{moved} {refused:?}");
}

/// The tables that a list of calls leaves, by the library.
fn tables_after(start: &Tables, words: &[u64]) -> Tables {
    let LentTables { pages, jobs, free, maps, .. } = run(start, words, words.len() / 16).lent;
    let (pages, jobs) = (pages.now().to_vec(), jobs.now().to_vec());
    Tables { pages, jobs, free: free.now().to_vec(), maps: maps.now().to_vec(), ..start.clone() }
}

#[test]
fn an_empty_list_runs() {
    let (start, _) = list(5, 1);
    assert_eq!(check("empty", &start, &[], &[], 0), 0);
    assert_eq!(check("empty", &start, &[], &[], 3), 0);
}
