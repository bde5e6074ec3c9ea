//! M-104's notes by the linked library and by the second implementation: good ones, damaged ones and hostile ones; and what
//! M-104 says of them, asked of the bytes.

use std::collections::BTreeMap;

use hosts::{library_call, name_by_both, places_by_both, seeds, write_note_by_both, LentTables, NUMBERS};
use reference::calls::{Answer, Call, Tables};
use reference::closing::without_closing;
use reference::examples::machine_a;
use reference::generate::{case, list, Case, Dice};
use reference::map_cases::{numbers_of, put_map, some_good_sort, Sort};
use reference::maps::{entries, map_of, map_with};
use reference::note_cases::{
    laid_out, list_of_sort, node_names, note_case, note_of_sort, some_note, write_note_case, ListSort, NoteCase,
    NoteSort, WriteNoteCase, LIST_SORTS, NOTE_SORTS,
};
use reference::notes::Part;
use reference::record::{read, write, DEFAULT, WORDS};
use spirerivet::{mode, which, AppNode};

/// Numbers of names that no note has: one past the most, and such as are small when cut.
const FAR: [usize; 6] = [32, 33, 256, 1 << 32, 1 << 63, usize::MAX];

/// A name as the bytes around it say: after the four counts or a zero, before a zero, 1 to 15 bytes that are not.
fn is_whole_name(note: &[u8], part: Part) -> bool {
    let Part { start, len } = part;
    let begins = start == 16 || start > 16 && note[start - 1] == 0;
    begins && (1..=15).contains(&len) && note[start + len] == 0 && !note[start..start + len].contains(&0)
}

/// "an empty part if the note is bad or has no such name": the names that a note gives, each the next of its bytes.
fn names_of<'a>(told: &str, note: &'a [u8]) -> Vec<&'a [u8]> {
    let (mut names, mut next) = (Vec::new(), 16);
    for k in (0..34).chain(FAR) {
        let part = name_by_both(told, note, k);
        if part == Part::default() {
            next = usize::MAX;
            continue;
        }
        assert!(part.start == next && is_whole_name(note, part), "{told}: name {k} is {part:?} of {note:?}");
        names.push(&note[part.start..part.start + part.len]);
        next += part.len + 1;
    }
    let whole = 16 + names.iter().map(|name| name.len() + 1).sum::<usize>();
    assert!(names.is_empty() || whole == note.len(), "{told}: names of {whole} bytes in {}", note.len());
    names
}

#[test]
fn names_of_notes_of_every_sort() {
    let (mut good, mut bad, mut found) = (BTreeMap::new(), BTreeMap::new(), 0);
    for seed in seeds(15_000) {
        let mut dice = Dice::new(seed ^ 0x4A3E);
        let (sort, note) = some_note(&mut dice, &[]);
        let names = names_of(&format!("{sort:?} seed {seed}"), &note);
        let may_be_good = matches!(sort, NoteSort::Good | NoteSort::Changed | NoteSort::Noise);
        assert!(may_be_good || names.is_empty(), "{sort:?} seed {seed}: {names:?}");
        let has_none = names.is_empty() && note.len() > 16;
        assert!(sort != NoteSort::Good || !has_none, "seed {seed}: no names in {note:?}");
        found += names.len();
        *if names.is_empty() { &mut bad } else { &mut good }.entry(sort).or_insert(0) += 1;
    }
    println!("{found} names; notes with names {good:?}; without {bad:?}");
    assert!(found > 15_000 && good[&NoteSort::Good] > 5_000 && good[&NoteSort::Changed] > 200, "{found} {good:?}");
    for sort in NOTE_SORTS {
        assert!(sort == NoteSort::Good || bad[&sort] > 300, "{sort:?}: {bad:?}");
    }
}

/// The names of two lists with their zeros, text before data: what a note of them must give.
fn names_in(text: &[u8], data: &[u8]) -> Vec<Vec<u8>> {
    let both = [text, data].concat();
    let mut names: Vec<Vec<u8>> = both.split(|byte| *byte == 0).map(<[u8]>::to_vec).collect();
    names.pop();
    names
}

/// "Write the note too, from a text and a data list each laid out like the table, and show that reading it returns the same
/// names"; "a bad note or list is 16, then a short output 11".
#[test]
fn notes_are_written_alike_and_read_back() {
    let (mut written, mut refused) = (0, [0; NUMBERS]);
    for seed in seeds(20_000) {
        let told = format!("write seed {seed}");
        let WriteNoteCase { sorts, text, data, room } = write_note_case(seed);
        let fits = room >= 16 + text.len() + data.len();
        match write_note_by_both(&told, &text, &data, room) {
            Ok(note) => {
                assert!(sorts.into_iter().all(ListSort::is_good) && fits, "{told}: {sorts:?}");
                assert_eq!(names_of(&told, &note), names_in(&text, &data), "{told}");
                assert_eq!(note[16..], [text, data].concat(), "{told}");
                written += 1;
            }
            Err(number) => {
                let bad = !sorts.into_iter().all(ListSort::is_good);
                assert_eq!(number, if bad { 16 } else { 11 }, "{told}: {sorts:?}");
                refused[usize::from(number)] += 1;
            }
        }
    }
    println!("{written} written, refused {refused:?}");
    assert!(written > 5_000 && refused[16] > 2_000 && refused[11] > 2_000, "{written} {refused:?}");
}

/// Every sort of list as text and as data beside every other: the writer takes a pair if both are good, 16 comes before 11.
#[test]
fn every_pair_of_lists() {
    let mut dice = Dice::new(104);
    for (text_sort, data_sort) in LIST_SORTS.into_iter().flat_map(|text| LIST_SORTS.map(|data| (text, data))) {
        for _ in 0..seeds(20).end {
            let [text, data] = [text_sort, data_sort].map(|sort| list_of_sort(&mut dice, &[], sort));
            let (good, told) = (text_sort.is_good() && data_sort.is_good(), format!("{text_sort:?} {data_sort:?}"));
            let need = 16 + text.len() + data.len();
            for (room, refusal) in [(need, 0), (need + 7, 0), (need - 1, 11), (0, 11)] {
                let expected = if good { refusal } else { 16 };
                let found = write_note_by_both(&told, &text, &data, room);
                assert_eq!(found.err().unwrap_or(0), expected, "{told} room {room}");
            }
        }
    }
}

#[test]
fn places_are_alike() {
    let (mut refused, mut sorts) = ([0; NUMBERS], BTreeMap::new());
    let (mut placed, mut with_any, mut dropped) = (0, 0, 0);
    for seed in seeds(30_000) {
        let case = note_case(seed);
        *sorts.entry(case.sort).or_insert(0) += 1;
        match places_by_both(&format!("{:?} seed {seed}", case.sort), &case) {
            Ok(places) => {
                let mapped = entries(map_of(&case.tables.maps, case.job)).len();
                let numbers = &places[..places.len() - usize::from(places.last() == Some(&255))];
                assert!(numbers.iter().all(|place| usize::from(*place) < mapped), "seed {seed}: {places:?}");
                placed += u64::from(!places.is_empty());
                dropped += u64::from(places.is_empty());
                with_any += u64::from(numbers.len() < places.len());
            }
            Err(number) => refused[usize::from(number)] += 1,
        }
    }
    println!("{placed} placed, {with_any} of them with ANY, {dropped} dropped, refused {refused:?}\n{sorts:?}");
    assert!(placed > 2_000 && with_any > 1_000 && dropped > 2_000, "{placed} {with_any} {dropped}");
    for number in [1, 2, 11, 15, 16] {
        assert!(refused[number] > 500, "refusal {number}: {refused:?}");
    }
    assert!(sorts.len() == NOTE_SORTS.len() && sorts.values().all(|count| *count > 500), "{sorts:?}");
}

/// Machine A, job 0 allowed all nodes, with this map.
fn a_mapped(map: &[u8]) -> Tables {
    let mut tables = machine_a();
    tables.maps[..64].copy_from_slice(&map_with(map));
    tables
}

/// A question on machine A.
fn on_a(names: &[u8], map: &[u8], note: &[u8], which: u64, room: usize) -> NoteCase {
    let (tables, sort) = (a_mapped(map), NoteSort::Good);
    NoteCase { nodes: 4, tables, names: names.to_vec(), sort, note: note.to_vec(), job: 0, which, room }
}

/// A note of two lists, by the library.
fn note_of(text: &[u8], data: &[u8]) -> Vec<u8> {
    write_note_by_both("note", text, data, 600).expect("good lists")
}

/// "the first match counting"; "a first match outside the map counting as an unknown name": each node in turn is the first of
/// its name, the others have it too, and the map has all nodes, or all but that one.
#[test]
fn the_first_match_counts() {
    for first in 0..4u8 {
        let names: Vec<Vec<u8>> =
            (0..4).map(|node| if node < first { vec![b'a' + node] } else { b"M".to_vec() }).collect();
        let others: Vec<u8> = (0..4).filter(|node| *node != first).collect();
        for (text, with_any) in [(&b"M\0"[..], false), (b"M\0ANY\0", true)] {
            let ask = |map: &[u8]| places_by_both("match", &on_a(&laid_out(&names), map, &note_of(text, &[]), 0, 2));
            let places = |place| if with_any { vec![place, 255] } else { vec![place] };
            assert_eq!(ask(&[0, 1, 2, 3]), Ok(places(first)), "{first}");
            assert_eq!(ask(&[3, 2, 1, 0]), Ok(places(3 - first)), "{first}: the application number");
            assert_eq!(ask(&others), Ok(vec![]), "{first}: a second match is not taken");
        }
    }
}

/// The wrong programs of M-104, each with the bytes that show it.
#[test]
fn wrong_programs_are_told_apart() {
    let names = b"SRAM\0SDRAM0\0SDRAM1\0FLASH\0";
    let head = |counts: [u8; 4]| counts.map(|count| [count, 0, 0, 0]).concat();
    let long = b"1234567890123456\0";
    for (told, note) in [
        ("ANY in the middle", [head([3, 14, 0, 0]), b"SRAM\0ANY\0SRAM\0".to_vec()].concat()),
        ("ANY first of the data list", [head([1, 5, 2, 9]), b"SRAM\0ANY\0SRAM\0".to_vec()].concat()),
        ("a name of 16 bytes", [head([1, 17, 0, 0]), long.to_vec()].concat()),
        ("a byte after the last string", [head([1, 5, 0, 0]), b"SRAM\0\0".to_vec()].concat()),
        ("a string after the last", [head([1, 5, 0, 0]), b"SRAM\0A\0".to_vec()].concat()),
        ("17 names", [head([17, 85, 0, 0]), b"SRAM\0".repeat(17)].concat()),
        ("16 names and ANY", [head([17, 84, 0, 0]), [b"SRAM\0".repeat(16), b"ANY\0".to_vec()].concat()].concat()),
        ("a reserved name in the other list", [head([1, 5, 1, 5]), b"SRAM\0text\0".to_vec()].concat()),
    ] {
        assert_eq!(names_of(told, &note), Vec::<&[u8]>::new(), "{told}");
        for which in [0, 1] {
            assert_eq!(places_by_both(told, &on_a(names, &[0, 1, 2, 3], &note, which, 16)), Err(16), "{told}");
        }
    }
    assert_eq!(write_note_by_both("16 bytes", long, &[], 100), Err(16));
    assert_eq!(write_note_by_both("15 bytes", &long[1..], &[], 100).map(|note| note.len()), Ok(32));
    // A closing 255 is stored as it is, whatever the map; in the middle and in modes 5 and 6 it is 6.
    for (mode, places, answer) in [
        (4, vec![1, 255], Answer::Done),
        (4, vec![255], Answer::Done),
        (4, vec![255, 1], Answer::Refused(6)),
        (4, vec![255, 255], Answer::Refused(6)),
        (5, vec![1, 255], Answer::Refused(6)),
        (6, vec![1, 255], Answer::Refused(6)),
    ] {
        let mut lent = LentTables::new(&a_mapped(&[3, 2]));
        let call = Call::Install { job: 0, mode, flag: 0, mask: 0, places: places.clone() };
        assert_eq!(library_call(4, &mut lent, &call), answer, "mode {mode} {places:?}");
        let stored = lent.jobs.now()[4].to_le_bytes();
        let expected = if places.len() == 1 { [255, 0] } else { [2, 255] };
        assert!(answer != Answer::Done || stored[..2] == expected, "mode {mode} {places:?}: {stored:?}");
    }
}

/// All notes with small counts and sizes and up to four bytes of strings out of a zero and two letters.
#[test]
fn every_small_note() {
    let (mut good, mut bad) = (0, 0);
    for length in 0..=4 {
        for turn in 0..3usize.pow(length) {
            let strings: Vec<u8> = (0..length).map(|at| b"\0AB"[turn / 3usize.pow(at) % 3]).collect();
            for counts in 0..3 * 5 * 3 * 5 {
                let head = [counts % 3, counts / 3 % 5, counts / 15 % 3, counts / 45];
                let note = [head.map(|count: u32| count.to_le_bytes()).concat(), strings.clone()].concat();
                let part = name_by_both("small", &note, 0);
                let _ = name_by_both("small", &note, 1);
                let empty = head == [0; 4] && strings.is_empty();
                let places =
                    places_by_both("small", &on_a(b"A\0B\0AA\0AB\0", &[1, 0], &note, u64::from(counts % 2), 1));
                assert_eq!(places == Err(16), part.len == 0 && !empty, "{note:?}");
                good += u64::from(places != Err(16));
                bad += u64::from(places == Err(16));
            }
        }
    }
    println!("{good} good, {bad} bad");
    assert!(good > 20 && bad > 20_000, "{good} {bad}");
}

/// One byte of a good note after the other set to other bytes, or taken out, or put in; and the note cut at each.
#[test]
fn every_byte_of_a_note_is_tested() {
    let names = b"SRAM\0SDRAM0\0SDRAM1\0FLASH\0";
    let (mut good, mut bad) = (0, 0);
    for (text, data) in [(&b"SRAM\0SDRAM0\0ANY\0"[..], &b"SDRAM1\0"[..]), (b"", b"FLASH\0ANY\0"), (b"A\0", b"")] {
        let whole = note_of(text, data);
        let mut notes: Vec<Vec<u8>> = (0..whole.len()).map(|length| whole[..length].to_vec()).collect();
        for at in 0..whole.len() {
            for byte in [0, 1, 2, 3, 15, 16, 17, b'A', b'Y', 127, 128, 254, 255] {
                let mut note = whole.clone();
                note[at] = byte;
                notes.push(note.clone());
                note[at] = whole[at];
                note.insert(at, byte);
                notes.push(note);
            }
            notes.push([&whole[..at], &whole[at + 1..]].concat());
        }
        for note in notes {
            names_of("bytes", &note);
            for which in [0, 1] {
                match places_by_both("bytes", &on_a(names, &[0, 1, 2, 3], &note, which, 3)) {
                    Err(16) => bad += 1,
                    _ => good += 1,
                }
            }
        }
    }
    println!("{good} good, {bad} bad");
    assert!(good > 500 && bad > 2_000, "{good} {bad}");
}

/// One byte of a good table of names after the other likewise: 1 exactly by the rule, which both have.
#[test]
fn every_byte_of_a_table_of_names_is_tested() {
    let whole = b"SRAM\0ANYS\0123456789012345\0tex\0";
    let note = note_of(b"ANY\0", b"SRAM\0tex\0");
    let (mut good, mut bad) = (0, 0);
    for at in 0..=whole.len() {
        for byte in [0, b'A', b't', 128, 255] {
            let inserted = [&whole[..at], &[byte], &whole[at..]].concat();
            let mut changed = whole.to_vec();
            if let Some(old) = changed.get_mut(at) {
                *old = byte;
            }
            for names in [inserted, changed, whole[..at].to_vec()] {
                match places_by_both("table", &on_a(&names, &[0, 1, 2, 3], &note, which::DATA, 2)) {
                    Err(1) => bad += 1,
                    _ => good += 1,
                }
            }
        }
    }
    println!("{good} good, {bad} bad");
    assert!(good > 100 && bad > 100, "{good} {bad}");
}

/// Notes, lists and tables of a million bytes, and strings that never end.
#[test]
fn long_notes() {
    for length in [255, 256, 65_535, 65_536, 1_000_000] {
        for byte in [0, b'A', 255] {
            let strings = vec![byte; length];
            for counts in [[0, length as u32, 0, 0], [u32::MAX, length as u32, 0, 0], [1, 0, 1, length as u32]] {
                let note = [counts.map(u32::to_le_bytes).concat(), strings.clone()].concat();
                assert_eq!(name_by_both("long", &note, 0), Part::default());
                assert_eq!(places_by_both("long", &on_a(b"A\0B\0C\0D\0", &[0], &note, 0, 1)), Err(16));
            }
            assert_eq!(write_note_by_both("long", &strings, &[], length + 16), Err(16));
            assert_eq!(places_by_both("long", &on_a(&strings, &[0], &[0; 16], 0, 0)), Err(1));
        }
    }
}

/// Machine tables with good ones for one job: its record by default, its allowed set and its map.
fn one_job(dice: &mut Dice, seed: u64) -> Tables {
    let (mut tables, _) = list(seed, 0);
    tables.jobs = read_allowed(&tables);
    tables.maps.truncate(64);
    let sort = some_good_sort(dice);
    put_map(dice, &mut tables, 0, sort);
    tables.counted()
}

/// Job 0 by default with the allowed set that it has, or all nodes.
fn read_allowed(tables: &Tables) -> Vec<u64> {
    let all = u64::MAX >> (64 - tables.counts.len());
    let allowed = tables.jobs[2] & all;
    vec![0, 0, if allowed == 0 { all } else { allowed }, 0, 0, 0]
}

/// The nodes, by the machine's numbers, that a request must try: those of the places, then near(CPU's node), all by the
/// library's own near and the map.
fn nodes_to_try(tables: &Tables, places: &[AppNode], cpu: usize) -> Vec<u8> {
    let map = numbers_of(tables, 0);
    let limit = map.iter().fold(0, |set, node| set | 1 << node) & tables.jobs[2];
    let closes = places.last() == Some(&AppNode::ANY);
    let named = places.strip_suffix(&[AppNode::ANY]).unwrap_or(places);
    let mut nodes: Vec<u8> = named.iter().map(|place| map[usize::from(place.0)]).collect();
    nodes.retain(|node| limit >> node & 1 == 1);
    if closes {
        let (mut out, home) = ([0; 64], usize::from(tables.cpus[cpu]));
        let order =
            spirerivet::near(tables.counts.len(), &tables.distances, limit, home, &mut out).expect("a good set");
        nodes.extend(&out[..order.nodes]);
    }
    nodes
}

/// The page for job 0 in the first of these nodes that has a free one: of its colour, else of any (M-105).
fn first_page(tables: &Tables, pages: &[u8], nodes: &[u8]) -> Option<u32> {
    nodes.iter().find_map(|node| {
        let start: u32 = tables.counts[..usize::from(*node)].iter().sum();
        let offsets = 0..tables.counts[usize::from(*node)];
        let free = offsets.filter(|offset| pages[(start + offset) as usize] == 0);
        free.min_by_key(|offset| (offset % 4 != 0, *offset)).map(|offset| start + offset)
    })
}

/// A job's policy by a list of a good note, installed by the library: its places; none if the list drops.
fn installed(dice: &mut Dice, tables: &mut Tables) -> Vec<AppNode> {
    let nodes = tables.counts.len();
    let known = node_names(dice, nodes);
    let note = note_of_sort(dice, &known, NoteSort::Good);
    let (mut out, names, list) = ([AppNode(0); 16], laid_out(&known), dice.pick(&[which::TEXT, which::DATA]));
    let found = spirerivet::note_places(nodes, &tables.jobs, &tables.maps, &names, &note, 0, list, &mut out);
    let places = &out[..found.expect("good tables and a good note")];
    if !places.is_empty() {
        let answer = spirerivet::install(nodes, &mut tables.jobs, &tables.maps, 0, mode::LIST, 0, 0, places);
        assert_eq!(answer, spirerivet::Answer::Done, "{places:?}");
    }
    places.to_vec()
}

/// What requests by a note's places showed: granted by a place, by near(CPU's node), refused 8 at the end.
#[derive(Default, Debug)]
struct Served {
    by_place: u64,
    by_near: u64,
    refused: u64,
}

impl Served {
    /// A request from a CPU must give the job's page of the first node to try that has one, or 8; false for 8.
    fn request(&mut self, lent: &mut LentTables, tables: &Tables, places: &[AppNode], cpu: usize) -> bool {
        let named = places.strip_suffix(&[AppNode::ANY]).unwrap_or(places);
        let of = |places| first_page(tables, lent.pages.now(), &nodes_to_try(tables, places, cpu));
        let (expected, by_place) = (of(places), of(named).is_some());
        match (library_call(tables.counts.len(), lent, &Call::Request { job: 0, cpu }), expected) {
            (Answer::Granted { page, .. }, Some(wanted)) => {
                assert_eq!(page, wanted, "{places:?} CPU {cpu}");
                *if by_place { &mut self.by_place } else { &mut self.by_near } += 1;
                true
            }
            (Answer::Refused(8), None) => {
                self.refused += 1;
                false
            }
            other => panic!("{places:?} CPU {cpu}: {other:?}"),
        }
    }
}

/// A list that turns into places is one that an install in mode 4 takes; requests then try the places, then, with ANY,
/// near(CPU's node), until nothing is left.
#[test]
fn requests_go_by_the_notes_places_and_then_near_the_cpu() {
    let (mut served, mut lists) = (Served::default(), 0);
    for seed in seeds(3_000) {
        let mut dice = Dice::new(seed ^ 0x60_B7);
        let mut tables = one_job(&mut dice, seed);
        let places = installed(&mut dice, &mut tables);
        if places.is_empty() {
            continue;
        }
        lists += 1;
        let mut lent = LentTables::new(&tables);
        for _ in 0..60 {
            if !served.request(&mut lent, &tables, &places, dice.below(tables.cpus.len())) {
                break;
            }
        }
        assert_eq!(lent.jobs.now(), tables.jobs, "seed {seed}: a list has no cursor");
    }
    println!("{lists} lists, {served:?}");
    assert!(lists > 600 && served.by_place > 1_000 && served.by_near > 500 && served.refused > 300, "{served:?}");
}

/// The same tables with job's record made the default's, its allowed set kept.
fn by_default(tables: &Tables, job: usize) -> Tables {
    let mut record = read(&tables.jobs, job);
    (record.mode, record.length, record.places) = (DEFAULT, 0, [0; 16]);
    let mut default = tables.clone();
    write(&mut default.jobs, job, &record);
    default
}

/// A closing 255 by the library alone: as with a place that is passed over; where that is refused 8, as by default.
#[test]
fn a_closing_255_is_the_places_and_then_the_default() {
    let (mut by_place, mut by_near) = (0, 0);
    for seed in seeds(40_000) {
        let Case { nodes, tables, call } = case(seed);
        let Call::Request { job, .. } = call else { continue };
        let Some(without) = without_closing(&tables, job) else { continue };
        let made = |tables: &Tables| {
            let mut lent = LentTables::new(tables);
            let answer = library_call(nodes, &mut lent, &call);
            (answer, lent.pages, lent.free)
        };
        let (now, passed_over) = (made(&tables), made(&without));
        if passed_over.0 != Answer::Refused(8) {
            assert_eq!(now, passed_over, "seed {seed}");
            by_place += 1;
            continue;
        }
        assert_eq!(now, made(&by_default(&tables, job)), "seed {seed}");
        by_near += 1;
    }
    println!("{by_place} by the places, {by_near} as by default");
    assert!(by_place > 200 && by_near > 100, "{by_place} {by_near}");
}

/// Maps of every good sort and every list: "a place is the node's application number".
#[test]
fn places_name_the_nodes_through_the_map() {
    let mut named = 0;
    for seed in seeds(5_000) {
        let mut dice = Dice::new(seed ^ 0x9A4);
        let (mut tables, nodes) = (machine_a(), dice.between(1, 64));
        (tables.jobs, tables.counts, tables.maps) = (vec![0; WORDS], vec![0; nodes], vec![0; 64]);
        let sort = dice.pick(&[Sort::Identity, Sort::Permuted, Sort::Part]);
        put_map(&mut dice, &mut tables, 0, sort);
        let names: Vec<Vec<u8>> = (0..nodes).map(|node| format!("NODE{node}").into_bytes()).collect();
        let (map, asked) = (numbers_of(&tables, 0), dice.between(1, 16));
        let wanted: Vec<u8> = (0..asked).map(|_| dice.below(map.len()) as u8).collect();
        let text: Vec<Vec<u8>> =
            wanted.iter().map(|place| names[usize::from(map[usize::from(*place)])].clone()).collect();
        let note = note_of(&laid_out(&text), &[]);
        let (names, sort) = (laid_out(&names), NoteSort::Good);
        let case = NoteCase { nodes, tables, names, sort, note, job: 0, which: 0, room: asked };
        assert_eq!(places_by_both(&format!("seed {seed}"), &case), Ok(wanted), "seed {seed}");
        named += asked;
    }
    assert!(named > 20_000, "{named}");
}
