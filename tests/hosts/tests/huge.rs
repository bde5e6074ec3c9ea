//! Lengths are tested before contents: tables far too long are refused at once.

use std::time::{Duration, Instant};

use reference::calls::{request, Answer, Tables};
use reference::drain::drain;
use reference::examples::machine_a;
use reference::reasons::write_reasons;
use spirerivet::{AppNode, Order, Refusal, SysNode};

/// Zero bytes that nobody has touched: the system has not even made room for them.
const HUGE: usize = 1 << 28;
/// Bytes of one name: to read them all takes ten milliseconds or more.
const LONG_NAME: usize = 1 << 26;
/// Calls of each sort, and the time they may take together.
const CALLS: usize = 20;
const MOST: Duration = Duration::from_secs(2);
/// The quickest of them, which no other work on the machine slows down; reading all bytes takes five or more.
const QUICKEST: Duration = Duration::from_millis(1);

/// The answer of a call on tables that break the rules.
const REFUSED: spirerivet::Answer = spirerivet::Answer::Refused(Refusal::BadTables);
const BAD_MAP: spirerivet::Answer = spirerivet::Answer::Refused(Refusal::BadMap);

/// Makes a call twenty times and asserts that it is done at once.
fn at_once(told: &str, mut call: impl FnMut()) {
    let mut took = Vec::new();
    for _ in 0..CALLS {
        let from = Instant::now();
        call();
        took.push(from.elapsed());
    }
    let total: Duration = took.iter().sum();
    assert!(total < MOST, "{told}: {CALLS} calls took {total:?}");
    let quickest = took.into_iter().min().expect("calls were made");
    println!("{told}: {CALLS} calls in {total:?}, the quickest in {quickest:?}");
    assert!(quickest < QUICKEST, "{told}: the quickest of {CALLS} calls took {quickest:?}: contents before lengths");
}

/// A request on these tables is refused 1 by both, at once, and changes nothing.
fn request_refused(told: &str, tables: Tables) {
    let Tables { counts, cpus, distances, mut pages, mut jobs, mut free, maps } = tables;
    let pages_before = pages.clone();
    let jobs_before = jobs.clone();
    let expected = request(&counts, &cpus, &distances, &mut pages, &mut jobs, &mut free, &maps, 0, 0);
    assert_eq!(expected, Answer::Refused(1), "{told}");
    at_once(told, || {
        let found = spirerivet::request(&counts, &cpus, &distances, &mut pages, &mut jobs, &mut free, &maps, 0, 0);
        assert_eq!(found, REFUSED, "{told}");
    });
    assert_eq!(pages, pages_before, "{told}");
    assert_eq!(jobs, jobs_before, "{told}");
}

#[test]
fn a_huge_cpu_table_is_refused_at_once() {
    request_refused("CPU table", Tables { cpus: vec![0; HUGE], ..machine_a() });
}

#[test]
fn other_huge_tables_are_refused_at_once() {
    request_refused("page counts", Tables { counts: vec![0; HUGE / 4], free: vec![0; HUGE / 4], ..machine_a() });
    request_refused("distances", Tables { distances: vec![0; HUGE], ..machine_a() });
}

#[test]
fn a_huge_job_table_is_refused_at_once() {
    let Tables { counts, cpus, distances, mut pages, mut free, maps, .. } = machine_a();
    let mut jobs = vec![0; HUGE / 48 * 6];
    at_once("job table", || {
        let found = spirerivet::request(&counts, &cpus, &distances, &mut pages, &mut jobs, &mut free, &maps, 0, 0);
        assert_eq!(found, REFUSED);
        assert_eq!(spirerivet::release(&counts, &mut pages, &jobs, &mut free, &maps, 0, 0), REFUSED);
        assert_eq!(spirerivet::clear(4, &mut jobs, 0), REFUSED);
    });
    assert_eq!(pages, [0; 6]);
    assert_eq!(free, [2, 2, 0, 2]);
}

#[test]
fn huge_free_counts_are_refused_at_once() {
    let Tables { counts, cpus, distances, mut pages, mut jobs, mut maps, .. } = machine_a();
    let mut free = vec![0; HUGE / 4];
    pages[0] = 1;
    at_once("free counts", || {
        let found = spirerivet::request(&counts, &cpus, &distances, &mut pages, &mut jobs, &mut free, &maps, 0, 0);
        assert_eq!(found, REFUSED);
        assert_eq!(spirerivet::release(&counts, &mut pages, &jobs, &mut free, &maps, 0, 0), REFUSED);
        assert_eq!(spirerivet::fresh(&counts, &mut pages, &mut free), REFUSED);
        let (pages, jobs, free) = (&mut pages[..], &mut jobs[..], &mut free[..]);
        let ran = spirerivet::replay(&counts, &cpus, &distances, pages, jobs, free, &mut maps, &[], &mut []);
        assert_eq!(ran, Err(Refusal::BadTables));
    });
    assert_eq!(pages, [1, 0, 0, 0, 0, 0]);
    assert_eq!(jobs, machine_a().jobs);
    assert!(free.iter().all(|count| *count == 0));
}

/// As many free counts as page counts, both far too many; and bytes far past the last page, which nothing looks at.
#[test]
fn a_fresh_table_is_refused_and_made_at_once() {
    let mut pages = vec![0; HUGE];
    pages[..8].fill(9);
    let (counts, mut free) = (vec![0; HUGE / 4], vec![0; HUGE / 4]);
    at_once("fresh table of far too many nodes", || {
        assert_eq!(spirerivet::fresh(&counts, &mut pages, &mut free), REFUSED);
    });
    assert_eq!(pages[..8], [9; 8]);
    let mut free = [0; 4];
    at_once("fresh table in far too many bytes", || {
        assert_eq!(spirerivet::fresh(&machine_a().counts, &mut pages, &mut free), spirerivet::Answer::Done);
    });
    assert_eq!(pages[..9], [0, 0, 0, 0, 0, 0, 9, 9, 0]);
    assert_eq!(free, [2, 2, 0, 2]);
}

/// Far too many distances, for four nodes and as the square of far too many; and far more output than an order fills.
#[test]
fn an_order_is_refused_and_listed_at_once() {
    let (distances, mut out) = (vec![0; HUGE], vec![0; HUGE]);
    at_once("near(x) of far too many distances", || {
        for nodes in [4, 1 << 14] {
            assert_eq!(spirerivet::near(nodes, &distances, 0b1111, 2, &mut out), Err(Refusal::BadTables));
        }
    });
    at_once("near(x) into far too many bytes", || {
        let found = spirerivet::near(4, &machine_a().distances, 0b1111, 2, &mut out);
        assert_eq!(found, Ok(Order { nodes: 4, rounds: 7 }));
    });
    assert_eq!(out[..5], [2, 0, 3, 1, 0]);
}

#[test]
fn huge_texts_and_lists_are_refused_at_once() {
    let bytes = vec![0; HUGE];
    let Tables { mut jobs, mut maps, .. } = machine_a();
    at_once("text, places and nodes", || {
        assert_eq!(spirerivet::read_nodes(64, 0, &bytes), Err(Refusal::BadText));
        let places = AppNode::list(&bytes);
        let found = spirerivet::install(4, &mut jobs, &maps, 0, spirerivet::mode::RING, 0, 0, places);
        assert_eq!(found, spirerivet::Answer::Refused(Refusal::DoesNotFit));
        assert_eq!(spirerivet::keep_nodes(4, &jobs, &mut maps, 0, places), BAD_MAP);
        assert_eq!(spirerivet::set_map(4, &jobs, &mut maps, 0, SysNode::list(&bytes)), BAD_MAP);
    });
    assert_eq!((jobs, maps), (machine_a().jobs, machine_a().maps));
}

/// Maps far too long, for every call that is lent them.
#[test]
fn huge_maps_are_refused_at_once() {
    let Tables { counts, cpus, distances, mut pages, mut jobs, mut free, .. } = machine_a();
    let mut maps = vec![0; HUGE];
    pages[0] = 1;
    at_once("maps", || {
        let found = spirerivet::request(&counts, &cpus, &distances, &mut pages, &mut jobs, &mut free, &maps, 0, 0);
        assert_eq!(found, REFUSED);
        assert_eq!(spirerivet::release(&counts, &mut pages, &jobs, &mut free, &maps, 0, 0), REFUSED);
        assert_eq!(spirerivet::install(4, &mut jobs, &maps, 0, 0, 0, 0, &[]), REFUSED);
        assert_eq!(spirerivet::keep_nodes(4, &jobs, &mut maps, 0, &[AppNode(0)]), REFUSED);
        assert_eq!(spirerivet::set_map(4, &jobs, &mut maps, 0, &[SysNode(0)]), REFUSED);
        let (pages, jobs, free) = (&mut pages[..], &mut jobs[..], &mut free[..]);
        let ran = spirerivet::replay(&counts, &cpus, &distances, pages, jobs, free, &mut maps, &[], &mut []);
        assert_eq!(ran, Err(Refusal::BadTables));
    });
    assert_eq!(pages, [1, 0, 0, 0, 0, 0]);
    assert_eq!(jobs, machine_a().jobs);
    assert!(maps.iter().all(|byte| *byte == 0));
}

/// The reasons for job 0 from CPU 0.
fn reasons(tables: &Tables, out: &mut [u8]) -> Result<usize, Refusal> {
    let Tables { counts, cpus, distances, pages, jobs, free, maps } = tables;
    spirerivet::reasons(counts, cpus, distances, pages, jobs, free, maps, 0, 0, out)
}

/// Each table of the reasons far too long, with no room for them too; and far more pages and output than they need.
#[test]
fn reasons_are_refused_and_written_at_once() {
    for (told, tables) in [
        ("page counts", Tables { counts: vec![0; HUGE / 4], free: vec![0; HUGE / 4], ..machine_a() }),
        ("CPU table", Tables { cpus: vec![0; HUGE], ..machine_a() }),
        ("distances", Tables { distances: vec![0; HUGE], ..machine_a() }),
        ("job table", Tables { jobs: vec![0; HUGE / 48 * 6], ..machine_a() }),
        ("free counts", Tables { free: vec![0; HUGE / 4], ..machine_a() }),
        ("maps", Tables { maps: vec![0; HUGE], ..machine_a() }),
    ] {
        assert_eq!(write_reasons(&tables, 0, 0, &mut []), Err(1), "{told}");
        at_once(&format!("reasons: {told}"), || {
            assert_eq!(reasons(&tables, &mut []), Err(Refusal::BadTables), "{told}");
        });
    }
    let (tables, mut out) = (Tables { pages: vec![0; HUGE], ..machine_a() }, vec![0; HUGE]);
    at_once("reasons in far too many bytes, of far too many pages", || {
        assert_eq!(reasons(&tables, &mut out), Ok(4));
    });
    assert_eq!(out[..6], [6, 7, 5, 7, 0, 0]);
    assert!(out[4..].iter().all(|byte| *byte == 0));
}

/// A drain of a node of some tables.
fn drained(tables: &mut Tables, node: usize, moves: &mut [u32]) -> Result<usize, Refusal> {
    let Tables { counts, distances, pages, jobs, free, maps, .. } = tables;
    spirerivet::drain(counts, distances, pages, jobs, free, maps, node, moves)
}

/// Each table of a drain far too long, the node none and no room too; and far more pages and room than it needs.
#[test]
fn a_drain_is_refused_and_made_at_once() {
    for (told, mut tables) in [
        ("page counts", Tables { counts: vec![0; HUGE / 4], free: vec![0; HUGE / 4], ..machine_a() }),
        ("distances", Tables { distances: vec![0; HUGE], ..machine_a() }),
        ("job table", Tables { jobs: vec![0; HUGE / 48 * 6], ..machine_a() }),
        ("free counts", Tables { free: vec![0; HUGE / 4], ..machine_a() }),
        ("maps", Tables { maps: vec![0; HUGE], ..machine_a() }),
    ] {
        assert_eq!(drain(&mut tables, 9, &mut []), Err(1), "{told}");
        at_once(&format!("drain: {told}"), || {
            assert_eq!(drained(&mut tables, 9, &mut []), Err(Refusal::BadTables), "{told}");
        });
    }
    let (mut tables, mut moves) = (Tables { pages: vec![0; HUGE], ..machine_a() }, vec![0; HUGE / 4]);
    at_once("drain with far too many pages and far too much room", || {
        (tables.pages[..6].copy_from_slice(&[0, 1, 0, 0, 0, 0]), tables.free = vec![1, 2, 0, 2]);
        assert_eq!(drained(&mut tables, 0, &mut moves), Ok(1));
    });
    assert_eq!((&tables.pages[..8], &moves[..4]), (&[0, 0, 1, 0, 0, 0, 0, 0][..], &[1, 2, 0, 0][..]));
    assert!(tables.pages[8..].iter().all(|byte| *byte == 0) && moves[2..].iter().all(|number| *number == 0));
}

/// Notes, lists and tables of names far too long; and far more output than a note fills.
#[test]
fn huge_notes_are_refused_and_written_at_once() {
    let (bytes, mut out) = (vec![0; HUGE], vec![0; HUGE]);
    let long = vec![b'A'; LONG_NAME];
    let mut note_of_it = [1, LONG_NAME as u32, 0, 0].map(u32::to_le_bytes).concat();
    note_of_it.extend(&long);
    let Tables { jobs, maps, .. } = machine_a();
    let (names, note) = (b"A\0B\0C\0D\0", [0; 16]);
    at_once("note, lists and names", || {
        assert!(spirerivet::name(&bytes, 0).is_empty());
        let places = |names: &[u8], note: &[u8]| spirerivet::note_places(4, &jobs, &maps, names, note, 0, 0, &mut []);
        assert_eq!(places(&bytes, &note), Err(Refusal::BadTables));
        assert_eq!(places(names, &bytes), Err(Refusal::BadNote));
        assert_eq!(places(names, &note), Ok(0));
        assert_eq!(spirerivet::write_note(&bytes, &[], &mut []), Err(Refusal::BadNote));
        assert_eq!(spirerivet::write_note(&[], &bytes, &mut []), Err(Refusal::BadNote));
    });
    at_once("a name without an end", || {
        assert!(spirerivet::name(&note_of_it, 0).is_empty());
        let places = |names: &[u8], note: &[u8]| spirerivet::note_places(4, &jobs, &maps, names, note, 0, 0, &mut []);
        assert_eq!(places(&long, &note), Err(Refusal::BadTables));
        assert_eq!(places(names, &note_of_it), Err(Refusal::BadNote));
        assert_eq!(spirerivet::write_note(&long, &[], &mut []), Err(Refusal::BadNote));
        assert_eq!(spirerivet::write_note(&[], &long, &mut []), Err(Refusal::BadNote));
    });
    at_once("a note into far too many bytes", || {
        assert_eq!(spirerivet::write_note(b"A\0", b"ANY\0", &mut out), Ok(22));
    });
    assert_eq!(&out[..24], b"\x01\0\0\0\x02\0\0\0\x01\0\0\0\x04\0\0\0A\0ANY\0\0\0");
    assert!(out[22..].iter().all(|byte| *byte == 0));
}
