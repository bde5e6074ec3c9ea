//! Every example of document 01, of M-100's free counts, M-103's maps, M-104's closing 255 and notes, M-105's colours, M-106's
//! reasons and M-107's drains, on the linked library, the program and the second implementation, and beside what 01 prints.

use hosts::{
    answer_word, drain_by_both, journal_by_both, library_replay, list_refusal, name_by_both, places_by_both,
    read_by_both, reasons_by_both, words, write_by_both, Both, LentTables, Seen,
};
use reference::calls::Tables;
use reference::drain_cases::DrainCase;
use reference::drain_examples::{drain_examples, DrainExample};
use reference::examples::{all, machine_a, texts, Example, Step, TextExample, ANSWERS_ON_A, JOURNAL_ON_A};
use reference::note_cases::{NoteCase, NoteSort};
use reference::note_examples::{notes, NoteExample, NODES, NODE_NAMES};
use reference::program::output_of;
use reference::reason_cases::ReasonCase;
use reference::reason_examples::{reason_examples, ReasonExample};

/// The journal program, named by SPIRERIVET_PLACER.
fn placer() -> String {
    let placer = std::env::var("SPIRERIVET_PLACER").expect("set SPIRERIVET_PLACER to the journal program's path");
    assert!(std::path::Path::new(&placer).is_file(), "there is no program {placer}");
    placer
}

/// The mask as both write it.
fn written(told: &str, nodes: usize, mask: u64) -> String {
    String::from_utf8(write_by_both(told, nodes, mask, 130).expect("there is room")).expect("plain letters")
}

/// Call by call: both answer as 01 does and leave the same tables, with 01's values in job 0's record; gives the last tables.
fn by_calls(example: &Example, seen: &mut Seen) -> Tables {
    let mut both = Both::new(example.start.counts.len(), example.start.clone());
    for (turn, step) in example.steps.iter().enumerate() {
        let told = format!("{}: step {turn}", example.name);
        if let Step::Call(call, answer) = step {
            assert_eq!(both.call(call, seen), Ok(*answer), "{told}");
        }
        let (jobs, free, maps) = (both.lent.jobs.now(), both.lent.free.now(), both.lent.maps.now());
        match step {
            Step::Call(..) => {}
            Step::Cursor(field) => assert_eq!(jobs[0] >> 24, *field, "{told}"),
            Step::Effective(mask, text) => {
                assert_eq!(jobs[3], *mask, "{told}");
                assert_eq!(written(&told, both.nodes, jobs[3]), *text, "{told}");
            }
            Step::Record(words) => assert_eq!(jobs[..6], *words, "{told}"),
            Step::Free(counts) => assert_eq!(free, *counts, "{told}"),
            Step::Map(bytes) => assert_eq!(maps[..64], *bytes, "{told}"),
        }
    }
    both.tables
}

/// As one list of calls: the library's replay gives the same answers and tables.
fn by_replay(example: &Example, after: &Tables) {
    let list: Vec<u64> = example.calls().iter().flat_map(|(call, _)| words(call)).collect();
    let wanted: Vec<u64> = example.calls().iter().map(|(_, answer)| answer_word(*answer)).collect();
    let mut answers = vec![0; wanted.len()];
    let mut lent = LentTables::new(&example.start);
    let ran = library_replay(&mut lent, &list, &mut answers);
    if list_refusal(&example.start, &list, wanted.len()) == Some(1) {
        assert_eq!((ran, lent.difference(&example.start)), (Err(1), None), "{}: replay", example.name);
        return;
    }
    assert_eq!(ran, Ok(wanted.len()), "{}: replay", example.name);
    assert_eq!(answers, wanted, "{}: replay", example.name);
    assert_eq!(lent.difference(after), None, "{}: replay", example.name);
}

/// As a journal: the program, the library's journal call and the second implementation all write 01's answers.
fn by_journal(placer: &str, told: &str, journal: &[u8], answers: &[u8]) {
    assert_eq!(output_of(placer, journal).as_deref(), Ok(answers), "{told}: the program");
    let found = journal_by_both(told, journal, answers.len());
    assert_eq!(found.as_deref(), Ok(answers), "{told}: the journal call");
}

/// Read by both as 01 reads it, and written back by both.
fn by_text(example: TextExample) {
    let TextExample { nodes, allowed, text, outcome } = example;
    assert_eq!(read_by_both(text, nodes, allowed, text.as_bytes()), outcome.map(|(mask, _)| mask), "{text}");
    if let Ok((mask, back)) = outcome {
        assert_eq!(written(text, nodes, mask), back, "{text}");
        assert_eq!(read_by_both(back, nodes, 0, back.as_bytes()), Ok(mask), "{back}");
    }
}

/// Its names by both, and the places of both its lists, as the table says.
fn by_note(example: NoteExample) {
    let NoteExample { why, note, map, names, places } = example;
    for k in 0..=names.len() {
        let part = name_by_both(why, &note, k);
        let name = names.get(k).map_or(&[][..], |name| name.as_bytes());
        assert_eq!(&note[part.start..part.start + part.len], name, "{why}: name {k}");
    }
    let (nodes, names, sort, job, room) = (NODES, NODE_NAMES.to_vec(), NoteSort::Good, 0, 16);
    let tables = Tables { jobs: vec![0; 6], maps: map, ..machine_a() };
    for (which, expected) in places.into_iter().enumerate() {
        let (tables, names, note, which) = (tables.clone(), names.clone(), note.clone(), which as u64);
        let case = NoteCase { nodes, tables, names, sort, note, job, which, room };
        assert_eq!(places_by_both(why, &case), expected, "{why}: list {which}");
    }
}

#[test]
fn every_example_of_notes() {
    let (good, bad): (Vec<NoteExample>, _) = notes().into_iter().partition(|example| example.places[0].is_ok());
    assert!(good.len() > 10 && bad.len() > 25, "{} good notes, {} bad", good.len(), bad.len());
    good.into_iter().chain(bad).for_each(by_note);
}

#[test]
fn every_example_of_reasons() {
    let (written, refused): (Vec<ReasonExample>, _) =
        reason_examples().into_iter().partition(|example| example.outcome.is_ok());
    assert!(written.len() > 60 && refused.len() > 12, "{} written, {} refused", written.len(), refused.len());
    for ReasonExample { why, tables, job, cpu, room, outcome } in written.into_iter().chain(refused) {
        assert_eq!(reasons_by_both(why, &ReasonCase { tables, job, cpu, room }), outcome, "{why}");
    }
}

#[test]
fn every_example_of_drains() {
    let (done, refused): (Vec<DrainExample>, _) =
        drain_examples().into_iter().partition(|example| example.outcome.is_ok());
    assert!(done.len() > 40 && refused.len() > 35, "{} done, {} refused", done.len(), refused.len());
    for DrainExample { why, tables, node, room, outcome } in done.into_iter().chain(refused) {
        assert_eq!(drain_by_both(why, &DrainCase { tables, node, room }), outcome, "{why}");
    }
}

#[test]
fn every_example_of_document_01() {
    let placer = placer();
    let mut seen = Seen::default();
    let mut journals = 0;
    for example in all() {
        let after = by_calls(&example, &mut seen);
        by_replay(&example, &after);
        if let Some((journal, answers)) = example.journal() {
            by_journal(&placer, &example.name, &journal, &answers);
            journals += 1;
        }
    }
    by_journal(&placer, "journal on A", &JOURNAL_ON_A, &ANSWERS_ON_A);
    texts().into_iter().for_each(by_text);
    println!("{} examples of calls, {journals} of them as journals; {} texts; {seen:?}", all().len(), texts().len());
    // Node 63 does not fit a journal, nor do free counts that are wrong at the start, a record handed in, maps, a page table
    // handed in and drains: six examples, twelve, six, 27, three and five.
    assert_eq!(journals, all().len() - 6 - 12 - 6 - 27 - 3 - 5);
    assert!(seen.granted > 100 && seen.released > 5 && seen.refused[6] == 25 && seen.refused[8] > 15, "{seen:?}");
    assert!(seen.drained == 6 && seen.refused[17] == 2, "{seen:?}");
    assert!(seen.refused[14] > 5 && seen.refused[15] > 30, "{seen:?}");
}
