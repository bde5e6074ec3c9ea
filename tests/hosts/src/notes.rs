//! Notes read, turned into places and written by both, and compared.

use reference::note_cases::NoteCase;
use reference::notes::Part;
use spirerivet::AppNode;

use crate::lent::Lent;

/// What stands in output bytes before a call.
pub(crate) const BEFORE: u8 = 0xA5;

/// The k-th name by both: which part of the note it is.
pub fn name_by_both(told: &str, note: &[u8], k: usize) -> Part {
    let lent = Lent::new(note, 0);
    let found = spirerivet::name(lent.now(), k);
    let start = found.as_ptr() as usize - lent.now().as_ptr() as usize;
    let part = Part { start, len: found.len() };
    assert_eq!(part, reference::notes::name(note, k), "{told}: name {k} of {} bytes", note.len());
    assert!(lent.is(note), "{told}: name {k}: the note was changed");
    part
}

/// The outcome of a call that writes so many bytes: they are there, and no other was changed.
pub(crate) fn written(told: &str, found: Result<usize, u8>, output: &Lent<u8>, expected: &[u8]) -> Result<Vec<u8>, u8> {
    let length = found.unwrap_or(0);
    assert!(output.is(expected), "{told}: {found:?}: the output differs");
    assert!(output.now()[length..].iter().all(|byte| *byte == BEFORE), "{told}: {found:?} changed a byte past the end");
    found.map(|length| output.now()[..length].to_vec())
}

/// The places of a note's list by both, all lent memory compared; gives them.
pub fn places_by_both(told: &str, case: &NoteCase) -> Result<Vec<u8>, u8> {
    let NoteCase { nodes, tables, names, note, job, which, room, .. } = case;
    let (jobs, maps) = (Lent::new(&tables.jobs, 0), Lent::new(&tables.maps, 0xFF));
    let (lent_names, lent_note) = (Lent::new(names, b'A'), Lent::new(note, 0));
    let mut output = Lent::new(&vec![BEFORE; *room], 0x5A);
    let mut out = vec![BEFORE; *room];
    let expected =
        reference::notes::note_places(*nodes, &tables.jobs, &tables.maps, names, note, *job, *which, &mut out);
    let places = AppNode::list_mut(output.now_mut());
    let (names_now, note_now) = (lent_names.now(), lent_note.now());
    let found = spirerivet::note_places(*nodes, jobs.now(), maps.now(), names_now, note_now, *job, *which, places);
    let found = found.map_err(|refusal| refusal.number());
    assert_eq!(found, expected, "{told}: N {nodes} job {job} list {which} room {room}");
    let kept = jobs.is(&tables.jobs) && maps.is(&tables.maps) && lent_names.is(names) && lent_note.is(note);
    assert!(kept, "{told}: {found:?} changed a table that it only reads");
    written(told, found, &output, &out)
}

/// The note of two lists by both; gives it.
pub fn write_note_by_both(told: &str, text: &[u8], data: &[u8], room: usize) -> Result<Vec<u8>, u8> {
    let (lent_text, lent_data) = (Lent::new(text, 0), Lent::new(data, 0));
    let mut output = Lent::new(&vec![BEFORE; room], 0x5A);
    let mut out = vec![BEFORE; room];
    let expected = reference::notes::write_note(text, data, &mut out);
    let found = spirerivet::write_note(lent_text.now(), lent_data.now(), output.now_mut());
    let found = found.map_err(|refusal| refusal.number());
    assert_eq!(found, expected, "{told}: {} and {} bytes, room {room}", text.len(), data.len());
    assert!(lent_text.is(text) && lent_data.is(data), "{told}: {found:?} changed a list");
    written(told, found, &output, &out)
}
