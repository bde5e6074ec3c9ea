//! M-104's notes as one table: the bytes of a note, its names, and the places that each of its lists becomes.
//!
//! This crate runs the table on the second implementation; `hosts` runs it on the linked library too.

use crate::maps::map_with;

/// A note, and what it must give on a machine of four nodes: its names, none if it is bad; the places of the text and of the
/// data list for a job with this map, or the refusal.
#[derive(Clone, Debug, PartialEq, Eq)]
pub struct NoteExample {
    pub why: &'static str,
    pub note: Vec<u8>,
    pub map: Vec<u8>,
    pub names: Vec<&'static str>,
    pub places: [Result<Vec<u8>, u8>; 2],
}

/// The names of the four nodes; the first and the last have the same.
pub const NODE_NAMES: &[u8] = b"SDRAM1\0SDRAM0\0SRAM\0SDRAM1\0";
/// How many nodes.
pub const NODES: usize = 4;
/// The example of document 004: "text SRAM SDRAM0 ANY data SDRAM1".
pub const BASH: &[u8] = b"\x03\0\0\0\x10\0\0\0\x01\0\0\0\x07\0\0\0SRAM\0SDRAM0\0ANY\0SDRAM1\0";

/// The bytes of a note with these four counts.
fn note(counts: [u8; 4], strings: &str) -> Vec<u8> {
    [counts.map(|count| [count, 0, 0, 0]).concat(), strings.as_bytes().to_vec()].concat()
}

/// A good note.
fn good(why: &'static str, note: Vec<u8>, map: &[u8], names: &[&'static str], text: &[u8], data: &[u8]) -> NoteExample {
    let places = [Ok(text.to_vec()), Ok(data.to_vec())];
    NoteExample { why, note, map: map_with(map), names: names.to_vec(), places }
}

/// A bad note: no name, and 16 for both lists.
fn bad(why: &'static str, note: Vec<u8>) -> NoteExample {
    NoteExample { why, note, map: map_with(&[0, 1, 2, 3]), names: Vec::new(), places: [Err(16), Err(16)] }
}

/// Every example of notes.
pub fn notes() -> Vec<NoteExample> {
    [good_notes(), bad_lists(), bad_sizes()].concat()
}

/// Notes that are good, by several maps.
fn good_notes() -> Vec<NoteExample> {
    let bash = ["SRAM", "SDRAM0", "ANY", "SDRAM1"];
    let all = [0, 1, 2, 3];
    let many = "SRAM\0".repeat(15) + "ANY\0";
    vec![
        good("document 004's", BASH.to_vec(), &all, &bash, &[2, 1, 255], &[0]),
        good("places are application numbers", BASH.to_vec(), &[3, 2, 1, 0], &bash, &[1, 2, 255], &[3]),
        good("the first match counts, in the map or not", BASH.to_vec(), &[3, 2, 1], &bash, &[1, 2, 255], &[]),
        good("an unknown name drops the whole list", BASH.to_vec(), &[2, 3, 0], &bash, &[], &[2]),
        good("no names: both lists drop", vec![0; 16], &all, &[], &[], &[]),
        good("ANY alone", note([1, 4, 0, 0], "ANY\0"), &[2], &["ANY"], &[255], &[]),
        good(
            "ANY last in both lists",
            note([1, 4, 2, 9], "ANY\0SRAM\0ANY\0"),
            &all,
            &["ANY", "SRAM", "ANY"],
            &[255],
            &[2, 255],
        ),
        good("a name twice", note([0, 0, 2, 10], "SRAM\0SRAM\0"), &all, &["SRAM", "SRAM"], &[], &[2, 2]),
        good("nearly a reserved name", note([2, 9, 0, 0], "Any\0TEXT\0"), &all, &["Any", "TEXT"], &[], &[]),
        good("case matters", note([1, 5, 1, 5], "sram\0SRAM\0"), &all, &["sram", "SRAM"], &[], &[2]),
        good("a name is no part of another", note([1, 4, 1, 6], "SRA\0SRAMS\0"), &all, &["SRA", "SRAMS"], &[], &[]),
        good("15 bytes", note([1, 16, 0, 0], "123456789012345\0"), &all, &["123456789012345"], &[], &[]),
        good(
            "16 names, ANY counted",
            note([16, 79, 0, 0], &many),
            &all,
            &[&["SRAM"; 15][..], &["ANY"]].concat(),
            &[&[2; 15][..], &[255]].concat(),
            &[],
        ),
    ]
}

/// Notes that one bad list makes bad, both lists alike.
fn bad_lists() -> Vec<NoteExample> {
    vec![
        bad("ANY in the middle", note([3, 14, 0, 0], "SRAM\0ANY\0SRAM\0")),
        bad("ANY first", note([1, 5, 2, 9], "SRAM\0ANY\0SRAM\0")),
        bad("ANY twice", note([2, 8, 0, 0], "ANY\0ANY\0")),
        bad("ANY first, where the lists part elsewhere", note([2, 12, 2, 11], "SRAM\0SDRAM0\0ANY\0SDRAM1\0")),
        bad("text", note([1, 5, 1, 5], "text\0SRAM\0")),
        bad("data", note([1, 5, 1, 5], "SRAM\0data\0")),
        bad("any", note([2, 9, 0, 0], "SRAM\0any\0")),
        bad("a name of 16 bytes", note([1, 17, 0, 0], "1234567890123456\0")),
        bad("a name of no byte", note([1, 1, 0, 0], "\0")),
        bad("a name of no byte between two", note([3, 5, 0, 0], "A\0\0B\0")),
        bad("17 names", note([17, 85, 0, 0], &"SRAM\0".repeat(17))),
        bad("16 names and ANY", note([0, 0, 17, 84], &("SRAM\0".repeat(16) + "ANY\0"))),
    ]
}

/// Notes whose counts and sizes do not fit exactly.
fn bad_sizes() -> Vec<NoteExample> {
    let bash = |at: usize, byte: u8| {
        let mut note = BASH.to_vec();
        note[at] = byte;
        note
    };
    vec![
        bad("nothing", Vec::new()),
        bad("fifteen bytes", vec![0; 15]),
        bad("a byte after the last string", vec![0; 17]),
        bad("a zero after the last string", [BASH, &[0]].concat()),
        bad("a name after the last string", [BASH, b"A\0"].concat()),
        bad("a byte short", BASH[..BASH.len() - 1].to_vec()),
        bad("a text name too few", bash(0, 2)),
        bad("a text name too many", bash(0, 4)),
        bad("a data name too few", bash(8, 0)),
        bad("a data name too many", bash(8, 2)),
        bad("2^24 text names too many", bash(3, 1)),
        bad("a text byte too many", bash(4, 17)),
        bad("a data byte too few", bash(12, 6)),
        bad("the lists part inside a name", note([3, 17, 1, 6], "SRAM\0SDRAM0\0ANY\0SDRAM1\0")),
        bad("the lists part before a zero", note([3, 15, 1, 8], "SRAM\0SDRAM0\0ANY\0SDRAM1\0")),
        bad("no zero at the end", bash(BASH.len() - 1, b'X')),
        bad("sizes that wrap at 2^32", [&[0, 0, 0, 0, 0xF0, 0xFF, 0xFF, 0xFF, 0, 0, 0, 0, 0x10, 0, 0, 0][..]].concat()),
        bad("2^32-1 of everything", vec![0xFF; 16]),
        bad("2^32-1 names of no bytes", [[0xFF; 4], [0; 4], [0xFF; 4], [0; 4]].concat()),
    ]
}

#[cfg(test)]
mod tests {
    use super::*;
    use crate::notes::{name, note_places, Part};

    #[test]
    fn every_example_of_notes() {
        for NoteExample { why, note, map, names, places } in notes() {
            for (k, one) in names.iter().enumerate() {
                let Part { start, len } = name(&note, k);
                assert_eq!(&note[start..start + len], one.as_bytes(), "{why}: name {k}");
            }
            assert_eq!(name(&note, names.len()), Part::default(), "{why}");
            for (which, expected) in places.into_iter().enumerate() {
                let mut out = [0xA5; 17];
                let found = note_places(NODES, &[0; 6], &map, NODE_NAMES, &note, 0, which as u64, &mut out);
                assert_eq!(found.map(|length| out[..length].to_vec()), expected, "{why}: list {which}");
                assert!(out[found.unwrap_or(0)..].iter().all(|byte| *byte == 0xA5), "{why}: list {which}");
            }
        }
    }
}
