//! The .memtypes note of source document 004, "from the four counts onward": read, turned into places, written (M-104).
//!
//! Names are found by the zeros that end them, and not by walking from one to the next.

use crate::machine::policy_tables_fit;
use crate::maps::{application_node, is_good, map_of, maps_fit};
use crate::record::{CLOSING, WORDS};

/// "the four counts", 32 bits each, before the strings (M-104).
pub const HEAD: usize = 16;
/// "Names are 1 to 15 bytes" (M-104).
pub const LONGEST_NAME: usize = 15;
/// "A list of over 16 names, ANY counted, is bad" (M-104).
pub const MOST_NAMES: usize = 16;
/// "ANY is allowed only as the last of a list" (M-104).
pub const ANY: &[u8] = b"ANY";
/// Names "may not be text, data or any" (M-104).
pub const RESERVED: [&[u8]; 3] = [b"text", b"data", b"any"];

/// "that part of the caller's own bytes": where it starts, and its length; 0 and 0 for "an empty part" (M-104).
#[derive(Clone, Copy, Debug, Default, PartialEq, Eq)]
pub struct Part {
    pub start: usize,
    pub len: usize,
}

/// The places of the zeros.
fn zeros(bytes: &[u8]) -> Vec<usize> {
    (0..bytes.len()).filter(|at| bytes[*at] == 0).collect()
}

/// The strings that fill these bytes, each without its zero; none if the last one has no zero (M-104).
pub fn strings(bytes: &[u8]) -> Option<Vec<&[u8]>> {
    let ends = zeros(bytes);
    if ends.last().map_or(0, |last| last + 1) != bytes.len() {
        return None;
    }
    Some(bytes.split(|byte| *byte == 0).take(ends.len()).collect())
}

/// "Names are 1 to 15 bytes and may not be text, data or any" (M-104); ANY may be one here.
fn is_name(name: &[u8]) -> bool {
    (1..=LONGEST_NAME).contains(&name.len()) && !RESERVED.contains(&name)
}

/// The names of a list, laid out with their zeros, end to end; none if it is bad (M-104).
///
/// "ANY is allowed only as the last of a list"; "A list of over 16 names, ANY counted, is bad".
pub fn list_names(bytes: &[u8]) -> Option<Vec<&[u8]>> {
    let names = strings(bytes)?;
    let before_last = &names[..names.len().saturating_sub(1)];
    let good = names.len() <= MOST_NAMES && names.iter().all(|name| is_name(name)) && !before_last.contains(&ANY);
    good.then_some(names)
}

/// "A table of N such names with their zeros, end to end, no ANY" (M-104).
pub fn table_names(nodes: usize, bytes: &[u8]) -> Option<Vec<&[u8]>> {
    let names = strings(bytes)?;
    let good = names.len() == nodes && names.iter().all(|name| is_name(name) && *name != ANY);
    good.then_some(names)
}

/// One of the four counts, "little-endian 32-bit" (M-104); wide enough for every sum of them.
fn count(note: &[u8], which: usize) -> u128 {
    (0..4).rev().fold(0, |number, byte| number * 256 + u128::from(note[4 * which + byte]))
}

/// A list of a note: as many names as its count says.
fn counted_names(how_many: u128, bytes: &[u8]) -> Option<Vec<&[u8]>> {
    list_names(bytes).filter(|names| names.len() as u128 == how_many)
}

/// The text and the data list of a good note; none if it is bad: "counts and sizes must fit exactly" (M-104).
pub fn lists(note: &[u8]) -> Option<[Vec<&[u8]>; 2]> {
    if note.len() < HEAD {
        return None;
    }
    let [texts, text_size, datas, data_size] = [0, 1, 2, 3].map(|which| count(note, which));
    let all = &note[HEAD..];
    if text_size + data_size != all.len() as u128 {
        return None;
    }
    let (text, data) = all.split_at(text_size as usize);
    Some([counted_names(texts, text)?, counted_names(datas, data)?])
}

/// "The k-th name, k from 0 and text before data"; "an empty part if the note is bad or has no such name" (M-104).
pub fn name(note: &[u8], k: usize) -> Part {
    if lists(note).is_none() {
        return Part::default();
    }
    let ends = zeros(&note[HEAD..]);
    match ends.get(k) {
        None => Part::default(),
        Some(end) => {
            let before = if k == 0 { 0 } else { ends[k - 1] + 1 };
            Part { start: HEAD + before, len: end - before }
        }
    }
}

/// The place of a name: "the first match counting and ANY becoming 255"; "a place is the node's application number, a first
/// match outside the map counting as an unknown name" (M-104).
fn place(table: &[&[u8]], map: &[u8], name: &[u8]) -> Option<u8> {
    if name == ANY {
        return Some(CLOSING);
    }
    let node = table.iter().position(|one| *one == name)?;
    application_node(map, node).map(|number| number.0)
}

/// Turns a list of a note, 0 the text list, else the data list, into places; gives how many: refusals in the order 1, 2, 15,
/// 16, 11 (M-104).
///
/// "An empty list or an unknown name drops that whole list to default": no place then, which needs no room.
pub fn note_places(
    nodes: usize,
    jobs: &[u64],
    maps: &[u8],
    names: &[u8],
    note: &[u8],
    job: usize,
    which: u64,
    out: &mut [u8],
) -> Result<usize, u8> {
    if !policy_tables_fit(nodes, jobs) || !maps_fit(jobs, maps) {
        return Err(1);
    }
    let table = table_names(nodes, names).ok_or(1)?;
    if job >= jobs.len() / WORDS {
        return Err(2);
    }
    let map = map_of(maps, job);
    if !is_good(nodes, map) {
        return Err(15);
    }
    let [text, data] = lists(note).ok_or(16)?;
    let list = if which == 0 { text } else { data };
    let places: Option<Vec<u8>> = list.iter().map(|name| place(&table, map, name)).collect();
    put(&places.unwrap_or_default(), out)
}

/// "a short output 11"; "no output changes past what is written" (M-104).
fn put(bytes: &[u8], out: &mut [u8]) -> Result<usize, u8> {
    out.get_mut(..bytes.len()).ok_or(11)?.copy_from_slice(bytes);
    Ok(bytes.len())
}

/// Writes the note "from a text and a data list each laid out like the table"; gives its length: refusals in the order 16, 11
/// (M-104).
pub fn write_note(text: &[u8], data: &[u8], out: &mut [u8]) -> Result<usize, u8> {
    let (texts, datas) = (list_names(text).ok_or(16)?, list_names(data).ok_or(16)?);
    let counts = [texts.len(), text.len(), datas.len(), data.len()];
    let head = counts.map(|count| (count as u32).to_le_bytes()).concat();
    put(&[&head, text, data].concat(), out)
}

#[cfg(test)]
mod tests {
    use super::*;
    use crate::maps::map_with;
    use crate::note_examples::BASH;

    /// Names with their zeros, end to end.
    fn laid_out(names: &[&str]) -> Vec<u8> {
        names.iter().flat_map(|name| [name.as_bytes(), &[0]].concat()).collect()
    }

    /// A note of these lists as the writer has it.
    fn note_of(text: &[&str], data: &[&str]) -> Vec<u8> {
        let mut out = [0; 1_000];
        let length = write_note(&laid_out(text), &laid_out(data), &mut out).expect("good lists");
        out[..length].to_vec()
    }

    #[test]
    fn the_example_of_document_004() {
        assert_eq!(note_of(&["SRAM", "SDRAM0", "ANY"], &["SDRAM1"]), BASH);
        let parts = [(16, 4), (21, 6), (28, 3), (32, 6), (0, 0), (0, 0)];
        for (k, (start, len)) in parts.into_iter().enumerate() {
            assert_eq!(name(BASH, k), Part { start, len }, "name {k}");
        }
        for k in [usize::MAX, 1 << 32, 1 << 63] {
            assert_eq!(name(BASH, k), Part::default());
        }
        let table = laid_out(&["SDRAM1", "SDRAM0", "SRAM", "SDRAM1"]);
        let places = |map: &[u8], which| {
            let mut out = [7; 5];
            let how_many = note_places(4, &[u64::MAX; 6], &map_with(map), &table, BASH, 0, which, &mut out);
            (how_many, out)
        };
        assert_eq!(places(&[0, 1, 2, 3], 0), (Ok(3), [2, 1, 255, 7, 7]));
        assert_eq!(places(&[0, 1, 2, 3], 1), (Ok(1), [0, 7, 7, 7, 7]));
        assert_eq!(places(&[2, 3, 1], u64::MAX), (Ok(0), [7; 5]), "the first match counts");
        assert_eq!(places(&[2, 3, 1], 0), (Ok(3), [0, 2, 255, 7, 7]));
        assert_eq!(places(&[2], 0), (Ok(0), [7; 5]), "an unknown name drops the whole list");
    }

    #[test]
    fn sizes_that_wrap_are_bad() {
        // 16 and 7 bytes by sums that leave out a carry at 2^32.
        for (text, data) in [(0xFFFF_FFF0u32, 0x27u32), (0x8000_0000, 0x8000_0017), (0xFFFF_FFFF, 24), (0, 23), (23, 0)]
        {
            let mut note = BASH.to_vec();
            note[4..8].copy_from_slice(&text.to_le_bytes());
            note[12..16].copy_from_slice(&data.to_le_bytes());
            assert_eq!(lists(&note), None, "{text} {data}");
        }
        let mut most = [0xFF; 16];
        assert_eq!(lists(&most), None);
        most[4..8].fill(0);
        most[12..].fill(0);
        assert_eq!(lists(&most), None, "2^32-1 strings in no bytes");
    }

    /// The lists that the writer takes, and that make no note bad.
    #[test]
    fn good_and_bad_lists() {
        let longest = "123456789012345";
        let sixteen = ["a"; 16];
        for names in
            [&[][..], &["ANY"], &["A", "ANY"], &["A", "A"], &[longest], &sixteen, &["Any", "TEXT", "Data", "texts"]]
        {
            assert!(list_names(&laid_out(names)).is_some(), "{names:?}");
        }
        let long = "1234567890123456";
        let seventeen = ["a"; 17];
        let with_any = [&sixteen[..], &["ANY"]].concat();
        let bad =
            [&[""][..], &["A", "", "B"], &[long], &["text"], &["A", "data"], &["any"], &["ANY", "A"], &["ANY", "ANY"]];
        for names in bad.into_iter().chain([&seventeen[..], &with_any]) {
            assert_eq!(list_names(&laid_out(names)), None, "{names:?}");
            assert_eq!(write_note(&laid_out(names), &[], &mut [0; 400]), Err(16));
            assert_eq!(write_note(&[], &laid_out(names), &mut []), Err(16));
        }
        assert_eq!(list_names(b"A\0B"), None, "no zero at the end");
        assert_eq!(list_names(b"A"), None);
        assert_eq!(list_names(b"\xFF\0"), Some(vec![&b"\xFF"[..]]), "any bytes");
    }

    #[test]
    fn name_tables() {
        let good = |nodes, names: &[&str]| table_names(nodes, &laid_out(names)).is_some();
        assert!(good(2, &["A", "B"]) && good(2, &["A", "A"]) && good(1, &["123456789012345"]));
        assert!(!good(2, &["A"]) && !good(1, &["A", "B"]) && !good(1, &[]));
        assert!(
            !good(2, &["A", "ANY"]) && !good(1, &["ANY"]) && !good(1, &["text"]) && !good(1, &["1234567890123456"])
        );
        assert!(!good(2, &["A", ""]) && good(64, &["A"; 64]));
        assert_eq!(table_names(1, b"A"), None);
        assert_eq!(table_names(1, b""), None);
    }

    #[test]
    fn refusals_in_their_order() {
        let (jobs, table) = ([0; 12], laid_out(&["A", "B"]));
        let maps = [map_with(&[0, 1]), map_with(&[1, 1])].concat();
        let note = note_of(&["B", "A"], &[]);
        let ask = |nodes, jobs: &[u64], maps: &[u8], names: &[u8], note: &[u8], job, room: usize| {
            let mut out = vec![7; room];
            let answer = note_places(nodes, jobs, maps, names, note, job, 0, &mut out);
            assert!(answer.is_ok() || out == vec![7; room]);
            answer
        };
        for nodes in [0, 1, 3, 65, usize::MAX] {
            assert_eq!(ask(nodes, &jobs, &maps, &table, b"", 2, 0), Err(1), "N {nodes}");
        }
        for words in [0, 6, 11, 13, 18, 65 * 6] {
            assert_eq!(ask(2, &vec![0; words], &maps, &table, b"", 2, 0), Err(1), "{words} words");
        }
        assert_eq!(ask(2, &jobs, &maps[1..], &table, b"", 2, 0), Err(1));
        assert_eq!(ask(2, &jobs, &maps, &table[1..], b"", 2, 0), Err(1));
        assert_eq!(ask(2, &jobs, &maps, &laid_out(&["A", "ANY"]), b"", 2, 0), Err(1));
        assert_eq!(ask(2, &jobs, &maps, &table, b"", 2, 0), Err(2));
        assert_eq!(ask(2, &jobs, &maps, &table, b"", usize::MAX, 0), Err(2));
        assert_eq!(ask(2, &jobs, &maps, &table, b"", 1, 0), Err(15));
        assert_eq!(ask(2, &jobs, &maps, &table, b"", 0, 0), Err(16));
        assert_eq!(ask(2, &jobs, &maps, &table, &note, 0, 1), Err(11));
        assert_eq!(ask(2, &jobs, &maps, &table, &note, 0, 2), Ok(2));
        assert_eq!(ask(2, &jobs, &maps, &table, &note_of(&["C", "A"], &[]), 0, 0), Ok(0));
        assert_eq!(ask(2, &jobs, &maps, &table, &note_of(&[], &["A"]), 0, 0), Ok(0));
        assert_eq!(ask(2, &jobs, &maps, &table, &note_of(&["ANY"], &[]), 0, 0), Err(11));
    }

    #[test]
    fn the_writer_needs_room_for_the_whole_note() {
        let (text, data) = (laid_out(&["SRAM", "SDRAM0", "ANY"]), laid_out(&["SDRAM1"]));
        for room in 0..45 {
            let mut out = vec![0xA5; room];
            let expected = if room < BASH.len() { Err(11) } else { Ok(BASH.len()) };
            assert_eq!(write_note(&text, &data, &mut out), expected);
            let written = expected.unwrap_or(0);
            assert_eq!(out[..written], BASH[..written]);
            assert!(out[written..].iter().all(|byte| *byte == 0xA5));
        }
    }
}
