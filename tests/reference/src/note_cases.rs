//! Made-up notes, lists of names and tables of names, good and bad, from a seed. Nothing here decides a rule of the papers.

use crate::calls::Tables;
use crate::generate::{case, some_job_number, Case, Dice};
use crate::map_cases::{put_map, some_good_sort};
use crate::notes::{ANY, HEAD, LONGEST_NAME, MOST_NAMES, RESERVED};

/// The sorts of lists of names (M-104).
#[derive(Clone, Copy, Debug, PartialEq, Eq, PartialOrd, Ord)]
pub enum ListSort {
    /// No name.
    Empty,
    /// One name or more, ANY among them only as the last.
    Good,
    /// ANY last.
    WithAny,
    /// ANY alone.
    AnyAlone,
    /// Sixteen names.
    Sixteen,
    /// Seventeen names or more, ANY perhaps the last.
    TooMany,
    /// A name of no byte.
    EmptyName,
    /// A name of 16 bytes or more.
    LongName,
    AnyInTheMiddle,
    AnyTwice,
    /// text, data or any.
    Reserved,
    /// The last name has no zero.
    NoZero,
}

/// Every sort of lists; the first five are good.
pub const LIST_SORTS: [ListSort; 12] = [
    ListSort::Empty,
    ListSort::Good,
    ListSort::WithAny,
    ListSort::AnyAlone,
    ListSort::Sixteen,
    ListSort::TooMany,
    ListSort::EmptyName,
    ListSort::LongName,
    ListSort::AnyInTheMiddle,
    ListSort::AnyTwice,
    ListSort::Reserved,
    ListSort::NoZero,
];
const GOOD_LISTS: usize = 5;

impl ListSort {
    /// Whether lists of this sort are good ones.
    pub fn is_good(self) -> bool {
        LIST_SORTS[..GOOD_LISTS].contains(&self)
    }
}

/// The sorts of notes: good, with a bad list, or damaged (M-104).
#[derive(Clone, Copy, Debug, PartialEq, Eq, PartialOrd, Ord)]
pub enum NoteSort {
    Good,
    /// One of its lists, or both, are bad.
    BadList,
    /// A byte changed to another; the note may be good still.
    Changed,
    /// Cut anywhere.
    Cut,
    /// One byte more, or some.
    Longer,
    /// A number of strings that is not that of the list.
    WrongCount,
    /// A size that is not that of the list.
    WrongSize,
    /// The sizes sum up to the right one, but the lists part elsewhere.
    PartedElsewhere,
    /// Sizes that sum up to the right one only without a carry at 2^32, or the largest there are.
    Wrapping,
    /// As many strings as there may be said, or nearly.
    ManyStrings,
    /// Any bytes.
    Noise,
}

/// Every sort of notes; the first is good, the third may be.
pub const NOTE_SORTS: [NoteSort; 11] = [
    NoteSort::Good,
    NoteSort::BadList,
    NoteSort::Changed,
    NoteSort::Cut,
    NoteSort::Longer,
    NoteSort::WrongCount,
    NoteSort::WrongSize,
    NoteSort::PartedElsewhere,
    NoteSort::Wrapping,
    NoteSort::ManyStrings,
    NoteSort::Noise,
];

/// Names that a machine's nodes have, and some that are nearly others.
const USUAL: [&[u8]; 14] = [
    b"SRAM", b"SDRAM0", b"SDRAM1", b"SDRAM", b"FLASH", b"A", b"B", b"Any", b"TEXT", b"texts", b"dat", b"ANYS", b"AN",
    b"S",
];

/// A name that is none of the reserved ones, and not ANY.
fn some_name(dice: &mut Dice) -> Vec<u8> {
    if dice.chance(75) {
        return dice.pick(&USUAL).to_vec();
    }
    let length = dice.pick(&[1, 2, 3, LONGEST_NAME - 1, LONGEST_NAME, LONGEST_NAME]);
    // No letter of the reserved names.
    (0..length).map(|_| dice.pick(&[1, b' ', b'0', b'_', b'Z', 0x7F, 0x80, 0xFE, 0xFF])).collect()
}

/// So many names, of these or of any.
fn some_names(dice: &mut Dice, known: &[Vec<u8>], how_many: usize) -> Vec<Vec<u8>> {
    let mut names = Vec::new();
    for _ in 0..how_many {
        let from_known = !known.is_empty() && dice.chance(90);
        names.push(if from_known { known[dice.below(known.len())].clone() } else { some_name(dice) });
    }
    names
}

/// Names with their zeros, end to end.
pub fn laid_out(names: &[Vec<u8>]) -> Vec<u8> {
    names.iter().flat_map(|name| [&name[..], &[0]].concat()).collect()
}

/// The names of a list of a sort, mostly out of known ones; a last name without its zero is cut elsewhere.
fn names_of_sort(dice: &mut Dice, known: &[Vec<u8>], sort: ListSort) -> Vec<Vec<u8>> {
    let few = dice.pick(&[1, 1, 2, 3, 5, MOST_NAMES - 1]);
    let mut names = some_names(dice, known, few);
    let (at, last) = (dice.below(names.len()), names.len() - 1);
    match sort {
        ListSort::Empty => names.clear(),
        ListSort::Good | ListSort::NoZero => {}
        ListSort::WithAny => names.push(ANY.to_vec()),
        ListSort::AnyAlone => names = vec![ANY.to_vec()],
        ListSort::Sixteen => names = some_names(dice, known, MOST_NAMES),
        ListSort::TooMany => {
            let many = dice.pick(&[16, 16, 17, 40]);
            names = some_names(dice, known, many);
            names.push(if dice.chance(50) { ANY.to_vec() } else { some_name(dice) });
        }
        ListSort::EmptyName => names[at].clear(),
        ListSort::LongName => names[at].resize(dice.pick(&[LONGEST_NAME + 1, LONGEST_NAME + 1, 17, 300]), b'L'),
        ListSort::AnyInTheMiddle => names.insert(at, ANY.to_vec()),
        ListSort::AnyTwice => {
            names[last] = ANY.to_vec();
            names.push(ANY.to_vec());
        }
        ListSort::Reserved => names[at] = dice.pick(&RESERVED).to_vec(),
    }
    names
}

/// A list of a sort as it is laid out.
pub fn list_of_sort(dice: &mut Dice, known: &[Vec<u8>], sort: ListSort) -> Vec<u8> {
    let mut bytes = laid_out(&names_of_sort(dice, known, sort));
    if sort == ListSort::NoZero {
        bytes.pop();
    }
    bytes
}

/// A sort of good lists.
fn some_good_list(dice: &mut Dice) -> ListSort {
    dice.pick(&LIST_SORTS[..GOOD_LISTS])
}

/// A note by its four counts and its bytes.
struct Draft {
    /// Number of text strings, their size, number of data strings, their size.
    counts: [u32; 4],
    bytes: Vec<u8>,
}

impl Draft {
    /// A draft whose counts fit these lists, good or bad; a last string without its zero is counted.
    fn of(text: &[u8], data: &[u8]) -> Draft {
        let strings = |list: &[u8]| {
            let whole = list.iter().filter(|byte| **byte == 0).count();
            whole + usize::from(list.last().is_some_and(|byte| *byte != 0))
        };
        let counts = [strings(text), text.len(), strings(data), data.len()];
        Draft { counts: counts.map(|count| count as u32), bytes: [text, data].concat() }
    }

    /// The note.
    fn note(&self) -> Vec<u8> {
        [self.counts.map(u32::to_le_bytes).concat(), self.bytes.clone()].concat()
    }
}

/// A number that is not this one: near it, or far off.
fn another(dice: &mut Dice, number: u32) -> u32 {
    let far = dice.next() as u32;
    let choices =
        [number.wrapping_add(1), number.wrapping_sub(1), number ^ 1 << 31, number.swap_bytes(), 0, u32::MAX, far];
    match dice.pick(&choices) {
        same if same == number => number.wrapping_add(1),
        other => other,
    }
}

/// Sizes whose sum is right only without a carry, or that are the largest there are.
fn wrapping_sizes(dice: &mut Dice, draft: &mut Draft) {
    let total = draft.bytes.len() as u32;
    let large = dice.pick(&[u32::MAX, 1 << 31, u32::MAX - 15, u32::MAX - 16, total + 1, u32::MAX - total]);
    (draft.counts[1], draft.counts[3]) = match dice.below(4) {
        0 => (large, total.wrapping_sub(large)),
        1 => (total.wrapping_sub(large), large),
        2 => (large, total),
        _ => (u32::MAX, u32::MAX),
    };
}

/// A note with good lists that is damaged as its sort says.
fn damaged_note(dice: &mut Dice, mut draft: Draft, sort: NoteSort) -> Vec<u8> {
    let whole = draft.note();
    let which = dice.below(2);
    match sort {
        NoteSort::Changed => {
            let mut note = whole;
            let at = dice.below(note.len());
            note[at] = dice.pick(&[0, 1, b'A', b'N', 255, note[at].wrapping_add(1), note[at].wrapping_sub(1)]);
            return note;
        }
        NoteSort::Cut => return whole[..dice.below(whole.len())].to_vec(),
        NoteSort::Longer => {
            let more = dice.pick(&[&[0][..], b"A", b"A\0", b"ANY\0", &[0; 16]]);
            return [&whole, more].concat();
        }
        NoteSort::WrongCount => draft.counts[2 * which] = another(dice, draft.counts[2 * which]),
        NoteSort::WrongSize => draft.counts[2 * which + 1] = another(dice, draft.counts[2 * which + 1]),
        NoteSort::PartedElsewhere => {
            let total = draft.bytes.len() as u32 + 1;
            let text = (draft.counts[1] + 1 + dice.below(total.max(2) as usize - 1) as u32) % total.max(2);
            (draft.counts[1], draft.counts[3]) = (text, (total - 1).wrapping_sub(text));
        }
        NoteSort::Wrapping => wrapping_sizes(dice, &mut draft),
        NoteSort::ManyStrings => draft.counts[2 * which] = dice.pick(&[u32::MAX, u32::MAX - 1, 1 << 31, 1 << 16, 17]),
        _ => return (0..dice.pick(&[0, 1, 15, 16, 17, 40])).map(|_| dice.pick(&[0, 0, 0, 1, 2, b'A', 255])).collect(),
    }
    draft.note()
}

/// A note of a sort, its names mostly out of known ones.
pub fn note_of_sort(dice: &mut Dice, known: &[Vec<u8>], sort: NoteSort) -> Vec<u8> {
    let mut sorts = [some_good_list(dice), some_good_list(dice)];
    if sort == NoteSort::BadList {
        let which = dice.below(2);
        sorts[which] = dice.pick(&LIST_SORTS[GOOD_LISTS..]);
        if dice.chance(20) {
            sorts[1 - which] = dice.pick(&LIST_SORTS);
        }
    }
    let [text, data] = sorts.map(|sort| list_of_sort(dice, known, sort));
    let draft = Draft::of(&text, &data);
    match sort {
        NoteSort::Good | NoteSort::BadList => draft.note(),
        _ => damaged_note(dice, draft, sort),
    }
}

/// A note of any sort, and which.
pub fn some_note(dice: &mut Dice, known: &[Vec<u8>]) -> (NoteSort, Vec<u8>) {
    let sort = if dice.chance(40) { NoteSort::Good } else { dice.pick(&NOTE_SORTS) };
    (sort, note_of_sort(dice, known, sort))
}

/// Names for N nodes, some of them the same.
pub fn node_names(dice: &mut Dice, nodes: usize) -> Vec<Vec<u8>> {
    let alike = dice.chance(40);
    let mut names = Vec::new();
    for node in 0..nodes {
        names.push(if alike { some_name(dice) } else { format!("NODE{node}").into_bytes() });
    }
    names
}

/// A table of names that is bad for these names, which are N.
fn bad_table(dice: &mut Dice, mut names: Vec<Vec<u8>>) -> Vec<u8> {
    let at = dice.below(names.len());
    match dice.below(9) {
        0 => drop(names.pop()),
        1 => names.push(some_name(dice)),
        2 => names[at] = ANY.to_vec(),
        3 => names[at].clear(),
        4 => names[at] = dice.pick(&RESERVED).to_vec(),
        5 => names[at] = vec![b'L'; LONGEST_NAME + 1],
        6 => return Vec::new(),
        7 => return [&laid_out(&names), &[0][..]].concat(),
        _ => {
            let mut bytes = laid_out(&names);
            bytes.pop();
            return bytes;
        }
    }
    laid_out(&names)
}

/// A question for the places of a note's list: tables of every sort, a table of names, a note, and the room.
#[derive(Clone, Debug, PartialEq, Eq)]
pub struct NoteCase {
    pub nodes: usize,
    pub tables: Tables,
    pub names: Vec<u8>,
    pub sort: NoteSort,
    pub note: Vec<u8>,
    pub job: usize,
    pub which: u64,
    pub room: usize,
}

/// A question from a seed: mostly a good map, good names and a good note.
pub fn note_case(seed: u64) -> NoteCase {
    let mut dice = Dice::new(seed ^ 0x0073);
    let seed = if seed % 97 == 96 { seed + 1 } else { seed };
    let Case { nodes, mut tables, .. } = case(seed);
    let job = some_job_number(&mut dice, &tables);
    let maps_are_whole = tables.maps.len() == tables.jobs.len() / 6 * 64 && (1..=64).contains(&tables.counts.len());
    if maps_are_whole && job < tables.jobs.len() / 6 && dice.chance(80) {
        let sort = some_good_sort(&mut dice);
        put_map(&mut dice, &mut tables, job, sort);
    }
    let known = node_names(&mut dice, nodes.clamp(1, 64));
    let (sort, note) = some_note(&mut dice, &known);
    let names = if dice.chance(88) { laid_out(&known) } else { bad_table(&mut dice, known) };
    let (which, room) = (dice.pick(&[0, 0, 1, 1, 2, 1 << 32, u64::MAX]), dice.pick(&[0, 1, 2, 3, 15, 16, 16, 17, 64]));
    NoteCase { nodes, tables, names, sort, note, job, which, room }
}

/// Two lists for the writer, their sorts, and the room.
#[derive(Clone, Debug, PartialEq, Eq)]
pub struct WriteNoteCase {
    pub sorts: [ListSort; 2],
    pub text: Vec<u8>,
    pub data: Vec<u8>,
    pub room: usize,
}

/// Two lists from a seed; the room is ample, exact, one too few, or none.
pub fn write_note_case(seed: u64) -> WriteNoteCase {
    let mut dice = Dice::new(seed ^ 0x3217E);
    let sorts = [0, 1].map(|_| if dice.chance(70) { some_good_list(&mut dice) } else { dice.pick(&LIST_SORTS) });
    let [text, data] = sorts.map(|sort| list_of_sort(&mut dice, &[], sort));
    let need = HEAD + text.len() + data.len();
    let any = dice.below(need);
    let room = dice.pick(&[need, need, need + 1, need + 40, need - 1, any, 0, HEAD]);
    WriteNoteCase { sorts, text, data, room }
}

#[cfg(test)]
mod tests {
    use super::*;
    use crate::notes::{list_names, lists, name, note_places, table_names, write_note, Part};
    use std::collections::BTreeMap;

    #[test]
    fn each_sort_of_lists_is_what_its_name_says() {
        let mut dice = Dice::new(104);
        for _ in 0..2_000 {
            for sort in LIST_SORTS {
                let bytes = list_of_sort(&mut dice, &[], sort);
                let names: Vec<&[u8]> = bytes.split(|byte| *byte == 0).collect();
                let names = &names[..names.len() - 1];
                let any = names.iter().filter(|name| **name == ANY).count();
                let fits = match sort {
                    ListSort::Empty => bytes.is_empty(),
                    ListSort::Good => any == 0 && !names.is_empty(),
                    ListSort::WithAny => any == 1 && names.len() > 1 && names.last() == Some(&ANY),
                    ListSort::AnyAlone => names == [ANY],
                    ListSort::Sixteen => names.len() == MOST_NAMES,
                    ListSort::TooMany => names.len() > MOST_NAMES,
                    ListSort::EmptyName => names.contains(&&[][..]),
                    ListSort::LongName => names.iter().any(|name| name.len() > LONGEST_NAME),
                    ListSort::AnyInTheMiddle => any == 1 && names.last() != Some(&ANY),
                    ListSort::AnyTwice => any == 2,
                    ListSort::Reserved => names.iter().any(|name| RESERVED.contains(name)),
                    ListSort::NoZero => bytes.last() != Some(&0),
                };
                assert!(fits, "{sort:?}: {bytes:?}");
                assert_eq!(list_names(&bytes).is_some(), sort.is_good(), "{sort:?}: {bytes:?}");
            }
        }
    }

    #[test]
    fn each_sort_of_notes_is_what_its_name_says() {
        let mut dice = Dice::new(16);
        let mut still_good = 0;
        for turn in 0..4_000 {
            for sort in NOTE_SORTS {
                let note = note_of_sort(&mut dice, &[], sort);
                let good = lists(&note).is_some();
                match sort {
                    NoteSort::Good => assert!(good, "{turn}: {note:?}"),
                    NoteSort::Changed => still_good += usize::from(good),
                    // A part in a name of its own, and noise, may be good notes.
                    NoteSort::Noise => {}
                    _ => assert!(!good, "{turn} {sort:?}: {note:?}"),
                }
            }
        }
        assert!(still_good > 500 && still_good < 3_000, "{still_good}");
    }

    /// What the questions showed: how often each answer came, and how many notes of each sort.
    #[test]
    fn questions_show_every_answer() {
        let (mut answers, mut sorts) = (BTreeMap::new(), BTreeMap::new());
        let (mut dropped, mut with_any, mut good_names) = (0, 0, 0);
        for seed in 0..20_000 {
            let NoteCase { nodes, tables, names, sort, note, job, which, room } = note_case(seed);
            let mut out = vec![0xA5; room];
            let answer = note_places(nodes, &tables.jobs, &tables.maps, &names, &note, job, which, &mut out);
            *answers.entry(answer.err().unwrap_or(0)).or_insert(0) += 1;
            *sorts.entry(sort).or_insert(0) += 1;
            dropped += u64::from(answer == Ok(0));
            let written = answer.unwrap_or(0);
            with_any += u64::from(written > 0 && out[written - 1] == 255);
            good_names += u64::from(table_names(nodes, &names).is_some());
            assert!(out[written..].iter().all(|byte| *byte == 0xA5), "seed {seed}");
        }
        println!("{answers:?}, {dropped} dropped, {with_any} with ANY, {good_names} good tables\n{sorts:?}");
        assert_eq!(answers.keys().copied().collect::<Vec<u8>>(), [0, 1, 2, 11, 15, 16]);
        assert!(answers.values().all(|count| *count > 300) && dropped > 1_000 && with_any > 500, "{answers:?}");
        assert!(sorts.len() == NOTE_SORTS.len() && sorts.values().all(|count| *count > 500), "{sorts:?}");
    }

    /// "show that reading it returns the same names" (M-104).
    #[test]
    fn what_is_written_is_read_back() {
        let (mut written, mut refused) = (0, [0; 17]);
        for seed in 0..20_000 {
            let WriteNoteCase { sorts, text, data, room } = write_note_case(seed);
            let mut out = vec![0xA5; room];
            match write_note(&text, &data, &mut out) {
                Err(number) => refused[usize::from(number)] += 1,
                Ok(length) => {
                    assert!(sorts.into_iter().all(ListSort::is_good), "seed {seed}");
                    let strings = [text, data].concat();
                    let all = list_of_names(&strings);
                    for (k, one) in all.iter().enumerate() {
                        let Part { start, len } = name(&out[..length], k);
                        assert_eq!(&out[start..start + len], *one, "seed {seed}");
                    }
                    assert_eq!(name(&out[..length], all.len()), Part::default(), "seed {seed}");
                    written += 1;
                }
            }
        }
        println!("{written} written, refused {refused:?}");
        assert!(written > 5_000 && refused[16] > 2_000 && refused[11] > 2_000, "{written} {refused:?}");
    }

    /// The names of lists that have their zeros.
    fn list_of_names(bytes: &[u8]) -> Vec<&[u8]> {
        let mut names: Vec<&[u8]> = bytes.split(|byte| *byte == 0).collect();
        names.pop();
        names
    }
}
