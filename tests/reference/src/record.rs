//! A job's record: six words, their fields, and what well formed means.

use crate::masks::{folded, lies_below, lies_within};

/// "six to a job" (A job's record).
pub const WORDS: usize = 6;
/// "sixteen list places" (A job's record).
pub const MOST_PLACES: usize = 16;

/// The modes (A job's record, table).
pub const DEFAULT: u8 = 0;
pub const PREFERRED: u8 = 1;
pub const BIND: u8 = 2;
pub const INTERLEAVE: u8 = 3;
pub const LIST: u8 = 4;
pub const RING: u8 = 5;
pub const EARLY: u8 = 6;

/// "Flags: 0 none, 1 static, 2 relative" (A job's record).
pub const NO_FLAG: u8 = 0;
pub const STATIC: u8 = 1;
pub const RELATIVE: u8 = 2;

/// The fields of the six words (A job's record).
#[derive(Clone, Copy, Debug, PartialEq, Eq)]
pub struct Record {
    pub mode: u8,
    pub flag: u8,
    pub length: u8,
    pub cursor: u8,
    pub rest: u32,
    pub user: u64,
    pub allowed: u64,
    pub effective: u64,
    pub places: [u8; MOST_PLACES],
}

/// "Six zero words are a fresh job" (A job's record).
pub fn fresh() -> Record {
    Record {
        mode: DEFAULT,
        flag: NO_FLAG,
        length: 0,
        cursor: 0,
        rest: 0,
        user: 0,
        allowed: 0,
        effective: 0,
        places: [0; MOST_PLACES],
    }
}

/// One byte of a word, lowest byte first (A job's record).
fn byte_of_word(word: u64, index: usize) -> u8 {
    ((word >> (8 * index)) & 0xFF) as u8
}

/// Reads the six words of a job (A job's record).
pub fn read(jobs: &[u64], job: usize) -> Record {
    let words = &jobs[job * WORDS..job * WORDS + WORDS];
    let mut places = [0; MOST_PLACES];
    for place in 0..8 {
        places[place] = byte_of_word(words[4], place);
        places[place + 8] = byte_of_word(words[5], place);
    }
    Record {
        mode: byte_of_word(words[0], 0),
        flag: byte_of_word(words[0], 1),
        length: byte_of_word(words[0], 2),
        cursor: byte_of_word(words[0], 3),
        rest: (words[0] >> 32) as u32,
        user: words[1],
        allowed: words[2],
        effective: words[3],
        places,
    }
}

/// The six words of a record (A job's record).
pub fn words(record: &Record) -> [u64; WORDS] {
    let mut word_0 = u64::from(record.mode);
    word_0 |= u64::from(record.flag) << 8;
    word_0 |= u64::from(record.length) << 16;
    word_0 |= u64::from(record.cursor) << 24;
    word_0 |= u64::from(record.rest) << 32;
    let mut word_4 = 0;
    let mut word_5 = 0;
    for place in 0..8 {
        word_4 |= u64::from(record.places[place]) << (8 * place);
        word_5 |= u64::from(record.places[place + 8]) << (8 * place);
    }
    [word_0, record.user, record.allowed, record.effective, word_4, word_5]
}

/// Writes the six words of a job (A job's record).
pub fn write(jobs: &mut [u64], job: usize, record: &Record) {
    let new = words(record);
    for index in 0..WORDS {
        jobs[job * WORDS + index] = new[index];
    }
}

/// "unused bits and places are zero" (A job's record, well formed).
fn unused_bits_and_places_are_zero(record: &Record) -> bool {
    if record.rest != 0 {
        return false;
    }
    for place in 0..MOST_PLACES {
        if place >= usize::from(record.length) && record.places[place] != 0 {
            return false;
        }
    }
    true
}

/// "mode and flag are known" (A job's record, well formed).
fn mode_and_flag_are_known(record: &Record) -> bool {
    record.mode <= EARLY && record.flag <= RELATIVE
}

/// "the allowed mask lies below N and is non-empty unless the mode is 0" (A job's record, well formed).
fn allowed_mask_is_good(nodes: usize, record: &Record) -> bool {
    if !lies_below(record.allowed, nodes) {
        return false;
    }
    record.mode == DEFAULT || record.allowed != 0
}

/// The cursor field: "at most N in mode 3, at most the list length in 5 and 6, and 0 elsewhere" (A job's record, well formed).
fn cursor_is_good(nodes: usize, record: &Record) -> bool {
    let cursor = usize::from(record.cursor);
    match record.mode {
        INTERLEAVE => cursor <= nodes,
        RING | EARLY => cursor <= usize::from(record.length),
        _ => cursor == 0,
    }
}

/// "modes 0 to 3 have no list; modes 4 to 6 have 1 to 16 places" (A job's record, well formed).
fn list_is_good(record: &Record) -> bool {
    if has_a_list(record.mode) {
        record.length >= 1 && usize::from(record.length) <= MOST_PLACES
    } else {
        record.length == 0
    }
}

/// "modes 0, 4, 5, 6 have flag 0 and empty user and effective masks" (A job's record, well formed).
fn carries_no_mask(record: &Record) -> bool {
    record.flag == NO_FLAG && record.user == 0 && record.effective == 0
}

/// What modes 1 to 3 need of flag, user and effective mask (A job's record, well formed).
fn masks_are_good(nodes: usize, record: &Record) -> bool {
    if record.user == 0 {
        return record.mode == PREFERRED && record.effective == 0 && record.flag == NO_FLAG;
    }
    match record.flag {
        NO_FLAG => {
            lies_below(record.user, nodes) && record.effective != 0 && lies_within(record.effective, record.allowed)
        }
        STATIC => lies_below(record.user, nodes) && record.effective == record.user & record.allowed,
        RELATIVE => record.effective == folded(record.user, record.allowed),
        _ => false,
    }
}

/// "a 255 in the last place of a mode 4 list" (M-104).
pub const CLOSING: u8 = 255;

/// Is there "a 255 in the last place of a mode 4 list"? (M-104)
pub fn closes(mode: u8, places: &[u8]) -> bool {
    mode == LIST && places.last() == Some(&CLOSING)
}

/// The places of a record, without the unused ones (A job's record).
pub fn places_of(record: &Record) -> &[u8] {
    &record.places[..usize::from(record.length).min(MOST_PLACES)]
}

/// Modes 4 to 6 carry places (A job's record, table).
pub fn has_a_list(mode: u8) -> bool {
    mode == LIST || mode == RING || mode == EARLY
}

/// Modes 1 to 3 carry a mask (A job's record, table).
pub fn has_a_mask(mode: u8) -> bool {
    mode == PREFERRED || mode == BIND || mode == INTERLEAVE
}

/// "A record is well formed if" (A job's record).
pub fn well_formed(nodes: usize, record: &Record) -> bool {
    if !unused_bits_and_places_are_zero(record) {
        return false;
    }
    if !mode_and_flag_are_known(record) {
        return false;
    }
    if !allowed_mask_is_good(nodes, record) {
        return false;
    }
    if !cursor_is_good(nodes, record) {
        return false;
    }
    if !list_is_good(record) {
        return false;
    }
    if has_a_mask(record.mode) {
        masks_are_good(nodes, record)
    } else {
        carries_no_mask(record)
    }
}

#[cfg(test)]
mod tests {
    use super::*;

    /// A ring over three places, allowed 0-3.
    fn a_ring() -> Record {
        let mut record = fresh();
        record.mode = RING;
        record.length = 3;
        record.allowed = 0b1111;
        record.places[0] = 3;
        record.places[1] = 200;
        record.places[2] = 1;
        record
    }

    /// A mask mode, allowed 0-3, user and effective 1 and 3.
    fn a_mask(mode: u8) -> Record {
        let mut record = fresh();
        record.mode = mode;
        record.allowed = 0b1111;
        record.user = 0b1010;
        record.effective = 0b1010;
        record
    }

    /// Asserts what well_formed says of a record changed by `change` (N = 4).
    fn after(start: Record, expected: bool, change: fn(&mut Record)) {
        let mut record = start;
        change(&mut record);
        assert_eq!(well_formed(4, &record), expected, "{record:?}");
    }

    #[test]
    fn words_and_fields_agree() {
        let jobs: Vec<u64> =
            vec![0, 0, 0, 0, 0, 0, 0x0000_0001_0403_0205, 7, 8, 9, 0x0807_0605_0403_0201, 0x100F_0E0D_0C0B_0A09];
        let record = read(&jobs, 1);
        assert_eq!(record.mode, 5);
        assert_eq!(record.flag, 2);
        assert_eq!(record.length, 3);
        assert_eq!(record.cursor, 4);
        assert_eq!(record.rest, 1);
        assert_eq!(record.user, 7);
        assert_eq!(record.allowed, 8);
        assert_eq!(record.effective, 9);
        assert_eq!(record.places, [1, 2, 3, 4, 5, 6, 7, 8, 9, 10, 11, 12, 13, 14, 15, 16]);
        assert_eq!(words(&record)[..], jobs[6..12]);
        let mut other = vec![0; 12];
        write(&mut other, 1, &record);
        assert_eq!(other, jobs);
        assert_eq!(words(&fresh()), [0; 6]);
    }

    #[test]
    fn fresh_is_well_formed_and_default_may_be_allowed_nothing() {
        after(fresh(), true, |_| {});
        after(fresh(), true, |r| r.allowed = 0b1111);
        after(fresh(), false, |r| r.allowed = 0b1_0000);
        after(fresh(), false, |r| r.rest = 1);
        after(fresh(), false, |r| r.flag = 1);
        after(fresh(), false, |r| r.cursor = 1);
        after(fresh(), false, |r| r.length = 1);
        after(fresh(), false, |r| r.places[15] = 1);
        after(fresh(), false, |r| r.user = 1);
        after(fresh(), false, |r| r.effective = 1);
        after(fresh(), false, |r| r.mode = 7);
    }

    #[test]
    fn rings_lists_and_earlies() {
        after(a_ring(), true, |_| {});
        after(a_ring(), true, |r| r.mode = EARLY);
        after(a_ring(), true, |r| r.mode = LIST);
        after(a_ring(), true, |r| r.cursor = 3);
        after(a_ring(), false, |r| r.cursor = 4);
        after(a_ring(), false, |r| {
            r.mode = LIST;
            r.cursor = 1;
        });
        after(a_ring(), false, |r| r.length = 2);
        after(a_ring(), true, |r| r.length = 16);
        after(a_ring(), false, |r| r.length = 17);
        after(a_ring(), false, |r| r.length = 0);
        after(a_ring(), false, |r| {
            r.length = 0;
            r.places = [0; 16];
        });
        after(a_ring(), false, |r| r.allowed = 0);
        after(a_ring(), false, |r| r.flag = 2);
        after(a_ring(), false, |r| r.user = 1);
        after(a_ring(), false, |r| r.effective = 1);
        after(a_ring(), false, |r| r.mode = INTERLEAVE);
    }

    #[test]
    fn mask_modes_without_flag() {
        after(a_mask(BIND), true, |_| {});
        after(a_mask(BIND), true, |r| r.effective = 0b0101);
        after(a_mask(BIND), false, |r| r.effective = 0);
        after(a_mask(BIND), false, |r| r.allowed = 0b0111);
        after(a_mask(BIND), false, |r| r.user = 0b1_1010);
        after(a_mask(BIND), false, |r| r.cursor = 1);
        after(a_mask(BIND), false, |r| {
            r.user = 0;
            r.effective = 0;
        });
        after(a_mask(INTERLEAVE), true, |r| r.cursor = 4);
        after(a_mask(INTERLEAVE), true, |r| r.cursor = 1);
        after(a_mask(INTERLEAVE), false, |r| r.cursor = 5);
        after(a_mask(INTERLEAVE), false, |r| r.user = 0);
        after(a_mask(PREFERRED), true, |_| {});
        after(a_mask(PREFERRED), false, |r| r.cursor = 1);
        after(a_mask(PREFERRED), false, |r| r.user = 0);
        after(a_mask(PREFERRED), true, |r| {
            r.user = 0;
            r.effective = 0;
        });
        after(a_mask(PREFERRED), false, |r| {
            r.user = 0;
            r.effective = 0;
            r.allowed = 0;
        });
        after(a_mask(PREFERRED), false, |r| {
            r.user = 0;
            r.effective = 0;
            r.flag = STATIC;
        });
        after(a_mask(PREFERRED), false, |r| r.flag = 3);
    }

    #[test]
    fn mask_modes_with_static() {
        after(a_mask(BIND), true, |r| r.flag = STATIC);
        after(a_mask(BIND), false, |r| {
            r.flag = STATIC;
            r.effective = 0b1000;
        });
        after(a_mask(BIND), true, |r| {
            r.flag = STATIC;
            r.allowed = 0b0101;
            r.effective = 0;
        });
        after(a_mask(BIND), false, |r| {
            r.flag = STATIC;
            r.user = 0b1_1010;
        });
    }

    #[test]
    fn mask_modes_with_relative() {
        after(a_mask(BIND), true, |r| r.flag = RELATIVE);
        after(a_mask(BIND), true, |r| {
            r.flag = RELATIVE;
            r.user = 1 << 63;
            r.effective = 0b1000;
        });
        after(a_mask(BIND), false, |r| {
            r.flag = RELATIVE;
            r.user = 1 << 63;
        });
        after(a_mask(BIND), false, |r| {
            r.flag = RELATIVE;
            r.user = 0;
            r.effective = 0;
        });
    }
}
