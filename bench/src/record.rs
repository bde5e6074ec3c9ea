//! A job's record, read where it lies in its six words.

use crate::masks::{below, folded};

/// Is the last place of a list in mode 4 a 255, which no map turns?
pub fn closes(mode: u64, length: u64, places: u128) -> bool {
    mode == 4 && (1..=16).contains(&length) && (places >> (8 * (length - 1))) as u8 == 255
}

/// A well-formed record.
#[derive(Clone, Copy)]
pub struct Record<'a>(&'a [u64; 6]);

impl<'a> Record<'a> {
    /// The record in these words; none if it is not well formed.
    pub fn of(nodes: usize, words: &'a [u64; 6]) -> Option<Record<'a>> {
        let record = Record(words);
        let (mode, cursor, last) = (record.mode(), record.cursor(), record.last(nodes));
        let allowed_ok = words[2] & !below(nodes) == 0 && (words[2] != 0 || mode == 0);
        let good = words[0] >> 32 == 0 && mode <= 6 && allowed_ok && cursor <= last;
        let data_ok = || if mode > 3 { record.places_ok() } else { record.masks_ok(nodes) };
        (good && data_ok()).then_some(record)
    }

    pub fn mode(self) -> u64 {
        self.0[0] & 255
    }

    pub fn flag(self) -> u64 {
        self.0[0] >> 8 & 255
    }

    pub fn length(self) -> u64 {
        self.0[0] >> 16 & 255
    }

    pub fn cursor(self) -> u64 {
        self.0[0] >> 24 & 255
    }

    pub fn user(self) -> u64 {
        self.0[1]
    }

    pub fn allowed(self) -> u64 {
        self.0[2]
    }

    pub fn effective(self) -> u64 {
        self.0[3]
    }

    /// The byte of a place below 16.
    pub fn place(self, place: usize) -> u8 {
        (self.0[4 + (place >> 3 & 1)] >> (8 * (place & 7))) as u8
    }

    /// Does the list end in a 255 that stands for the nodes near the CPU's?
    pub fn closes(self) -> bool {
        closes(self.mode(), self.length(), u128::from(self.0[4]) | u128::from(self.0[5]) << 64)
    }

    /// The most that the cursor field may hold.
    fn last(self, nodes: usize) -> u64 {
        match self.mode() {
            3 => nodes as u64,
            5 | 6 => self.length(),
            _ => 0,
        }
    }

    /// Modes 4 to 6: 1 to 16 places, nothing past them, neither flag nor masks.
    fn places_ok(self) -> bool {
        let past = match self.length() {
            length @ 1..8 => self.0[4] >> (8 * length) | self.0[5],
            length @ 8..16 => self.0[5] >> (8 * length - 64),
            length => length ^ 16,
        };
        past | self.flag() | self.user() | self.effective() == 0
    }

    /// Modes 0 to 3: no places; the masks as the flag says.
    fn masks_ok(self, nodes: usize) -> bool {
        let (user, allowed, effective) = (self.user(), self.allowed(), self.effective());
        let masks_ok = match self.flag() {
            flag if self.mode() == 0 || user == 0 => self.mode() <= 1 && flag | user | effective == 0,
            0 => user & !below(nodes) == 0 && effective != 0 && effective & !allowed == 0,
            1 => user & !below(nodes) == 0 && effective == user & allowed,
            2 => effective == folded(user, allowed),
            _ => false,
        };
        masks_ok && self.length() | self.0[4] | self.0[5] == 0
    }

    /// The next target of interleave: above the last one, else the lowest.
    pub fn target(self) -> usize {
        let above = self.effective() & !below(self.cursor() as usize);
        let from = if above != 0 { above } else { self.effective() };
        from.trailing_zeros() as usize
    }
}
