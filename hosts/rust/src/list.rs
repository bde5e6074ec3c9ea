//! A call as sixteen words and an answer as one: what `replay` reads and writes.

use crate::answer::Answer;
use crate::calls::{granted, refusal_of, released, NO_NODE, NO_PAGE};
use crate::node::{AppNode, SysNode};

/// The words of a call.
pub const CALL_WORDS: usize = 16;
/// The places or nodes that stand in the words of a call; a list may have more.
pub const MOST_CALL_PLACES: usize = 64;

/// One call of a list. A drain has room for so many 32-bit numbers, two for each page that moves; the pairs are not handed out.
#[derive(Clone, Copy, Debug, PartialEq, Eq)]
pub enum Call<'a> {
    Request { job: u64, cpu: u64 },
    Release { job: u64, page: u64 },
    Rebind { job: u64, allowed: u64 },
    Install { job: u64, mode: u64, flag: u64, mask: u64, places: &'a [AppNode] },
    Clear { job: u64 },
    Fresh,
    KeepNodes { job: u64, kept: &'a [AppNode] },
    SetMap { job: u64, list: &'a [SysNode] },
    Drain { node: u64, room: u64 },
}

/// Puts a list into the words of a call: word 5 has its length, words 8 to 15 the first 64 bytes.
fn put_list(words: &mut [u64; CALL_WORDS], length: usize, bytes: impl Iterator<Item = u8>) {
    words[5] = length as u64;
    for (place, byte) in bytes.take(MOST_CALL_PLACES).enumerate() {
        words[8 + place / 8] |= u64::from(byte) << (8 * (place % 8));
    }
}

/// The sixteen words of a call. A list may have any length. Past the 64th its entries are not needed: an install of over 16
/// places is refused 6, and of over 64 nodes none are a good map's.
pub fn words_of(call: &Call) -> [u64; CALL_WORDS] {
    let mut words = [0; CALL_WORDS];
    match *call {
        Call::Request { job, cpu } => words[..3].copy_from_slice(&[1, job, cpu]),
        Call::Release { job, page } => words[..3].copy_from_slice(&[2, job, page]),
        Call::Rebind { job, allowed } => words[..3].copy_from_slice(&[3, job, allowed]),
        Call::Install { job, mode, flag, mask, places } => {
            words[..5].copy_from_slice(&[4, job, mode, flag, mask]);
            put_list(&mut words, places.len(), places.iter().map(|node| node.0));
        }
        Call::Clear { job } => words[..2].copy_from_slice(&[5, job]),
        Call::Fresh => words[0] = 16,
        Call::KeepNodes { job, kept } => {
            words[..2].copy_from_slice(&[17, job]);
            put_list(&mut words, kept.len(), kept.iter().map(|node| node.0));
        }
        Call::SetMap { job, list } => {
            words[..2].copy_from_slice(&[18, job]);
            put_list(&mut words, list.len(), list.iter().map(|node| node.0));
        }
        Call::Drain { node, room } => words[..3].copy_from_slice(&[19, node, room]),
    }
    words
}

/// The answer in a word, for the call it answers.
pub fn answer_of(call: &Call, word: u64) -> Answer {
    let refusal = word as u8;
    let node = (word >> 8) as u8;
    let page = (word >> 32) as u32;
    if refusal != 0 {
        debug_assert!(node == NO_NODE && page == NO_PAGE, "a refusal with node {node} page {page}");
        return Answer::Refused(refusal_of(refusal));
    }
    match call {
        Call::Request { .. } => granted(node, page),
        Call::Release { .. } => released(node, page),
        Call::Drain { .. } => {
            debug_assert!(node == NO_NODE, "a drain with node {node}");
            Answer::Drained { moves: page }
        }
        _ => Answer::Done,
    }
}

#[cfg(test)]
mod tests {
    use super::*;
    use crate::answer::Refusal;

    #[test]
    fn the_words_of_each_kind() {
        let words = |call: Call| words_of(&call);
        assert_eq!(words(Call::Request { job: 7, cpu: 9 })[..4], [1, 7, 9, 0]);
        assert_eq!(words(Call::Release { job: 7, page: 1 << 40 })[..4], [2, 7, 1 << 40, 0]);
        assert_eq!(words(Call::Rebind { job: 7, allowed: u64::MAX })[..4], [3, 7, u64::MAX, 0]);
        assert_eq!(words(Call::Clear { job: 63 })[..4], [5, 63, 0, 0]);
        assert_eq!(words(Call::Fresh), [16, 0, 0, 0, 0, 0, 0, 0, 0, 0, 0, 0, 0, 0, 0, 0]);
        let places: Vec<u8> = (1..=64).collect();
        let call = words(Call::Install { job: 1, mode: 5, flag: 2, mask: 3, places: AppNode::list(&places) });
        assert_eq!(call[..9], [4, 1, 5, 2, 3, 64, 0, 0, 0x0807_0605_0403_0201]);
        assert_eq!(call[15], 0x403F_3E3D_3C3B_3A39);
        let keep = words(Call::KeepNodes { job: 9, kept: &[AppNode(0), AppNode(2)] });
        assert_eq!(keep, [17, 9, 0, 0, 0, 2, 0, 0, 0x0200, 0, 0, 0, 0, 0, 0, 0]);
        let set = words(Call::SetMap { job: 9, list: SysNode::list(&[3, 1, 255]) });
        assert_eq!(set, [18, 9, 0, 0, 0, 3, 0, 0, 0xFF_0103, 0, 0, 0, 0, 0, 0, 0]);
        let drain = words(Call::Drain { node: 3, room: 1 << 40 });
        assert_eq!(drain, [19, 3, 1 << 40, 0, 0, 0, 0, 0, 0, 0, 0, 0, 0, 0, 0, 0]);
    }

    #[test]
    fn any_number_of_places_or_nodes_has_words() {
        for length in [0, 1, 63, 64, 65, 255, 256, 65_536, 1_000_000] {
            let places: Vec<u8> = (0..length).map(|place| (place % 255) as u8 + 1).collect();
            let (app, sys) = (AppNode::list(&places), SysNode::list(&places));
            let install = words_of(&Call::Install { job: 1, mode: 5, flag: 2, mask: 3, places: app });
            assert_eq!(install[..8], [4, 1, 5, 2, 3, length as u64, 0, 0]);
            let keep = words_of(&Call::KeepNodes { job: 1, kept: app });
            assert_eq!(keep[..8], [17, 1, 0, 0, 0, length as u64, 0, 0]);
            let set = words_of(&Call::SetMap { job: 1, list: sys });
            assert_eq!(set[..8], [18, 1, 0, 0, 0, length as u64, 0, 0]);
            let mut first = places;
            first.resize(MOST_CALL_PLACES, 0);
            for words in [install, keep, set] {
                let bytes: Vec<u8> = words[8..].iter().flat_map(|word| word.to_le_bytes()).collect();
                assert_eq!(bytes, first, "{length}");
            }
        }
    }

    #[test]
    fn an_answer_goes_by_its_call() {
        let word = 3 << 8 | 5 << 32;
        assert_eq!(answer_of(&Call::Request { job: 0, cpu: 0 }, word), Answer::Granted { node: AppNode(3), page: 5 });
        let release = Call::Release { job: 0, page: 5 };
        assert_eq!(answer_of(&release, word), Answer::Released { node: Some(AppNode(3)), page: 5 });
        assert_eq!(answer_of(&release, 255 << 8 | 5 << 32), Answer::Released { node: None, page: 5 });
        let done = 0xFFFF_FFFF_0000_FF00;
        assert_eq!(answer_of(&Call::Clear { job: 0 }, done), Answer::Done);
        assert_eq!(answer_of(&Call::Fresh, done), Answer::Done);
        assert_eq!(answer_of(&Call::SetMap { job: 0, list: &[] }, done), Answer::Done);
        assert_eq!(answer_of(&Call::SetMap { job: 0, list: &[] }, done | 15), Answer::Refused(Refusal::BadMap));
        let refused = Answer::Refused(Refusal::NoRoom);
        assert_eq!(answer_of(&Call::Request { job: 0, cpu: 0 }, done | 8), refused);
        let wrong_count = Answer::Refused(Refusal::WrongCount);
        assert_eq!(answer_of(&Call::Release { job: 0, page: 5 }, done | 14), wrong_count);
        let drain = Call::Drain { node: 3, room: 4 };
        assert_eq!(answer_of(&drain, 255 << 8 | 2 << 32), Answer::Drained { moves: 2 });
        assert_eq!(answer_of(&drain, 255 << 8), Answer::Drained { moves: 0 });
        assert_eq!(answer_of(&drain, done | 17), Answer::Refused(Refusal::NowhereToGo));
    }
}
