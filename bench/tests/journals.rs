//! The careful journal program against the second implementation, byte for byte.

use std::io::{Read, Result};

use bench::journals::{empty, journals};
use reference::generate::{damaged, journal, Dice};
use reference::journal::{run, ANSWER, RECORD};
use reference::program::output_of;

/// Gives its bytes in small pieces.
struct Slow<'a> {
    bytes: &'a [u8],
    dice: Dice,
}

impl Read for Slow<'_> {
    fn read(&mut self, out: &mut [u8]) -> Result<usize> {
        let most = out.len().min(self.dice.between(1, 100));
        self.bytes.read(&mut out[..most])
    }
}

/// What the careful program answers, read at once or in pieces.
fn careful(journal: &[u8], slow: bool) -> Vec<u8> {
    let mut answers = Vec::new();
    let (mut bytes, dice) = (journal, Dice::new(journal.len() as u64));
    let result = match slow {
        true => bench::journal::run(&mut Slow { bytes, dice }, &mut answers),
        false => bench::journal::run(&mut bytes, &mut answers),
    };
    result.expect("bytes can be read and written");
    answers
}

/// What the program itself writes.
fn written(journal: &[u8]) -> Vec<u8> {
    output_of(env!("CARGO_BIN_EXE_careful"), journal).expect("it runs and ends")
}

#[test]
fn good_journals_agree() {
    for seed in 0..300 {
        let bytes = journal(seed, 150);
        assert!(careful(&bytes, seed % 2 == 1) == run(&bytes), "seed {seed}");
    }
}

#[test]
fn damaged_journals_agree() {
    for seed in 0..1_500 {
        let bytes = damaged(seed);
        assert!(careful(&bytes, seed % 2 == 1) == run(&bytes), "seed {seed}");
    }
}

#[test]
fn the_program_itself_agrees() {
    for seed in 0..40 {
        for bytes in [journal(seed, 40), damaged(seed)] {
            assert!(written(&bytes) == run(&bytes), "seed {seed}");
        }
    }
    assert!(written(&empty()).is_empty());
}

#[test]
fn the_timed_journals_agree_and_are_not_all_refusals() {
    let names = journals().into_iter().map(|journal| {
        let answers = run(&journal.bytes);
        assert!(careful(&journal.bytes, false) == answers, "{}", journal.name);
        let refused = answers.chunks(ANSWER).filter(|answer| answer[3] != 0).count();
        assert_eq!(answers.len(), journal.records * ANSWER, "{}", journal.name);
        assert_eq!(refused, journal.refused, "{}", journal.name);
        assert!(refused * 2 < journal.records, "{}", journal.name);
        journal.name
    });
    assert_eq!(names.count(), 12);
}

#[test]
fn damage_at_the_edges_of_a_part() {
    let (machine, mixed) = (empty().len(), journals().swap_remove(9).bytes);
    for record in [2_047, 2_048, 4_096] {
        let at = machine + RECORD * record;
        for end in [at, at + 31] {
            assert!(careful(&mixed[..end], false) == run(&mixed[..end]), "cut at {end}");
        }
        for byte in [0, 2, 31] {
            let mut bytes = mixed[..at + 2 * RECORD].to_vec();
            bytes[at + byte] ^= 0x40;
            assert!(careful(&bytes, false) == run(&bytes), "record {record} byte {byte}");
        }
    }
}
