//! Whole journals by the linked library and by the second implementation, each with room for all its answers and for fewer.

use hosts::{journal_by_both, seeds};
use reference::closing::Closings;
use reference::generate::{damaged, journal, journal_parts};
use reference::journal::{run, ANSWER, RECORD};

/// Answered with exactly the room that the answers need and with more; refused 11 with a byte less, an answer less and
/// none. Gives the number of answers.
fn in_every_room(told: &str, input: &[u8]) -> usize {
    let answers = run(input);
    let need = answers.len();
    for room in [need, need + 1, need + ANSWER, need + 100] {
        assert_eq!(journal_by_both(told, input, room).as_deref(), Ok(&answers[..]), "{told}, {room} bytes of room");
    }
    for less in [1, ANSWER, need] {
        if need != 0 {
            let room = need - less;
            assert_eq!(journal_by_both(told, input, room), Err(11), "{told}, {room} bytes of room");
        }
    }
    need / ANSWER
}

#[test]
fn whole_journals_are_answered_alike() {
    let (mut answers, mut closings) = (0, Closings::default());
    for seed in seeds(200) {
        let (start, calls) = journal_parts(seed, 60);
        closings.enter_list(&start, &calls);
        for (sort, input) in [("good", journal(seed, 60)), ("damaged", damaged(seed))] {
            answers += in_every_room(&format!("{sort} journal, seed {seed}"), &input);
        }
    }
    println!("{answers} answers, in four runs each, {closings:?}");
    assert!(answers > 12_000 && closings.each_at_least(5), "{answers} {closings:?}");
}

#[test]
fn a_journal_cut_at_any_byte() {
    let whole = journal(3, 4);
    let opening = whole.len() - 4 * RECORD;
    for length in 0..=whole.len() {
        let answers = in_every_room(&format!("cut at {length}"), &whole[..length]);
        // One for a cut machine record; else one for each record, whole or cut.
        let begun = length.saturating_sub(opening).div_ceil(RECORD);
        assert_eq!(answers, if length < opening { 1 } else { begun }, "cut at {length}");
    }
}

#[test]
fn a_machine_record_alone_needs_no_room() {
    for seed in seeds(30) {
        let told = format!("machine record of seed {seed}");
        assert_eq!(journal_by_both(&told, &journal(seed, 0), 0), Ok(vec![]), "{told}");
        assert_eq!(in_every_room(&told, &journal(seed, 0)), 0, "{told}");
    }
}

#[test]
fn a_bad_opening_needs_room_for_one_answer() {
    for seed in seeds(30) {
        let whole = journal(seed, 20);
        // A mark, the kind and the zero: 13; N and the number of CPUs: 1. Whatever follows is not answered.
        for (index, byte, refusal) in [(0, 0, 13), (1, 0x41, 13), (2, 1, 13), (3, 17, 1), (4, 0, 1), (5, 1, 13)] {
            let mut input = whole.clone();
            input[index] = byte;
            let told = format!("byte {index} of the opening is {byte}, seed {seed}");
            for room in [0, 11] {
                assert_eq!(journal_by_both(&told, &input, room), Err(11), "{told}");
            }
            let answer = journal_by_both(&told, &input, 12).expect("there is room");
            assert_eq!(answer[2..4], [0xFF, refusal], "{told}");
            assert_eq!(in_every_room(&told, &input), 1, "{told}");
        }
    }
}

#[test]
fn nothing_after_the_damage_needs_room() {
    for seed in seeds(30) {
        let whole = journal(seed, 20);
        let opening = whole.len() - 20 * RECORD;
        for record in 0..20 {
            let mut input = whole.clone();
            input[opening + RECORD * record] = 0;
            let told = format!("record {record} damaged, seed {seed}");
            assert_eq!(in_every_room(&told, &input), record + 1, "{told}");
        }
    }
}
