//! The journal program: machine record, call records and answers as bytes.

use crate::calls::{apply, Answer, Call, Tables};
use crate::machine::{all_pages, cpus_fit, distances_fit};
use crate::maps::{identity_maps, END};
use crate::record::{MOST_PLACES, WORDS};

/// "mark 4E 50" of machine and call records (The journal program).
pub const MARK: [u8; 2] = [0x4E, 0x50];
/// "mark 4E 41" of answers (The journal program).
pub const ANSWER_MARK: [u8; 2] = [0x4E, 0x41];
/// "the six head bytes" of the machine record (The journal program).
pub const HEAD: usize = 6;
/// "Then 32-byte records" (The journal program).
pub const RECORD: usize = 32;
/// "Answers are 12 bytes" (The journal program).
pub const ANSWER: usize = 12;
/// "N (1 to 16)" (The journal program).
pub const MOST_NODES: usize = 16;
/// "CPU count (1 to 64)" (The journal program).
pub const MOST_CPUS: usize = 64;
/// "at most 16,384 pages" (The journal program).
pub const MOST_PAGES: u64 = 16_384;
/// "64 fresh jobs" (The journal program).
pub const JOBS: usize = 64;

/// The kinds of record (The journal program).
pub const MACHINE: u8 = 0;
pub const REQUEST: u8 = 1;
pub const RELEASE: u8 = 2;
pub const REBIND: u8 = 3;
pub const INSTALL: u8 = 4;
pub const CLEAR: u8 = 5;
/// "answers kind FF" for what ends the run (The journal program).
pub const BROKEN: u8 = 0xFF;

/// The 12 bytes of an answer (The journal program).
pub fn answer_bytes(kind: u8, answer: Answer) -> [u8; ANSWER] {
    let mut refusal = 0;
    let mut node_byte = 0xFF;
    let mut page_number = 0xFFFF_FFFF;
    match answer {
        Answer::Granted { node, page } => {
            node_byte = node.0;
            page_number = page;
        }
        Answer::Released { node, page } => {
            node_byte = node.map_or(END, |node| node.0);
            page_number = page;
        }
        Answer::Drained { .. } => panic!("a journal has no record for a drain"),
        Answer::Done => {}
        Answer::Refused(number) => refusal = number,
    }
    let page_bytes = u32::to_le_bytes(page_number);
    [
        ANSWER_MARK[0],
        ANSWER_MARK[1],
        kind,
        refusal,
        node_byte,
        0,
        0,
        0,
        page_bytes[0],
        page_bytes[1],
        page_bytes[2],
        page_bytes[3],
    ]
}

/// "the six head bytes' 13" (The journal program).
fn head_is_good(journal: &[u8]) -> bool {
    journal.len() >= HEAD && journal[0..2] == MARK && journal[2] == MACHINE && journal[5] == 0
}

/// How many bytes the whole machine record has (The journal program).
fn machine_length(nodes: usize, cpu_count: usize) -> usize {
    HEAD + 2 * nodes + cpu_count + nodes * nodes
}

/// The tables a whole machine record describes, all pages free, 64 fresh jobs (The journal program); the free counts are
/// the page counts, so they match (M-100); "Journal jobs have map 0 to N-1" (M-103).
fn tables_of(nodes: usize, cpu_count: usize, journal: &[u8]) -> Tables {
    let mut counts = Vec::new();
    for node in 0..nodes {
        let low = journal[HEAD + 2 * node];
        let high = journal[HEAD + 2 * node + 1];
        counts.push(u32::from(u16::from_le_bytes([low, high])));
    }
    let cpus_from = HEAD + 2 * nodes;
    let distances_from = cpus_from + cpu_count;
    let end = distances_from + nodes * nodes;
    let pages = vec![0; all_pages(&counts) as usize];
    let free = counts.clone();
    Tables {
        counts,
        cpus: journal[cpus_from..distances_from].to_vec(),
        distances: journal[distances_from..end].to_vec(),
        pages,
        jobs: vec![0; JOBS * WORDS],
        free,
        maps: identity_maps(nodes, JOBS),
    }
}

/// "the other rules" of the machine record (The journal program, The machine).
fn machine_keeps_the_rules(tables: &Tables) -> bool {
    let nodes = tables.counts.len();
    all_pages(&tables.counts) <= MOST_PAGES && cpus_fit(nodes, &tables.cpus) && distances_fit(nodes, &tables.distances)
}

/// The machine record: head, then N and CPU count, then shortness, then the other rules (The journal program).
fn read_machine(journal: &[u8]) -> Result<(Tables, usize), u8> {
    if !head_is_good(journal) {
        return Err(13);
    }
    let nodes = usize::from(journal[3]);
    let cpu_count = usize::from(journal[4]);
    if nodes < 1 || nodes > MOST_NODES {
        return Err(1);
    }
    if cpu_count < 1 || cpu_count > MOST_CPUS {
        return Err(1);
    }
    let length = machine_length(nodes, cpu_count);
    if journal.len() < length {
        return Err(13);
    }
    let tables = tables_of(nodes, cpu_count, journal);
    if !machine_keeps_the_rules(&tables) {
        return Err(1);
    }
    Ok((tables, length))
}

/// Which bytes of a record its kind uses (The journal program).
pub fn is_used(kind: u8, list_length: u8, index: usize) -> bool {
    if index < 4 {
        return true;
    }
    match kind {
        REQUEST => index == 4,
        RELEASE => index >= 8 && index <= 11,
        REBIND => index >= 8 && index <= 15,
        INSTALL => {
            let is_field = index >= 5 && index <= 15;
            let is_place = index >= 16 && index - 16 < usize::from(list_length);
            is_field || is_place
        }
        _ => false,
    }
}

/// "Unused bytes are zero" (The journal program).
fn unused_bytes_are_zero(record: &[u8]) -> bool {
    let kind = record[2];
    let list_length = record[7];
    for index in 0..RECORD {
        if !is_used(kind, list_length, index) && record[index] != 0 {
            return false;
        }
    }
    true
}

/// The 64-bit mask in bytes 8-15 (The journal program).
fn mask_of(record: &[u8]) -> u64 {
    let mut mask = 0;
    for index in 0..8 {
        mask |= u64::from(record[8 + index]) << (8 * index);
    }
    mask
}

/// The 32-bit page in bytes 8-11 (The journal program).
fn page_of(record: &[u8]) -> u32 {
    u32::from_le_bytes([record[8], record[9], record[10], record[11]])
}

/// As many places as the list length says; past the sixteenth only their number counts (The journal program).
fn places_of(record: &[u8]) -> Vec<u8> {
    let list_length = usize::from(record[7]);
    let mut places = Vec::new();
    for place in 0..list_length {
        if place < MOST_PLACES {
            places.push(record[16 + place]);
        } else {
            places.push(0);
        }
    }
    places
}

/// The call a good 32-byte record stands for; none if it is damaged (The journal program).
pub fn call_of(record: &[u8]) -> Option<Call> {
    if record.len() < RECORD || record[0..2] != MARK {
        return None;
    }
    let kind = record[2];
    if kind < REQUEST || kind > CLEAR {
        return None;
    }
    if !unused_bytes_are_zero(record) {
        return None;
    }
    let job = usize::from(record[3]);
    match kind {
        REQUEST => Some(Call::Request { job, cpu: usize::from(record[4]) }),
        RELEASE => Some(Call::Release { job, page: page_of(record) as usize }),
        REBIND => Some(Call::Rebind { job, allowed: mask_of(record) }),
        INSTALL => Some(Call::Install {
            job,
            mode: u64::from(record[5]),
            flag: u64::from(record[6]),
            mask: mask_of(record),
            places: places_of(record),
        }),
        _ => Some(Call::Clear { job }),
    }
}

/// The tables and the calls of a journal up to its end or first damage (The journal program).
pub fn read_journal(journal: &[u8]) -> Result<(Tables, Vec<Call>), u8> {
    let (tables, mut at) = read_machine(journal)?;
    let mut calls = Vec::new();
    while at < journal.len() {
        let end = journal.len().min(at + RECORD);
        match call_of(&journal[at..end]) {
            None => return Ok((tables, calls)),
            Some(call) => calls.push(call),
        }
        at += RECORD;
    }
    Ok((tables, calls))
}

/// The program: standard input to standard output (The journal program).
pub fn run(journal: &[u8]) -> Vec<u8> {
    let mut output = Vec::new();
    let (mut tables, mut at) = match read_machine(journal) {
        Ok(machine) => machine,
        Err(refusal) => {
            output.extend(answer_bytes(BROKEN, Answer::Refused(refusal)));
            return output;
        }
    };
    while at < journal.len() {
        let end = journal.len().min(at + RECORD);
        let record = &journal[at..end];
        match call_of(record) {
            None => {
                output.extend(answer_bytes(BROKEN, Answer::Refused(13)));
                return output;
            }
            Some(call) => {
                let answer = apply(&mut tables, &call);
                output.extend(answer_bytes(record[2], answer));
            }
        }
        at += RECORD;
    }
    output
}

/// The bytes of a machine record, as they are, right or wrong (The journal program).
pub fn machine_bytes(tables: &Tables) -> Vec<u8> {
    let mut bytes = vec![MARK[0], MARK[1], MACHINE, tables.counts.len() as u8, tables.cpus.len() as u8, 0];
    for count in &tables.counts {
        bytes.extend((*count as u16).to_le_bytes());
    }
    bytes.extend(&tables.cpus);
    bytes.extend(&tables.distances);
    bytes
}

/// The 32 bytes of a call whose numbers fit its fields (The journal program). Fresh tables and maps have no record: it panics.
pub fn call_bytes(call: &Call) -> [u8; RECORD] {
    let mut bytes = [0; RECORD];
    bytes[0] = MARK[0];
    bytes[1] = MARK[1];
    match call {
        Call::Request { job, cpu } => {
            bytes[2] = REQUEST;
            bytes[3] = *job as u8;
            bytes[4] = *cpu as u8;
        }
        Call::Release { job, page } => {
            bytes[2] = RELEASE;
            bytes[3] = *job as u8;
            bytes[8..12].copy_from_slice(&(*page as u32).to_le_bytes());
        }
        Call::Rebind { job, allowed } => {
            bytes[2] = REBIND;
            bytes[3] = *job as u8;
            bytes[8..16].copy_from_slice(&allowed.to_le_bytes());
        }
        Call::Install { job, mode, flag, mask, places } => {
            bytes[2] = INSTALL;
            bytes[3] = *job as u8;
            bytes[5] = *mode as u8;
            bytes[6] = *flag as u8;
            bytes[7] = places.len() as u8;
            bytes[8..16].copy_from_slice(&mask.to_le_bytes());
            for place in 0..places.len().min(MOST_PLACES) {
                bytes[16 + place] = places[place];
            }
        }
        Call::Clear { job } => {
            bytes[2] = CLEAR;
            bytes[3] = *job as u8;
        }
        Call::Fresh | Call::KeepNodes { .. } | Call::SetMap { .. } | Call::Drain { .. } => {
            panic!("a journal has no record for {call:?}")
        }
    }
    bytes
}

#[cfg(test)]
mod tests {
    use super::*;

    const DAMAGED: [u8; 12] = [0x4E, 0x41, 0xFF, 13, 0xFF, 0, 0, 0, 0xFF, 0xFF, 0xFF, 0xFF];
    const BAD_MACHINE: [u8; 12] = [0x4E, 0x41, 0xFF, 1, 0xFF, 0, 0, 0, 0xFF, 0xFF, 0xFF, 0xFF];

    /// Two nodes of one page each, one CPU on node 1.
    fn machine() -> Vec<u8> {
        vec![0x4E, 0x50, 0, 2, 1, 0, 1, 0, 1, 0, 1, 10, 20, 20, 10]
    }

    /// The machine with one byte changed.
    fn changed(index: usize, byte: u8) -> Vec<u8> {
        let mut bytes = machine();
        bytes[index] = byte;
        bytes
    }

    /// The machine followed by one record made of (index, byte) pairs.
    fn with_record(fields: &[(usize, u8)]) -> Vec<u8> {
        let mut record = [0; 32];
        record[0] = 0x4E;
        record[1] = 0x50;
        for (index, byte) in fields {
            record[*index] = *byte;
        }
        let mut bytes = machine();
        bytes.extend(record);
        bytes
    }

    #[test]
    fn a_machine_alone_has_no_answer() {
        assert_eq!(run(&machine()), Vec::<u8>::new());
    }

    #[test]
    fn every_cut_of_the_machine_record_is_13() {
        for length in 0..machine().len() {
            assert_eq!(run(&machine()[..length]), DAMAGED, "{length}");
        }
    }

    #[test]
    fn head_bytes() {
        for (index, byte) in [(0, 0x4F), (1, 0x51), (2, 1), (2, 0xFF), (5, 1)] {
            assert_eq!(run(&changed(index, byte)), DAMAGED);
        }
        for (index, byte) in [(3, 0), (3, 17), (3, 255), (4, 0), (4, 65), (4, 255)] {
            assert_eq!(run(&changed(index, byte)), BAD_MACHINE);
            assert_eq!(run(&changed(index, byte)[..6]), BAD_MACHINE);
            assert_eq!(run(&changed(index, byte)[..5]), DAMAGED);
        }
    }

    #[test]
    fn shortness_comes_before_the_other_rules_and_after_n() {
        let bad_cpu = changed(10, 2);
        assert_eq!(run(&bad_cpu), BAD_MACHINE);
        assert_eq!(run(&bad_cpu[..14]), DAMAGED);
        let bad_distance = changed(11, 11);
        assert_eq!(run(&bad_distance), BAD_MACHINE);
        assert_eq!(run(&bad_distance[..14]), DAMAGED);
        assert_eq!(run(&changed(12, 9)), BAD_MACHINE);
        let mut bad_mark_and_n = changed(3, 0);
        bad_mark_and_n[5] = 7;
        assert_eq!(run(&bad_mark_and_n), DAMAGED);
        let mut later_damage = bad_cpu.clone();
        later_damage.extend([1, 2, 3]);
        assert_eq!(run(&later_damage), BAD_MACHINE);
    }

    #[test]
    fn at_most_16384_pages() {
        let mut most = machine();
        most[6..8].copy_from_slice(&16_383u16.to_le_bytes());
        assert_eq!(run(&most), Vec::<u8>::new());
        most[6..8].copy_from_slice(&16_384u16.to_le_bytes());
        assert_eq!(run(&most), BAD_MACHINE);
        most[8] = 0;
        assert_eq!(run(&most), Vec::<u8>::new());
        most[6..8].copy_from_slice(&65_535u16.to_le_bytes());
        assert_eq!(run(&most), BAD_MACHINE);
    }

    #[test]
    fn every_unused_byte_is_watched() {
        for (kind, list_length, used) in [
            (1, 0, vec![4]),
            (2, 0, vec![8, 9, 10, 11]),
            (3, 0, vec![8, 9, 10, 11, 12, 13, 14, 15]),
            (4, 2, vec![5, 6, 7, 8, 9, 10, 11, 12, 13, 14, 15, 16, 17]),
            (5, 0, vec![]),
        ] {
            for index in 4..32 {
                let journal = with_record(&[(2, kind), (7, list_length), (index, 2)]);
                let damaged = run(&journal) == DAMAGED;
                assert_eq!(damaged, !used.contains(&index), "kind {kind} index {index}");
            }
        }
    }

    #[test]
    fn lists_above_16_use_all_sixteen_bytes() {
        for list_length in [16, 17, 255] {
            let journal = with_record(&[(2, 4), (5, 4), (7, list_length), (16, 9), (31, 9)]);
            let refusal = [0x4E, 0x41, 4, 7, 0xFF, 0, 0, 0, 0xFF, 0xFF, 0xFF, 0xFF];
            assert_eq!(run(&journal), refusal);
        }
        assert_eq!(run(&with_record(&[(2, 4), (5, 4), (7, 15), (31, 9)])), DAMAGED);
    }

    #[test]
    fn kinds_marks_and_short_records() {
        for kind in [0, 6, 7, 0xFF] {
            assert_eq!(run(&with_record(&[(2, kind)])), DAMAGED);
        }
        assert_eq!(run(&with_record(&[(0, 0), (2, 5)])), DAMAGED);
        assert_eq!(run(&with_record(&[(1, 0x41), (2, 5)])), DAMAGED);
        let whole = with_record(&[(2, 5)]);
        let cleared = [0x4E, 0x41, 5, 0, 0xFF, 0, 0, 0, 0xFF, 0xFF, 0xFF, 0xFF];
        assert_eq!(run(&whole), cleared);
        for length in machine().len() + 1..whole.len() {
            assert_eq!(run(&whole[..length]), DAMAGED);
        }
        let mut twice = whole.clone();
        twice.push(0x4E);
        assert_eq!(run(&twice), [cleared, DAMAGED].concat());
        let mut past_the_end = with_record(&[(2, 9)]);
        past_the_end.extend(&whole[machine().len()..]);
        assert_eq!(run(&past_the_end), DAMAGED);
    }

    #[test]
    fn a_call_and_its_bytes_agree() {
        for call in [
            Call::Request { job: 200, cpu: 77 },
            Call::Release { job: 3, page: 0xFFFF_FFFF },
            Call::Rebind { job: 63, allowed: 0x8000_0000_0000_0001 },
            Call::Install { job: 1, mode: 5, flag: 9, mask: 3, places: vec![1, 2, 255] },
            Call::Install { job: 1, mode: 255, flag: 0, mask: u64::MAX, places: vec![0; 255] },
            Call::Clear { job: 255 },
        ] {
            assert_eq!(call_of(&call_bytes(&call)), Some(call));
        }
    }
}
