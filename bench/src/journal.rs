//! The journal program of document 01, over the same fast rules: large reads and writes, tables tested once.

use std::io::{Read, Result, Write};

use crate::fast::{clear_at, install_at, rebind_at, refused, release_at, request_at, Jobs, Out};
use crate::free::Kept;
use crate::hints::{Hints, InList};
use crate::machine::Machine;
use crate::maps::Maps;

/// The longest machine record: 16 nodes and 64 CPUs.
const OPENING: usize = 358;
/// The bytes of 2,048 records, and of their answers.
const PART: usize = 65_536;
const ANSWERS: usize = PART / 32 * 12;
/// "answers kind FF" for what ends the run.
const BROKEN: u8 = 255;

/// Reads until the bytes are full or the input ends.
fn read_full(input: &mut impl Read, bytes: &mut [u8]) -> Result<usize> {
    let mut size = 0;
    while size < bytes.len() {
        match input.read(&mut bytes[size..])? {
            0 => break,
            more => size += more,
        }
    }
    Ok(size)
}

/// The twelve bytes of an answer.
fn answer(kind: u8, out: Out) -> [u8; 12] {
    let head = 0x414E | u64::from(kind) << 16 | u64::from(out.refusal) << 24 | u64::from(out.node) << 32;
    let mut bytes = [0; 12];
    bytes[..8].copy_from_slice(&head.to_le_bytes());
    bytes[8..].copy_from_slice(&out.page.to_le_bytes());
    bytes
}

/// N and the CPU count, if the head keeps its rules; else refusal 13 or 1.
fn sizes(head: &[u8]) -> std::result::Result<(usize, usize), u8> {
    let &[0x4E, 0x50, 0, nodes, cpus, 0] = head else { return Err(13) };
    if (1..=16).contains(&nodes) && (1..=64).contains(&cpus) {
        Ok((usize::from(nodes), usize::from(cpus)))
    } else {
        Err(1)
    }
}

/// Runs a journal to its end or first damage.
pub fn run(input: &mut impl Read, output: &mut impl Write) -> Result<()> {
    let mut opening = [0; OPENING];
    let head = read_full(input, &mut opening[..6])?;
    let refusal = match sizes(&opening[..head]) {
        Err(refusal) => refusal,
        Ok((nodes, cpus)) => {
            let rest = &mut opening[6..6 + 2 * nodes + cpus + nodes * nodes];
            if read_full(input, rest)? == rest.len() {
                return run_records(nodes, cpus, rest, input, output);
            }
            13
        }
    };
    output.write_all(&answer(BROKEN, refused(refusal)))
}

/// Tests the machine's tables and runs the records that follow, a part at a time.
fn run_records(nodes: usize, cpus: usize, tables: &[u8], input: &mut impl Read, output: &mut impl Write) -> Result<()> {
    let (counts, tables) = tables.split_at(2 * nodes);
    let (cpus, distances) = tables.split_at(cpus);
    let counts: Vec<u32> = counts.as_chunks().0.iter().map(|bytes| u16::from_le_bytes(*bytes).into()).collect();
    let (mut starts, mut pages, mut jobs, mut free) = ([0; 65], [0; 16_384], [[0; 6]; 64], counts.clone());
    let machine = Machine::new(&mut starts, &counts, cpus, distances, pages.len(), 384);
    let (Some(machine), Some(mut free)) = (machine, Kept::new(&mut free, nodes)) else {
        return output.write_all(&answer(BROKEN, refused(1)));
    };
    let maps = [std::array::from_fn(|node| if node < nodes { node as u8 } else { 255 }); 64];
    let (mut hints, mut part, mut answers) = (InList::of(machine.starts), vec![0; PART], vec![0; ANSWERS]);
    loop {
        let size = read_full(input, &mut part)?;
        let part = &part[..size];
        let (written, more) =
            run_part(&machine, &mut pages, &mut jobs, &mut free, &maps, &mut hints, part, &mut answers);
        output.write_all(&answers[..written])?;
        if !more || size < PART {
            return Ok(());
        }
    }
}

/// Answers the records of a part; gives how many bytes were written and whether the run goes on.
fn run_part(
    machine: &Machine,
    pages: &mut [u8],
    jobs: &mut Jobs,
    free: &mut Kept,
    maps: &Maps,
    hints: &mut InList,
    part: &[u8],
    answers: &mut [u8],
) -> (usize, bool) {
    let mut written = 0;
    for (record, bytes) in part.chunks(32).zip(answers.as_chunks_mut().0) {
        written += 12;
        match call(machine, pages, jobs, free, maps, hints, record) {
            Some(out) => *bytes = answer(record[2], out),
            None => {
                *bytes = answer(BROKEN, refused(13));
                return (written, false);
            }
        }
    }
    (written, true)
}

/// Makes the call of a record, read as four words; none if it is short or damaged.
fn call(
    machine: &Machine,
    pages: &mut [u8],
    jobs: &mut Jobs,
    free: &mut Kept,
    maps: &Maps,
    hints: &mut InList,
    record: &[u8],
) -> Option<Out> {
    let &[head, mask, low, high] = record.as_chunks().0 else { return None };
    let [head, mask, low, high] = [head, mask, low, high].map(u64::from_le_bytes);
    let (kind, job, nodes) = (head >> 16 & 255, (head >> 24 & 255) as usize, machine.nodes);
    let unused = match kind {
        1 => head >> 40 | mask | low | high,
        2 => head >> 32 | mask >> 32 | low | high,
        3 => head >> 32 | low | high,
        4 => (head >> 32 & 255) | past(head >> 56, low, high),
        5 => head >> 32 | mask | low | high,
        _ => 1,
    };
    if head & 0xFFFF != 0x504E || unused != 0 {
        return None;
    }
    match kind {
        1 => return Some(request_at(machine, pages, jobs, free, maps, hints, job, (head >> 32) as usize)),
        2 => return Some(release_at(machine.starts, nodes, pages, free, maps, hints, job, mask as usize)),
        _ => {}
    }
    let (Some(words), Some(map)) = (jobs.get_mut(job), maps.get(job)) else { return Some(refused(2)) };
    Some(match kind {
        3 => rebind_at(nodes, words, mask),
        4 => {
            let places = u128::from(low) | u128::from(high) << 64;
            install_at(nodes, words, map, head >> 40 & 255, head >> 48 & 255, mask, head >> 56, places)
        }
        _ => clear_at(words),
    })
}

/// The places past the length of a list: zero if all are.
fn past(length: u64, low: u64, high: u64) -> u64 {
    match length {
        0..8 => low >> (8 * length) | high,
        8..16 => high >> (8 * length - 64),
        _ => 0,
    }
}
