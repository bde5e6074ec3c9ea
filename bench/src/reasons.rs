//! The reason of each node (M-106), written for speed: whole masks, and eight bytes at a time.

use crate::fast::choose;
use crate::free::Kept;
use crate::hints::pages_of;
use crate::machine::Machine;
use crate::maps::{maps_ok, JobMap};
use crate::masks::{below, spread};
use crate::record::Record;
use crate::search::lowest_free;

/// The nodes outside a bind set in force, and those of the search order; the allowed ones in the map are the limit.
fn outside_and_tried(machine: &Machine, record: Record, limit: u64, home: usize) -> (u64, u64) {
    let (mode, effective) = (record.mode(), record.effective());
    if mode > 3 {
        let places = (0..record.length() as usize).map(|place| record.place(place));
        let named = places.filter(|node| *node < 64).fold(0, |named, node| named | 1 << node);
        let more = if record.closes() { machine.reached(home) } else { 0 };
        return (0, limit & (named | more));
    }
    let x = match mode {
        1 if effective != 0 => effective.trailing_zeros() as usize,
        3 if effective != 0 => record.target(),
        _ => home,
    };
    let outside = if mode == 2 && effective != 0 { !effective } else { 0 };
    (outside, limit & !outside & machine.reached(x))
}

/// The three bits of the reasons as masks: 1, 3, 5 and 7 have the first, 2, 3, 6 and 7 the second, 4 to 7 the third.
fn bits(machine: &Machine, record: Record, limit: u64, home: usize, counted: u64, chosen: u64) -> [u64; 3] {
    let (outside, tried) = outside_and_tried(machine, record, limit, home);
    let not_tried = limit & !tried;
    let (bound, missed) = (not_tried & outside, not_tried & !outside);
    let [far, unnamed] = if record.mode() > 3 { [0, missed] } else { [missed, 0] };
    [!limit | far | tried & !chosen, bound | far | tried & counted, unnamed | tried]
}

/// Writes the reasons; gives N, or the refusal.
#[inline(never)]
pub fn reasons(
    counts: &[u32],
    cpus: &[u8],
    distances: &[u8],
    pages: &[u8],
    jobs: &[u64],
    free: &[u32],
    maps: &[u8],
    job: usize,
    cpu: usize,
    out: &mut [u8],
) -> Result<usize, u8> {
    let mut starts = [0; 65];
    let machine = Machine::new(&mut starts, counts, cpus, distances, pages.len(), jobs.len()).ok_or(1)?;
    let free = Kept::to_look(free, machine.nodes).filter(|_| maps_ok(jobs.len(), maps.len())).ok_or(1)?;
    let (words, map) = jobs.as_chunks().0.get(job).zip(maps.as_chunks().0.get(job)).ok_or(2)?;
    let map = JobMap::of(machine.nodes, map).ok_or(15)?;
    let home = usize::from(*machine.cpus.get(cpu).ok_or(3)?);
    let record = Record::of(machine.nodes, words).ok_or(4)?;
    let out = out.get_mut(..machine.nodes).ok_or(11)?;
    let chosen = choose(&machine, &free, record, map.nodes, home).map(|(node, _)| node);
    if chosen.is_some_and(|node| lowest_free(pages_of(machine.starts, pages, node).1).is_none()) {
        return Err(14);
    }
    let (limit, chosen) = (record.allowed() & map.nodes, chosen.map_or(0, |node| 1 << node));
    write(bits(&machine, record, limit & below(machine.nodes), home, free.nodes(), chosen), out);
    Ok(machine.nodes)
}

/// Writes three masks as bytes, a bit of each byte in turn.
fn write(bits: [u64; 3], out: &mut [u8]) {
    for (eight, bytes) in out.chunks_mut(8).enumerate() {
        let [first, second, third] = bits.map(|mask| spread((mask >> (8 * eight)) as u8));
        let word = (first | second << 1 | third << 2).to_le_bytes();
        bytes.copy_from_slice(&word[..bytes.len()]);
    }
}
