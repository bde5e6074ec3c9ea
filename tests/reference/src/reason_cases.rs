//! Made-up questions for the reasons, from a seed. Nothing here decides a rule of the papers.

use crate::calls::Tables;
use crate::generate::{case, good_record, some_job_number, Dice};
use crate::machine::UNREACHABLE;
use crate::map_cases::{put_map, some_good_sort};
use crate::near_cases::some_room;
use crate::record::{BIND, EARLY, INTERLEAVE, LIST, PREFERRED, RING, STATIC, WORDS};

/// One question: the tables, job and CPU, and the bytes of room for the reasons.
#[derive(Clone, Debug, PartialEq, Eq)]
pub struct ReasonCase {
    pub tables: Tables,
    pub job: usize,
    pub cpu: usize,
    pub room: usize,
}

/// Some nodes that cannot be reached from some others.
pub(crate) fn put_some_gaps(dice: &mut Dice, tables: &mut Tables) {
    let (nodes, percent) = (tables.counts.len(), dice.pick(&[10, 30, 60]));
    for (cell, far) in tables.distances.iter_mut().enumerate() {
        if cell % (nodes + 1) != 0 && dice.chance(percent) {
            *far = UNREACHABLE;
        }
    }
}

/// A good record and a good map for a job.
pub(crate) fn put_good_job(dice: &mut Dice, tables: &mut Tables, job: usize) {
    let (mode, flag) = (dice.pick(&[0, PREFERRED, BIND, BIND, INTERLEAVE, LIST, LIST, RING, EARLY]), dice.below(3));
    let mut record = good_record(dice, tables.counts.len(), mode, flag as u8);
    let misses = record[1] & !record[2];
    if (record[0] >> 8) as u8 == STATIC && misses != 0 && dice.chance(60) {
        // A static mask outside all that is allowed: its effective set is empty.
        (record[1], record[3]) = (misses, 0);
    }
    tables.jobs[job * WORDS..(job + 1) * WORDS].copy_from_slice(&record);
    let sort = some_good_sort(dice);
    put_map(dice, tables, job, sort);
}

/// A CPU number: mostly one of the table.
fn some_cpu(dice: &mut Dice, tables: &Tables) -> usize {
    let count = tables.cpus.len();
    let far = dice.pick(&[count, count + 1, 256, usize::MAX, 1 << 32]);
    if dice.chance(4) {
        far
    } else {
        dice.below(count)
    }
}

/// A question of any sort: mostly on good tables with a good record and map, some on damaged ones.
pub fn reason_case(seed: u64) -> ReasonCase {
    let mut dice = Dice::new(seed ^ 0x4EA5_0106);
    let mut tables = case(seed).tables;
    let job = some_job_number(&mut dice, &tables);
    let lies_in_tables = job < tables.jobs.len() / WORDS && (job + 1) * 64 <= tables.maps.len();
    if tables.free.len() != tables.counts.len() && dice.chance(70) {
        tables = tables.counted();
    }
    if lies_in_tables && (1..=64).contains(&tables.counts.len()) {
        if dice.chance(60) {
            put_good_job(&mut dice, &mut tables, job);
        }
        if dice.chance(40) {
            put_some_gaps(&mut dice, &mut tables);
        }
    }
    let need = tables.counts.len();
    let room = if dice.chance(60) { need } else { some_room(&mut dice, need) };
    let cpu = some_cpu(&mut dice, &tables);
    ReasonCase { tables, job, cpu, room }
}
