//! Reasons written by both, and compared.

use reference::reason_cases::ReasonCase;
use reference::reasons::write_reasons;

use crate::lent::{Lent, LentTables};
use crate::notes::{written, BEFORE};

/// The reasons by the library, from lent tables.
pub fn library_reasons(lent: &LentTables, job: usize, cpu: usize, out: &mut [u8]) -> Result<usize, u8> {
    let LentTables { counts, cpus, distances, pages, jobs, free, maps } = lent;
    let (counts, cpus, distances) = (counts.now(), cpus.now(), distances.now());
    let (pages, jobs, free, maps) = (pages.now(), jobs.now(), free.now(), maps.now());
    let found = spirerivet::reasons(counts, cpus, distances, pages, jobs, free, maps, job, cpu, out);
    found.map_err(|refusal| refusal.number())
}

/// The reasons by both into marked bytes: same answer, same bytes, none changed past them, and no table; gives them.
pub fn reasons_by_both(told: &str, case: &ReasonCase) -> Result<Vec<u8>, u8> {
    let ReasonCase { tables, job, cpu, room } = case;
    let (lent, mut output) = (LentTables::new(tables), Lent::new(&vec![BEFORE; *room], 0x5A));
    let mut out = vec![BEFORE; *room];
    let expected = write_reasons(tables, *job, *cpu, &mut out);
    let found = library_reasons(&lent, *job, *cpu, output.now_mut());
    assert_eq!(found, expected, "{told}: N {} job {job} CPU {cpu} room {room}", tables.counts.len());
    assert_eq!(lent.difference(tables), None, "{told}: {found:?}: a table was changed");
    written(told, found, &output, &out)
}
