//! Drains by both, and compared.

use reference::drain::drain;
use reference::drain_cases::DrainCase;
use reference::drain_requests::wrong_after;

use crate::lent::{Lent, LentTables};

/// What stands in numbers before a call, and beside them.
const BEFORE: u32 = 0xA5A5_A5A5;
const BESIDE: u32 = 0x5A5A_5A5A;

/// A drain by the library, of lent tables.
pub fn library_drain(lent: &mut LentTables, node: usize, moves: &mut [u32]) -> Result<usize, u8> {
    let LentTables { counts, distances, pages, jobs, free, maps, .. } = lent;
    let (counts, distances, jobs, maps) = (counts.now(), distances.now(), jobs.now(), maps.now());
    let drained = spirerivet::drain(counts, distances, pages.now_mut(), jobs, free.now_mut(), maps, node, moves);
    drained.map_err(|refusal| refusal.number())
}

/// A drain by both into marked numbers: same answer, same pairs, none changed past them, same tables, and nothing at all by a
/// refusal; by the page bytes every total is kept, the node is empty, and the counts match. Gives the pairs.
pub fn drain_by_both(told: &str, case: &DrainCase) -> Result<Vec<u32>, u8> {
    let DrainCase { tables, node, room } = case;
    let told = format!("{told}: N {} node {node} room {room}", tables.counts.len());
    let (mut lent, mut output) = (LentTables::new(tables), Lent::new(&vec![BEFORE; *room], BESIDE));
    let (mut after, mut out) = (tables.clone(), vec![BEFORE; *room]);
    let expected = drain(&mut after, *node, &mut out);
    let found = library_drain(&mut lent, *node, output.now_mut());
    assert_eq!(found, expected, "{told}");
    assert_eq!(lent.difference(&after), None, "{told}: {found:?}: a table differs");
    assert!(output.is(&out), "{told}: {found:?}: the pairs differ");
    let length = 2 * found.unwrap_or(0);
    assert!(output.now()[length..].iter().all(|number| *number == BEFORE), "{told}: {found:?} wrote past the pairs");
    match found {
        Ok(_) => assert_eq!(wrong_after(tables, &after, *node), None, "{told}"),
        Err(number) => assert_eq!(lent.difference(tables), None, "{told}: refused {number}, and a table was changed"),
    }
    found.map(|_| output.now()[..length].to_vec())
}
