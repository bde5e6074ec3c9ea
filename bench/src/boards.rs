//! The drains that are timed: node 0, all held, into the other nodes.

use reference::calls::Tables;

use crate::works::machine;

/// Who holds the pages of the node that is drained: so many jobs, page by page.
pub const JOBS: [usize; 3] = [1, 4, 64];

/// One drain of node 0.
pub struct Drain {
    pub targets: &'static str,
    pub jobs: usize,
    pub tables: Tables,
}

/// The machine with node 0 of so many pages, all held, and others that are free; or in which a share is, spread evenly, so that
/// each of them has to take its part.
fn board(nodes: usize, pages: u32, jobs: usize, spread: bool) -> Tables {
    let mut tables = machine(nodes);
    let (mine, others) = (pages as usize, nodes - 1);
    let each = ((1_048_576 - 65_536) / others).min(65_536) * mine / 65_536;
    tables.counts = vec![each as u32; nodes];
    tables.counts[0] = pages;
    tables.pages = (0..mine).map(|page| (page % jobs) as u8 + 1).chain(vec![0; each * others]).collect();
    let part = mine.div_ceil(others);
    for (offset, byte) in tables.pages[mine..].chunks_mut(each).flat_map(|node| node.iter_mut().enumerate()) {
        if spread && (offset + 1) * part / each == offset * part / each {
            *byte = 64;
        }
    }
    tables.counted()
}

/// Every drain into the other nodes of N, with so many pages in node 0.
pub fn drains(nodes: usize, pages: u32) -> Vec<Drain> {
    let mut all = Vec::new();
    for (targets, spread) in [("free", false), ("just enough", true)] {
        for jobs in JOBS {
            all.push(Drain { targets, jobs, tables: board(nodes, pages, jobs, spread) });
        }
    }
    all
}
