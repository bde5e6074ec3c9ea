//! The machine's tables, tested once.

use crate::masks::nodes_with;

/// The machine, and where each node's pages begin.
pub struct Machine<'a> {
    pub nodes: usize,
    pub cpus: &'a [u8],
    distances: &'a [u8],
    pub starts: &'a Starts,
}

/// Where each node begins, and where the last one ends.
pub type Starts = [u32; 65];

/// Finds the starts of the nodes; do the counts keep the rules?
#[inline]
pub fn find_starts(starts: &mut Starts, counts: &[u32], pages: usize) -> bool {
    if counts.is_empty() || counts.len() > 64 {
        return false;
    }
    let (mut total, mut most) = (0, 0);
    for (start, count) in starts[1..].iter_mut().zip(counts) {
        most = most.max(*count);
        total += (*count).min(1 << 17);
        *start = total;
    }
    most <= 65_536 && total <= 1_048_576 && pages >= total as usize
}

/// The CPU table has 1 to 256 bytes, each a node.
fn cpus_ok(nodes: usize, cpus: &[u8]) -> bool {
    !cpus.is_empty() && cpus.len() <= 256 && usize::from(cpus.iter().fold(0, |most, node| (*node).max(most))) < nodes
}

/// The distance table has N x N bytes, none below 10, and 10 on the diagonal.
pub fn distances_ok(nodes: usize, distances: &[u8]) -> bool {
    distances.len() == nodes * nodes
        && distances.iter().fold(255, |least, one| (*one).min(least)) >= 10
        && (0..nodes).all(|node| distances[node * (nodes + 1)] == 10)
}

/// The job table has 1 to 64 jobs of six words.
pub fn jobs_ok(words: usize) -> bool {
    words != 0 && words <= 384 && words % 6 == 0
}

/// The node of a page of the machine: as many nodes end at it or before.
pub fn node_of(starts: &Starts, nodes: usize, page: usize) -> usize {
    starts[1..=nodes].iter().filter(|end| **end as usize <= page).count()
}

impl<'a> Machine<'a> {
    /// Tests all tables but the free counts and the maps.
    pub fn new(
        starts: &'a mut Starts,
        counts: &[u32],
        cpus: &'a [u8],
        distances: &'a [u8],
        pages: usize,
        jobs: usize,
    ) -> Option<Machine<'a>> {
        let nodes = counts.len();
        let counts_ok = find_starts(starts, counts, pages);
        let all_ok = counts_ok && cpus_ok(nodes, cpus) && distances_ok(nodes, distances) && jobs_ok(jobs);
        all_ok.then_some(Machine { nodes, cpus, distances, starts })
    }

    /// The distances from x.
    pub fn row(&self, x: usize) -> &[u8] {
        &self.distances[x * self.nodes..][..self.nodes]
    }

    /// The nodes that can be reached from x.
    pub fn reached(&self, x: usize) -> u64 {
        nodes_with(self.row(x), |far| far != 255)
    }

    /// The nearest of these nodes in row x that can be reached, the lowest of those as near.
    pub fn nearest(&self, among: u64, x: usize) -> Option<usize> {
        let (mut rest, mut least) = (among, u16::MAX);
        while rest != 0 {
            let node = rest.trailing_zeros() as usize;
            least = least.min(u16::from(self.distances[x * self.nodes + node]) << 8 | node as u16);
            rest &= rest - 1;
        }
        (least < 255 << 8).then_some(usize::from(least & 255))
    }
}
