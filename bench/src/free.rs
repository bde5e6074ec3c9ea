//! The free counts, and the choice of a node by them.

use crate::machine::{Machine, Starts};
use crate::masks::nodes_with;
use crate::record::Record;

/// One count for each node, as lent. Where KEPT, the mask is that of the nodes counted above 0; else it says nothing.
pub struct Free<'a, const KEPT: bool> {
    counts: &'a mut [u32],
    mask: u64,
}

/// Counts for one call, which may be others at the next: no more of them is looked at than is needed.
pub type Lent<'a> = Free<'a, false>;
/// Counts for a run of calls: no other hand is on them meanwhile.
pub type Kept<'a> = Free<'a, true>;

/// The nodes counted above 0.
fn counted(counts: &[u32]) -> u64 {
    nodes_with(counts, |count| count != 0)
}

impl Kept<'_> {
    /// Counts to choose a node by, none of them to be written: their mask alone. None if there is not one for each node.
    pub fn to_look(counts: &[u32], nodes: usize) -> Option<Self> {
        (counts.len() == nodes).then(|| Free { counts: &mut [], mask: counted(counts) })
    }

    /// The nodes counted above 0.
    pub fn nodes(&self) -> u64 {
        self.mask
    }

    /// Lets a call change the counts as it likes.
    pub fn change<T>(&mut self, call: impl FnOnce(&mut [u32]) -> T) -> T {
        let given = call(self.counts);
        self.mask = counted(self.counts);
        given
    }
}

impl<'a, const KEPT: bool> Free<'a, KEPT> {
    /// None if there is not one count for each node.
    pub fn new(counts: &'a mut [u32], nodes: usize) -> Option<Self> {
        if counts.len() != nodes {
            return None;
        }
        let mask = if KEPT { counted(counts) } else { 0 };
        Some(Free { counts, mask })
    }

    /// Is this one of the nodes counted above 0?
    fn has(&self, node: usize) -> bool {
        match KEPT {
            true => node < 64 && self.mask >> node & 1 == 1,
            false => self.counts.get(node).is_some_and(|count| *count != 0),
        }
    }

    /// The first node of near(x) among these that is counted above 0.
    pub fn near(&self, machine: &Machine, among: u64, x: usize) -> Option<usize> {
        if among >> x & 1 == 1 && self.has(x) {
            return Some(x);
        }
        machine.nearest(among & if KEPT { self.mask } else { counted(self.counts) }, x)
    }

    /// The node that a place names, if it is among these and counted above 0.
    pub fn place(&self, record: Record, among: u64, place: u64) -> Option<usize> {
        let node = usize::from(record.place(place as usize));
        (self.has(node) && among >> node & 1 == 1).then_some(node)
    }

    /// The first place with such a node, from one on and once round; gives the node too.
    pub fn round(&self, record: Record, among: u64, from: u64) -> Option<(u64, usize)> {
        let mut place = from;
        for _ in 0..record.length() {
            if place >= record.length() {
                place = 0;
            }
            if let Some(node) = self.place(record, among, place) {
                return Some((place, node));
            }
            place += 1;
        }
        None
    }

    /// A page of a node counted above 0 is free no more.
    pub fn take(&mut self, node: usize) {
        let count = &mut self.counts[node];
        *count -= 1;
        self.mask &= !(u64::from(*count == 0) << node);
    }

    /// A page more of a node is free; false, and nothing is done, where that would be more than it has.
    pub fn give(&mut self, node: usize, pages: u32) -> bool {
        let count = &mut self.counts[node];
        if *count >= pages {
            return false;
        }
        *count += 1;
        self.mask |= 1 << node;
        true
    }

    /// Every page is free.
    pub fn give_all(&mut self, starts: &Starts) {
        for (count, ends) in self.counts.iter_mut().zip(starts.windows(2)) {
            *count = ends[1] - ends[0];
        }
        self.mask = counted(self.counts);
    }
}

#[cfg(test)]
mod tests {
    use super::*;

    #[test]
    fn every_set_of_counted_nodes_has_its_mask() {
        for nodes in 0..=64 {
            for mask in [0, u64::MAX, 0x5555_5555_5555_5555, 0x8000_0000_0000_0001, 0x0123_4567_89AB_CDEF] {
                let mask = if nodes < 64 { mask & ((1 << nodes) - 1) } else { mask };
                let counts: Vec<u32> =
                    (0..nodes).map(|node| (mask >> node & 1) as u32 * (u32::MAX >> (node % 32))).collect();
                assert_eq!(counted(&counts), mask, "{nodes} nodes");
            }
        }
    }

    #[test]
    fn the_mask_follows_the_counts() {
        let (mut counts, mut starts) = ([2, 0, 1, 0], [0; 65]);
        starts[1..5].copy_from_slice(&[2, 3, 4, 4]);
        let mut free = Kept::new(&mut counts, 4).expect("a count for each node");
        assert_eq!(free.mask, 0b101);
        free.take(2);
        free.take(0);
        assert_eq!(free.mask, 0b001);
        assert!(free.give(1, 1) && !free.give(1, 1) && !free.give(3, 0));
        assert_eq!(free.mask, 0b011);
        free.give_all(&starts);
        assert_eq!((free.mask, counts), (0b111, [2, 1, 1, 0]));
    }
}
