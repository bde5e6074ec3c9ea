//! A node by the job's own number and by the machine's: two kinds, so that neither is taken for the other.

use std::fmt;

/// A node by a job's own number: its place in the job's map, from 0. What a tenant names and is told.
#[derive(Clone, Copy, Debug, PartialEq, Eq, PartialOrd, Ord, Hash)]
#[repr(transparent)]
pub struct AppNode(pub u8);

/// A node by the machine's number. What an administrator names.
#[derive(Clone, Copy, Debug, PartialEq, Eq, PartialOrd, Ord, Hash)]
#[repr(transparent)]
pub struct SysNode(pub u8);

impl fmt::Display for AppNode {
    fn fmt(&self, to: &mut fmt::Formatter) -> fmt::Result {
        self.0.fmt(to)
    }
}

impl fmt::Display for SysNode {
    fn fmt(&self, to: &mut fmt::Formatter) -> fmt::Result {
        self.0.fmt(to)
    }
}

impl AppNode {
    /// As the last place of a list in mode `LIST`: any node that the job may get, nearest to its CPU first.
    pub const ANY: AppNode = AppNode(255);
}

/// The bytes of a job in the table of maps.
pub const MAP_BYTES: usize = 64;
/// What stands in a map after its last node.
pub const MAP_END: u8 = 0xFF;

/// A table of maps in which each job numbers its nodes as the machine does, 0 to N - 1: what a host begins with.
pub fn identity_maps(nodes: usize, jobs: usize) -> Vec<u8> {
    let byte = |node| if node < nodes { node as u8 } else { MAP_END };
    (0..jobs).flat_map(|_| (0..MAP_BYTES).map(byte)).collect()
}

#[cfg(test)]
mod tests {
    use super::*;

    #[test]
    fn an_identity_map_has_the_nodes_and_then_ends() {
        let maps = identity_maps(3, 2);
        assert_eq!(maps.len(), 2 * MAP_BYTES);
        for map in maps.chunks(MAP_BYTES) {
            assert_eq!(map[..4], [0, 1, 2, MAP_END]);
            assert!(map[4..].iter().all(|byte| *byte == MAP_END));
        }
        assert_eq!(identity_maps(64, 1)[63], 63);
    }

    #[test]
    fn lists_of_either_kind_are_their_bytes() {
        assert_eq!(AppNode::list(&[3, 0, 255]), [AppNode(3), AppNode(0), AppNode(255)]);
        assert_eq!(SysNode::list(&[3, 0, 255]), [SysNode(3), SysNode(0), SysNode(255)]);
        assert!(AppNode::list(&[]).is_empty());
        assert_eq!(format!("{} {}", AppNode(7), SysNode(9)), "7 9");
    }
}
