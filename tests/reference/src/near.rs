//! near(x) as a call, with its count of rounds (M-102).

use crate::machine::distances_fit;
use crate::masks::{has, lies_below};
use crate::order::{near, Machine};

/// What the call gives: how many nodes it listed, and in how many rounds (M-102).
#[derive(Clone, Copy, Debug, PartialEq, Eq)]
pub struct Order {
    pub nodes: usize,
    pub rounds: u32,
}

/// "it counts them" (M-102): as the manual says, one round for each node of the machine, and one for each node listed
/// other than x.
fn rounds(nodes: usize, set: u64, x: usize, listed: usize) -> u32 {
    let others = if has(set, x) { listed - 1 } else { listed };
    (nodes + others) as u32
}

/// Writes near(x) over a set, a byte for each node: refusals in the order 1, 6, 11; no byte past the order is changed.
///
/// 1: N or the distance table breaks the rules (The machine). 6: a bit of the set, or x, at N or above. 11: the output is
/// shorter than the order.
pub fn write_near(nodes: usize, distances: &[u8], set: u64, x: usize, out: &mut [u8]) -> Result<Order, u8> {
    if !distances_fit(nodes, distances) {
        return Err(1);
    }
    if !lies_below(set, nodes) || x >= nodes {
        return Err(6);
    }
    let order = near(Machine { nodes, cpus: &[], distances }, set, x);
    if out.len() < order.len() {
        return Err(11);
    }
    for index in 0..order.len() {
        out[index] = order[index] as u8;
    }
    Ok(Order { nodes: order.len(), rounds: rounds(nodes, set, x, order.len()) })
}

#[cfg(test)]
mod tests {
    use super::*;
    use crate::examples::machine_a;

    /// Writes into eight marked bytes.
    fn written(nodes: usize, distances: &[u8], set: u64, x: usize) -> ([u8; 8], Result<Order, u8>) {
        let mut out = [0xA5; 8];
        let answer = write_near(nodes, distances, set, x, &mut out);
        (out, answer)
    }

    #[test]
    fn the_order_of_document_01() {
        let (out, answer) = written(4, &machine_a().distances, 0b1111, 2);
        assert_eq!(out, [2, 0, 3, 1, 0xA5, 0xA5, 0xA5, 0xA5]);
        assert_eq!(answer, Ok(Order { nodes: 4, rounds: 7 }));
        let (out, answer) = written(4, &machine_a().distances, 0b1011, 2);
        assert_eq!(out, [0, 3, 1, 0xA5, 0xA5, 0xA5, 0xA5, 0xA5]);
        assert_eq!(answer, Ok(Order { nodes: 3, rounds: 7 }));
    }

    #[test]
    fn only_listed_nodes_are_counted_a_second_time() {
        let distances = [10, 255, 30, 20, 10, 254, 255, 255, 10];
        assert_eq!(written(3, &distances, 0b111, 0).1, Ok(Order { nodes: 2, rounds: 4 }));
        assert_eq!(written(3, &distances, 0b111, 1).1, Ok(Order { nodes: 3, rounds: 5 }));
        assert_eq!(written(3, &distances, 0b111, 2).1, Ok(Order { nodes: 1, rounds: 3 }));
        assert_eq!(written(3, &distances, 0b011, 2).1, Ok(Order { nodes: 0, rounds: 3 }));
        assert_eq!(written(3, &distances, 0, 1).1, Ok(Order { nodes: 0, rounds: 3 }));
        let mut out = [0; 64];
        let most = Ok(Order { nodes: 64, rounds: 127 });
        assert_eq!(write_near(64, &[10; 4096], u64::MAX, 63, &mut out), most);
    }

    #[test]
    fn refusals_in_their_order() {
        let refused = |nodes, distances: &[u8], set, x, room: usize, number| {
            let mut out = vec![7; room];
            assert_eq!(write_near(nodes, distances, set, x, &mut out), Err(number), "N {nodes} set {set:b} x {x}");
            assert_eq!(out, vec![7; room]);
        };
        for (nodes, distances) in [(0, &[][..]), (65, &[10; 4225]), (1 << 32, &[]), (usize::MAX, &[10])] {
            refused(nodes, distances, u64::MAX, usize::MAX, 0, 1);
        }
        for distances in [&[10, 9, 10, 10][..], &[10, 20, 20, 11], &[10, 20, 20], &[10, 20, 20, 10, 10]] {
            refused(2, distances, u64::MAX, 2, 0, 1);
        }
        let good = [10, 20, 20, 10];
        refused(2, &good, 0b100, 0, 0, 6);
        refused(2, &good, 1 << 63, 0, 9, 6);
        refused(2, &good, 0b11, 2, 0, 6);
        refused(2, &good, 0, usize::MAX, 9, 6);
        refused(2, &good, 0b11, 1, 1, 11);
        refused(2, &good, 0b01, 1, 0, 11);
        assert_eq!(write_near(2, &good, 0, 1, &mut []), Ok(Order { nodes: 0, rounds: 2 }));
    }
}
