//! Node masks: membership, ranks, sizes, folding and remapping.

/// "Bit n of a mask stands for node n" (A job's record).
pub fn has(mask: u64, node: usize) -> bool {
    node < 64 && (mask >> node) & 1 == 1
}

/// The mask with one more node (A job's record).
pub fn with(mask: u64, node: usize) -> u64 {
    if node < 64 {
        mask | (1u64 << node)
    } else {
        mask
    }
}

/// The mask without a node (M-107: "without x").
pub fn without(mask: u64, node: usize) -> u64 {
    if has(mask, node) {
        mask - with(0, node)
    } else {
        mask
    }
}

/// "Ranks and sizes are counts of ones in the mask" (Masks).
pub fn size(mask: u64) -> usize {
    let mut ones = 0;
    for node in 0..64 {
        if has(mask, node) {
            ones += 1;
        }
    }
    ones
}

/// The rank of a node: the ones below it (Masks).
pub fn rank(mask: u64, node: usize) -> usize {
    let mut ones = 0;
    for lower in 0..node {
        if has(mask, lower) {
            ones += 1;
        }
    }
    ones
}

/// The node of a rank, "ranks from 0 upwards" (Masks).
pub fn node_of_rank(mask: u64, wanted: usize) -> Option<usize> {
    for node in 0..64 {
        if has(mask, node) && rank(mask, node) == wanted {
            return Some(node);
        }
    }
    None
}

/// The mask of all nodes below N (Node-list text, A job's record).
pub fn all_below(nodes: usize) -> u64 {
    let mut mask = 0;
    for node in 0..nodes.min(64) {
        mask = with(mask, node);
    }
    mask
}

/// No bit at N or above (A job's record, Refusal numbers 6).
pub fn lies_below(mask: u64, nodes: usize) -> bool {
    for node in 0..64 {
        if has(mask, node) && node >= nodes {
            return false;
        }
    }
    true
}

/// Every node of the one is in the other (A job's record: "within allowed").
pub fn lies_within(inner: u64, outer: u64) -> bool {
    for node in 0..64 {
        if has(inner, node) && !has(outer, node) {
            return false;
        }
    }
    true
}

/// "user bit b gives the allowed node of rank b mod w" (Masks, folded).
pub fn folded(user: u64, allowed: u64) -> u64 {
    let w = size(allowed);
    let mut mask = 0;
    if w == 0 {
        return mask;
    }
    for b in 0..64 {
        if has(user, b) {
            if let Some(node) = node_of_rank(allowed, b % w) {
                mask = with(mask, node);
            }
        }
    }
    mask
}

/// "a node of rank r in the old allowed set becomes the node of rank r mod w in the new one" (Masks, remapped).
pub fn remapped(effective: u64, old_allowed: u64, new_allowed: u64) -> u64 {
    let w = size(new_allowed);
    let mut mask = 0;
    if w == 0 {
        return mask;
    }
    for node in 0..64 {
        if has(effective, node) {
            let r = rank(old_allowed, node);
            if let Some(new_node) = node_of_rank(new_allowed, r % w) {
                mask = with(mask, new_node);
            }
        }
    }
    mask
}

/// The lowest node of a mask (Search order, preferred).
pub fn lowest(mask: u64) -> Option<usize> {
    for node in 0..64 {
        if has(mask, node) {
            return Some(node);
        }
    }
    None
}

/// The lowest node of a mask above another (Search order, interleave).
pub fn lowest_above(mask: u64, last: usize) -> Option<usize> {
    for node in 0..64 {
        if node > last && has(mask, node) {
            return Some(node);
        }
    }
    None
}

#[cfg(test)]
mod tests {
    use super::*;

    #[test]
    fn sizes_and_ranks() {
        assert_eq!(size(0), 0);
        assert_eq!(size(u64::MAX), 64);
        assert_eq!(rank(0b101101, 3), 2);
        assert_eq!(rank(u64::MAX, 63), 63);
        assert_eq!(node_of_rank(0b101101, 3), Some(5));
        assert_eq!(node_of_rank(0b101101, 4), None);
    }

    #[test]
    fn below_and_within() {
        assert!(lies_below(u64::MAX, 64));
        assert!(!lies_below(u64::MAX, 63));
        assert!(lies_below(1 << 63, 64));
        assert!(lies_below(0, 1));
        assert_eq!(all_below(64), u64::MAX);
        assert_eq!(all_below(1), 1);
        assert!(lies_within(0b0110, 0b1110));
        assert!(!lies_within(0b0111, 0b1110));
    }

    #[test]
    fn folding_uses_all_64_user_bits() {
        assert_eq!(folded(1 << 63, 0b1110), 0b0010);
        assert_eq!(folded(1 << 62, 0b1110), 0b1000);
        assert_eq!(folded(u64::MAX, 0b1010), 0b1010);
        assert_eq!(folded(5, 0), 0);
    }

    #[test]
    fn two_remapped_nodes_may_become_one() {
        assert_eq!(remapped(0b1111, 0b1111, 0b0100), 0b0100);
        assert_eq!(remapped(0b1001, 0b1111, 0b0110), 0b0110);
        assert_eq!(remapped(0, 0b1111, 0b0110), 0);
    }

    #[test]
    fn lowest_ones() {
        assert_eq!(lowest(0), None);
        assert_eq!(lowest(1 << 63), Some(63));
        assert_eq!(lowest_above(0b1010, 1), Some(3));
        assert_eq!(lowest_above(0b1010, 3), None);
    }
}
