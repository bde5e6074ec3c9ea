//! Node masks by whole words.

/// All nodes below a number up to 64.
pub fn below(nodes: usize) -> u64 {
    if nodes >= 64 {
        u64::MAX
    } else {
        (1 << nodes) - 1
    }
}

/// The nodes whose entry pleases, by eights: the entries become bytes of 0 and 1, and a product gathers these to eight bits.
#[inline(always)]
pub fn nodes_with<T: Copy>(entries: &[T], pleases: impl Fn(T) -> bool) -> u64 {
    let (eights, rest) = entries.as_chunks();
    let highest = rest.iter().rev().fold(0, |mask, entry| mask << 1 | u64::from(pleases(*entry)));
    eights.iter().rev().fold(highest, |mask, eight: &[T; 8]| {
        let bytes = eight.map(|entry| u8::from(pleases(entry)));
        mask << 8 | u64::from_le_bytes(bytes).wrapping_mul(0x0102_0408_1020_4080) >> 56
    })
}

/// Eight bits as bytes of 0 and 1.
pub fn spread(bits: u8) -> u64 {
    const ONES: u64 = 0x0101_0101_0101_0101;
    let each = (ONES * u64::from(bits)) & 0x8040_2010_0804_0201;
    (each + 0x7F * ONES) >> 7 & ONES
}

/// The nodes of these ranks: each allowed node takes the next bit.
fn deposit(ranks: u64, allowed: u64) -> u64 {
    let (mut ranks, mut rest, mut mask) = (ranks, allowed, 0);
    while ranks != 0 && rest != 0 {
        let higher = rest & (rest - 1);
        mask |= (rest ^ higher) & (ranks & 1).wrapping_neg();
        ranks >>= 1;
        rest = higher;
    }
    mask
}

/// The ranks of these nodes: each allowed node gives its bit to the next rank.
fn extract(nodes: u64, allowed: u64) -> u64 {
    let (mut rest, mut rank, mut ranks) = (allowed, 0, 0);
    while rest != 0 {
        ranks |= (nodes >> rest.trailing_zeros() & 1) << rank;
        rank += 1;
        rest &= rest - 1;
    }
    ranks
}

/// User bit b gives the allowed node of rank b mod w: the mask is laid over itself shifted by w, 2w, 4w and so on.
pub fn folded(user: u64, allowed: u64) -> u64 {
    let width = allowed.count_ones();
    if width == 0 {
        return 0;
    }
    let (mut ranks, mut step) = (user, width);
    while step < 64 && ranks >> step != 0 {
        ranks |= ranks >> step;
        step *= 2;
    }
    deposit(ranks & below(width as usize), allowed)
}

/// A node of rank r in the old set becomes the node of rank r mod w in the new one.
pub fn remapped(effective: u64, old: u64, new: u64) -> u64 {
    folded(extract(effective, old), new)
}
