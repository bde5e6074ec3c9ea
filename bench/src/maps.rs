//! The maps of jobs: judged, and nodes turned by them.

/// The bytes of each job's map.
pub type Maps = [[u8; 64]];

/// Are there 64 bytes for each job of six words?
pub fn maps_ok(jobs: usize, maps: usize) -> bool {
    maps == jobs / 6 * 64
}

/// A good map: the machine's nodes by the job's own numbers, and as a mask.
#[derive(Clone, Copy)]
pub struct JobMap<'a> {
    bytes: &'a [u8; 64],
    length: usize,
    pub nodes: u64,
}

/// The mask of different nodes; none if there is none, one twice, or one that the machine does not have.
fn mask_of(nodes: usize, list: &[u8]) -> Option<u64> {
    let (mut mask, mut most) = (0u64, 0);
    for node in list {
        mask |= 1 << (node & 63);
        most = most.max(*node);
    }
    (!list.is_empty() && usize::from(most) < nodes && mask.count_ones() as usize == list.len()).then_some(mask)
}

impl<'a> JobMap<'a> {
    /// The map in these bytes; none if it is bad. There are as many nodes as bytes that are not FF; so an FF before a node
    /// is taken for a node, which the machine does not have.
    pub fn of(nodes: usize, bytes: &'a [u8; 64]) -> Option<JobMap<'a>> {
        let ends: u8 = bytes.iter().map(|byte| u8::from(*byte == 255)).sum();
        let length = 64 - usize::from(ends);
        mask_of(nodes, &bytes[..length]).map(|nodes| JobMap { bytes, length, nodes })
    }

    /// The job's own number for a node, or 255: eight entries at a time, the node's byte becoming the lowest that is zero.
    pub fn number(self, node: usize) -> u8 {
        const ONES: u64 = 0x0101_0101_0101_0101;
        for (place, eight) in (0..).step_by(8).zip(self.bytes.as_chunks().0) {
            let word = u64::from_le_bytes(*eight) ^ ONES * node as u64;
            let zeros = word.wrapping_sub(ONES) & !word & ONES << 7;
            if zeros != 0 {
                return place + (zeros.trailing_zeros() / 8) as u8;
            }
        }
        255
    }

    /// The machine's nodes of a mask; none if it has a bit past the end.
    pub fn mask(self, mask: u64) -> Option<u64> {
        if self.length < 64 && mask >> self.length != 0 {
            return None;
        }
        let (mut rest, mut turned) = (mask, 0);
        while rest != 0 {
            turned |= 1 << (self.bytes[rest.trailing_zeros() as usize] & 63);
            rest &= rest - 1;
        }
        Some(turned)
    }

    /// The machine's nodes of the first places, the bytes past them as they are; none if one is past the map's end.
    pub fn places(self, length: u64, places: u128) -> Option<u128> {
        let mut bytes = places.to_le_bytes();
        for byte in bytes.iter_mut().take(length as usize) {
            *byte = *self.bytes[..self.length].get(usize::from(*byte))?;
        }
        Some(u128::from_le_bytes(bytes))
    }
}

/// Writes a list, then FF; false, and nothing is done, if it is no good one.
pub fn set(nodes: usize, map: &mut [u8; 64], list: &[u8]) -> bool {
    let good = list.len() <= 64 && mask_of(nodes, list).is_some();
    if good {
        map[..list.len()].copy_from_slice(list);
        map[list.len()..].fill(255);
    }
    good
}

/// Keeps entries of a good map; false, and nothing is done, if it is bad or the list is none of its, rising.
pub fn keep(nodes: usize, map: &mut [u8; 64], kept: &[u8]) -> bool {
    let Some(JobMap { length, .. }) = JobMap::of(nodes, map) else { return false };
    let rising = kept.windows(2).all(|pair| pair[0] < pair[1]);
    let good = kept.last().is_some_and(|last| usize::from(*last) < length) && rising;
    if good {
        // Each entry comes from its own place or a later one.
        for (place, from) in kept.iter().enumerate() {
            map[place] = map[usize::from(*from)];
        }
        map[kept.len()..].fill(255);
    }
    good
}
