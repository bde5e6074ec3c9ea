//! Maps: which system node each application node of a job is (M-103).
//!
//! A system node is an index into the machine's tables, a `usize`, as before; an application node is a kind of its own.

use crate::masks::{has, with};
use crate::record::WORDS;

/// "a further lent table of 64 bytes a job" (M-103).
pub const MAP_BYTES: usize = 64;
/// "then FF to the end" (M-103).
pub const END: u8 = 0xFF;

/// A node by the job's own number: "entry a being application node a" (M-103).
#[derive(Clone, Copy, Debug, PartialEq, Eq, PartialOrd, Ord)]
pub struct AppNode(pub u8);

/// "in a further lent table of 64 bytes a job, else 1" (M-103), for a job table of a right length.
pub fn maps_fit(jobs: &[u64], maps: &[u8]) -> bool {
    maps.len() == jobs.len() / WORDS * MAP_BYTES
}

/// The 64 bytes of a job (M-103).
pub fn map_of(maps: &[u8], job: usize) -> &[u8] {
    &maps[job * MAP_BYTES..(job + 1) * MAP_BYTES]
}

/// The entries: the bytes before the first FF, or all of them (M-103).
pub fn entries(map: &[u8]) -> &[u8] {
    for place in 0..map.len() {
        if map[place] == END {
            return &map[..place];
        }
    }
    map
}

/// "a list of 1 to 64 different system nodes"; none of them "repeated or unknown" (M-103).
pub fn is_good_list(nodes: usize, list: &[u8]) -> bool {
    if list.is_empty() || list.len() > MAP_BYTES {
        return false;
    }
    for place in 0..list.len() {
        if usize::from(list[place]) >= nodes {
            return false;
        }
        for earlier in 0..place {
            if list[earlier] == list[place] {
                return false;
            }
        }
    }
    true
}

/// A good list, "then FF to the end": no "node after an FF" (M-103).
pub fn is_good(nodes: usize, map: &[u8]) -> bool {
    let list = entries(map);
    for byte in &map[list.len()..] {
        if *byte != END {
            return false;
        }
    }
    is_good_list(nodes, list)
}

/// The system node of an application node; none "past the map's end" (M-103).
pub fn system_node(map: &[u8], node: AppNode) -> Option<usize> {
    entries(map).get(usize::from(node.0)).map(|byte| usize::from(*byte))
}

/// The application node of a system node; none where it is outside the map (M-103).
pub fn application_node(map: &[u8], node: usize) -> Option<AppNode> {
    let list = entries(map);
    for place in 0..list.len() {
        if usize::from(list[place]) == node {
            return Some(AppNode(place as u8));
        }
    }
    None
}

/// The system nodes in a map: "a second limit beside the allowed set" (M-103).
pub fn nodes_in(map: &[u8]) -> u64 {
    let mut mask = 0;
    for byte in entries(map) {
        mask = with(mask, usize::from(*byte));
    }
    mask
}

/// "User masks and places are turned into system nodes": a mask; none if it has a bit past the map's end (M-103).
pub fn system_mask(map: &[u8], mask: u64) -> Option<u64> {
    let mut turned = 0;
    for node in 0..64 {
        if has(mask, node) {
            turned = with(turned, system_node(map, AppNode(node as u8))?);
        }
    }
    Some(turned)
}

/// Likewise the places; none if one is past the map's end (M-103).
pub fn system_places(map: &[u8], places: &[u8]) -> Option<Vec<u8>> {
    let mut turned = Vec::new();
    for place in places {
        turned.push(system_node(map, AppNode(*place))? as u8);
    }
    Some(turned)
}

/// The entries that the tenant keeps: "one or more, rising", of application nodes that there are; else none (M-103).
pub fn kept_entries(map: &[u8], kept: &[u8]) -> Option<Vec<u8>> {
    if kept.is_empty() {
        return None;
    }
    for place in 1..kept.len() {
        if kept[place] <= kept[place - 1] {
            return None;
        }
    }
    system_places(map, kept)
}

/// A list as a map: "then FF to the end" (M-103).
pub fn map_with(list: &[u8]) -> Vec<u8> {
    let mut map = list.to_vec();
    map.resize(MAP_BYTES, END);
    map
}

/// Writes the map of a job.
pub fn write_map(maps: &mut [u8], job: usize, list: &[u8]) {
    maps[job * MAP_BYTES..(job + 1) * MAP_BYTES].copy_from_slice(&map_with(list));
}

/// "map 0 to N-1" (M-103) for so many jobs.
pub fn identity_maps(nodes: usize, jobs: usize) -> Vec<u8> {
    let list: Vec<u8> = (0..nodes.min(MAP_BYTES)).map(|node| node as u8).collect();
    map_with(&list).repeat(jobs)
}

#[cfg(test)]
mod tests {
    use super::*;

    #[test]
    fn good_and_bad_maps() {
        let good = |nodes, list: &[u8]| is_good(nodes, &map_with(list));
        assert!(good(4, &[3, 1]) && good(4, &[0, 1, 2, 3]) && good(1, &[0]));
        assert!(!good(4, &[]), "empty");
        assert!(!good(4, &[3, 1, 3]), "repeated");
        assert!(!good(4, &[3, 4]) && !good(4, &[254]) && !good(64, &[64]), "unknown");
        assert!(!good(4, &[3, 0xFF, 1]) && !good(4, &[0xFF, 1]) && !good(4, &[3, 0xFF, 200]), "a node after an FF");
        let all: Vec<u8> = (0..64).rev().collect();
        assert!(good(64, &all) && !good(63, &all), "no FF at all");
        let mut last = map_with(&[3, 1]);
        last[63] = 0;
        assert!(!is_good(4, &last), "a node in the last byte");
    }

    #[test]
    fn masks_and_places_are_turned_by_entry() {
        let map = map_with(&[3, 0, 2]);
        assert_eq!(system_mask(&map, 0b011), Some(0b1001));
        assert_eq!(system_mask(&map, 0b100), Some(0b0100));
        assert_eq!(system_mask(&map, 0b1000), None);
        assert_eq!(system_mask(&map, 1 << 63), None);
        assert_eq!(system_mask(&map, 0), Some(0));
        assert_eq!(system_places(&map, &[2, 2, 0]), Some(vec![2, 2, 3]));
        assert_eq!(system_places(&map, &[0, 3]), None);
        assert_eq!(system_places(&map, &[255]), None);
        assert_eq!(application_node(&map, 2), Some(AppNode(2)));
        assert_eq!(application_node(&map, 3), Some(AppNode(0)));
        assert_eq!(application_node(&map, 1), None);
        assert_eq!(nodes_in(&map), 0b1101);
        assert_eq!(nodes_in(&identity_maps(64, 1)), u64::MAX);
    }

    #[test]
    fn a_tenant_keeps_some_entries_in_their_order() {
        let map = map_with(&[3, 0, 2]);
        assert_eq!(kept_entries(&map, &[0, 2]), Some(vec![3, 2]));
        assert_eq!(kept_entries(&map, &[0, 1, 2]), Some(vec![3, 0, 2]));
        for kept in [&[][..], &[1, 0], &[1, 1], &[3], &[0, 3], &[255]] {
            assert_eq!(kept_entries(&map, kept), None, "{kept:?}");
        }
    }
}
