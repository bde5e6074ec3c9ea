//! Made-up maps and calls that change them, good and bad, from a seed. Nothing here decides a rule of the papers.

use crate::calls::{Call, Tables};
use crate::generate::Dice;
use crate::maps::{entries, is_good, map_of, map_with, END, MAP_BYTES};
use crate::masks::{all_below, has};
use crate::record::{closes, has_a_list, WORDS};

/// The sorts of maps (M-103).
#[derive(Clone, Copy, Debug, PartialEq, Eq, PartialOrd, Ord)]
pub enum Sort {
    /// 0 to N-1.
    Identity,
    /// All nodes in any order.
    Permuted,
    /// Some nodes in any order.
    Part,
    Single,
    /// FF alone.
    Empty,
    /// A node twice.
    Repeated,
    /// A node at N or above.
    Unknown,
    /// A byte other than FF after the first FF.
    AfterEnd,
    /// No FF at all: good with N = 64 alone, where it has all nodes.
    NoEnd,
    /// Any bytes.
    Rubbish,
}

/// Every sort of maps.
pub const SORTS: [Sort; 10] = [
    Sort::Identity,
    Sort::Permuted,
    Sort::Part,
    Sort::Single,
    Sort::Empty,
    Sort::Repeated,
    Sort::Unknown,
    Sort::AfterEnd,
    Sort::NoEnd,
    Sort::Rubbish,
];

impl Sort {
    /// Whether maps of this sort are good ones with N nodes.
    pub fn is_good(self, nodes: usize) -> bool {
        match self {
            Sort::Identity | Sort::Permuted | Sort::Part | Sort::Single => true,
            Sort::NoEnd => nodes == 64,
            Sort::Empty | Sort::Repeated | Sort::Unknown | Sort::AfterEnd | Sort::Rubbish => false,
        }
    }
}

/// All nodes in any order.
fn shuffled(dice: &mut Dice, nodes: usize) -> Vec<u8> {
    let mut list: Vec<u8> = (0..nodes).map(|node| node as u8).collect();
    for place in 1..nodes {
        list.swap(place, dice.below(place + 1));
    }
    list
}

/// So many different nodes in any order, or some.
fn some_nodes(dice: &mut Dice, nodes: usize, most: usize) -> Vec<u8> {
    let mut list = shuffled(dice, nodes);
    list.truncate(dice.between(1, nodes.min(most)));
    list
}

/// A node at N or above that is not FF.
fn unknown(dice: &mut Dice, nodes: usize) -> u8 {
    let any = dice.between(nodes, 254) as u8;
    dice.pick(&[nodes as u8, any, 254])
}

/// A list with one node twice.
fn repeated(dice: &mut Dice, nodes: usize) -> Vec<u8> {
    let mut list = some_nodes(dice, nodes, MAP_BYTES - 1);
    let node = dice.pick(&list);
    let at = dice.pick(&[0, list.len() / 2, list.len()]);
    list.insert(at, node);
    list
}

/// A map with a byte other than FF somewhere after its first FF.
fn after_end(dice: &mut Dice, nodes: usize) -> Vec<u8> {
    let list = some_nodes(dice, nodes, MAP_BYTES - 2);
    let mut map = map_with(&list);
    let anywhere = dice.between(list.len() + 1, MAP_BYTES - 1);
    let at = dice.pick(&[list.len() + 1, anywhere, MAP_BYTES - 1]);
    let (any, far) = (dice.below(nodes) as u8, unknown(dice, nodes));
    map[at] = dice.pick(&[0, any, far, list[0]]);
    map
}

/// The 64 bytes of a map of a sort, N being 1 to 64.
pub fn map_of_sort(dice: &mut Dice, nodes: usize, sort: Sort) -> Vec<u8> {
    let list = match sort {
        Sort::Identity => (0..nodes).map(|node| node as u8).collect(),
        Sort::Permuted => shuffled(dice, nodes),
        Sort::Part => some_nodes(dice, nodes, MAP_BYTES),
        Sort::Single => some_nodes(dice, nodes, 1),
        Sort::Empty => Vec::new(),
        Sort::Repeated => repeated(dice, nodes),
        Sort::Unknown => {
            let mut list = some_nodes(dice, nodes, MAP_BYTES);
            let at = dice.below(list.len());
            list[at] = unknown(dice, nodes);
            list
        }
        Sort::AfterEnd => return after_end(dice, nodes),
        Sort::NoEnd => shuffled(dice, nodes).into_iter().cycle().take(MAP_BYTES).collect(),
        Sort::Rubbish => (0..MAP_BYTES).map(|_| dice.byte()).collect(),
    };
    map_with(&list)
}

/// Gives a job a map of a sort.
pub fn put_map(dice: &mut Dice, tables: &mut Tables, job: usize, sort: Sort) {
    let map = map_of_sort(dice, tables.counts.len(), sort);
    tables.maps[job * MAP_BYTES..(job + 1) * MAP_BYTES].copy_from_slice(&map);
}

/// A sort of good maps.
pub fn some_good_sort(dice: &mut Dice) -> Sort {
    dice.pick(&[Sort::Identity, Sort::Permuted, Sort::Permuted, Sort::Part, Sort::Part, Sort::Single])
}

/// A map for each job: all as the machine has its numbers, or most of them good and some bad.
pub fn put_some_maps(dice: &mut Dice, tables: &mut Tables) {
    let as_the_machine = dice.chance(25);
    for job in 0..tables.jobs.len() / WORDS {
        let sort = match dice.below(10) {
            _ if as_the_machine => Sort::Identity,
            0 | 1 => dice.pick(&SORTS),
            _ => some_good_sort(dice),
        };
        put_map(dice, tables, job, sort);
    }
}

/// A table of maps of a wrong length.
pub fn wrong_length(dice: &mut Dice, tables: &mut Tables) {
    let right = tables.maps.len();
    let long = [right + 1, right + MAP_BYTES, 2 * right, 64 * MAP_BYTES + 1, 65 * MAP_BYTES];
    let short = [0, 1, right.saturating_sub(1), right.saturating_sub(MAP_BYTES), right / 2];
    let length = if dice.chance(50) { dice.pick(&long) } else { dice.pick(&short) };
    let length = if length == right { right + 1 } else { length };
    tables.maps.resize(length, dice.pick(&[0, END]));
}

/// The entries of a job's map; 0 to N-1 if it is bad or not there.
pub fn numbers_of(tables: &Tables, job: usize) -> Vec<u8> {
    let nodes = tables.counts.len();
    let has_map = job < tables.maps.len() / MAP_BYTES;
    if has_map && is_good(nodes, map_of(&tables.maps, job)) {
        return entries(map_of(&tables.maps, job)).to_vec();
    }
    (0..nodes.clamp(1, 64)).map(|node| node as u8).collect()
}

/// Has an install of modes 4 to 6 a place at N or above? A closing 255 in mode 4 is none (M-104).
pub fn has_far_place(nodes: usize, call: &Call) -> bool {
    let Call::Install { mode, places, .. } = call else { return false };
    let named = &places[..places.len() - usize::from(closes(*mode as u8, places))];
    has_a_list(*mode as u8) && named.iter().any(|place| usize::from(*place) >= nodes)
}

/// Some application nodes of a map with so many entries, rising.
fn rising(dice: &mut Dice, length: usize) -> Vec<u8> {
    let kept = if dice.chance(30) { all_below(length) } else { dice.part_of(all_below(length)) };
    (0..length).filter(|node| has(kept, *node)).map(|node| node as u8).collect()
}

/// A keep that is accepted where the job's map is good and has so many entries.
pub fn good_keep(dice: &mut Dice, job: usize, length: usize) -> Call {
    Call::KeepNodes { job, kept: rising(dice, length) }
}

/// A keep that is refused 15.
pub fn bad_keep(dice: &mut Dice, job: usize, length: usize) -> Call {
    let mut kept = rising(dice, length);
    let at = dice.below(kept.len());
    match dice.below(6) {
        0 => kept.clear(),
        1 => kept.insert(at, kept[at]),
        2 if kept.len() > 1 => kept.reverse(),
        3 => kept.push(length as u8),
        4 => kept = vec![0; dice.pick(&[65, 256, 1_000])],
        _ => kept.push(dice.between(length, 255) as u8),
    }
    Call::KeepNodes { job, kept }
}

/// A map that the administrator may set.
pub fn good_set(dice: &mut Dice, nodes: usize, job: usize) -> Call {
    let sort = some_good_sort(dice);
    Call::SetMap { job, list: entries(&map_of_sort(dice, nodes, sort)).to_vec() }
}

/// A map that is refused 15.
pub fn bad_set(dice: &mut Dice, nodes: usize, job: usize) -> Call {
    let list = match dice.below(6) {
        0 => Vec::new(),
        1 => repeated(dice, nodes),
        2 => entries(&map_of_sort(dice, nodes, Sort::Unknown)).to_vec(),
        3 => vec![0; dice.pick(&[64, 65, 128, 256, 1_000])],
        4 => {
            // 64 different bytes, then one more.
            let mut list: Vec<u8> = (0..64).collect();
            list.push(dice.pick(&[0, 64, END]));
            list
        }
        _ => {
            let mut list = some_nodes(dice, nodes, MAP_BYTES);
            list.push(END);
            list
        }
    };
    Call::SetMap { job, list }
}

#[cfg(test)]
mod tests {
    use super::*;
    use crate::calls::{apply, Answer};
    use crate::examples::machine_a;

    #[test]
    fn each_sort_is_what_its_name_says() {
        let mut dice = Dice::new(103);
        for turn in 0..6_400 {
            let nodes = 1 + turn % 64;
            for sort in SORTS {
                let map = map_of_sort(&mut dice, nodes, sort);
                assert_eq!(map.len(), MAP_BYTES);
                assert_eq!(is_good(nodes, &map), sort.is_good(nodes), "{sort:?} N {nodes}: {map:?}");
                let list = entries(&map);
                let fits = match sort {
                    Sort::Identity => list.iter().enumerate().all(|(place, node)| place == usize::from(*node)),
                    Sort::Permuted => list.len() == nodes,
                    Sort::Part | Sort::Rubbish => true,
                    Sort::Single => list.len() == 1,
                    Sort::Empty => map.iter().all(|byte| *byte == END),
                    Sort::Repeated => (1..list.len()).any(|place| list[..place].contains(&list[place])),
                    Sort::Unknown => list.iter().any(|node| usize::from(*node) >= nodes),
                    Sort::AfterEnd => map[list.len()..].iter().any(|byte| *byte != END),
                    Sort::NoEnd => list.len() == MAP_BYTES,
                };
                assert!(fits, "{sort:?} N {nodes}: {map:?}");
            }
        }
    }

    #[test]
    fn good_calls_are_accepted_and_bad_ones_refused_15() {
        let mut dice = Dice::new(15);
        let mut tables = machine_a();
        for _ in 0..5_000 {
            let sort = some_good_sort(&mut dice);
            put_map(&mut dice, &mut tables, 0, sort);
            let length = numbers_of(&tables, 0).len();
            let bad = [bad_keep(&mut dice, 0, length), bad_set(&mut dice, 4, 0)];
            for call in bad {
                assert_eq!(apply(&mut tables, &call), Answer::Refused(15), "{call:?}");
            }
            let good = [good_keep(&mut dice, 0, length), good_set(&mut dice, 4, 0)];
            for call in good {
                assert_eq!(apply(&mut tables, &call), Answer::Done, "{call:?}");
            }
        }
    }
}
