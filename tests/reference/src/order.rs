//! Search order: which nodes a request tries, and in which turn.

use crate::machine::{NEAREST, UNREACHABLE};
use crate::masks::{has, lowest, lowest_above};
use crate::record::{closes, places_of, Record, BIND, EARLY, INTERLEAVE, LIST, PREFERRED, RING, STATIC};

/// Where in the order a node stands (Search order).
#[derive(Clone, Copy, Debug, PartialEq, Eq)]
pub enum Part {
    /// From near(x): modes 0 to 3, and a closing 255 in mode 4 (M-104).
    Near,
    /// A place of a list: modes 4 to 6.
    Place(usize),
}

/// One node of the order, and where it came from (Search order).
#[derive(Clone, Copy, Debug, PartialEq, Eq)]
pub struct Try {
    pub node: usize,
    pub part: Part,
}

/// The part of the machine the order needs (The machine).
#[derive(Clone, Copy)]
pub struct Machine<'a> {
    pub nodes: usize,
    pub cpus: &'a [u8],
    pub distances: &'a [u8],
}

/// The distance in row x (The machine: "row by row").
pub(crate) fn distance(machine: Machine, from: usize, to: usize) -> u8 {
    machine.distances[from * machine.nodes + to]
}

/// near(x): "x first if allowed, then the other allowed nodes at distance below 255 in row x" (Search order).
pub fn near(machine: Machine, allowed: u64, x: usize) -> Vec<usize> {
    let mut order = Vec::new();
    if has(allowed, x) {
        order.push(x);
    }
    for how_far in NEAREST..UNREACHABLE {
        for node in 0..machine.nodes {
            if node != x && has(allowed, node) && distance(machine, x, node) == how_far {
                order.push(node);
            }
        }
    }
    order
}

/// Nodes of near(x) as tries (Search order).
fn as_near(nodes: Vec<usize>) -> Vec<Try> {
    let mut tries = Vec::new();
    for node in nodes {
        tries.push(Try { node, part: Part::Near });
    }
    tries
}

/// "any mode with static and an empty effective set" (Search order).
pub(crate) fn static_and_empty(record: &Record) -> bool {
    record.flag == STATIC && record.effective == 0
}

/// "near(lowest effective node), or near(CPU's node) with an empty user mask" (Search order, preferred).
fn preferred(machine: Machine, record: &Record, limit: u64, cpu_node: usize) -> Vec<usize> {
    if record.user == 0 {
        return near(machine, limit, cpu_node);
    }
    match lowest(record.effective) {
        Some(node) => near(machine, limit, node),
        None => Vec::new(),
    }
}

/// "near(CPU's node), effective nodes only" (Search order, bind).
fn bind(machine: Machine, record: &Record, limit: u64, cpu_node: usize) -> Vec<usize> {
    let mut order = Vec::new();
    for node in near(machine, limit, cpu_node) {
        if has(record.effective, node) {
            order.push(node);
        }
    }
    order
}

/// "the lowest effective node above the last target, else the lowest effective one" (Search order, interleave).
pub fn target(record: &Record) -> Option<usize> {
    if record.cursor == 0 {
        return lowest(record.effective);
    }
    let last = usize::from(record.cursor) - 1;
    match lowest_above(record.effective, last) {
        Some(node) => Some(node),
        None => lowest(record.effective),
    }
}

/// "then near(t)" (Search order, interleave).
fn interleave(machine: Machine, record: &Record, limit: u64) -> Vec<usize> {
    match target(record) {
        Some(t) => near(machine, limit, t),
        None => Vec::new(),
    }
}

/// "A place whose byte is N or more, or not allowed, is passed over" (Search order); or outside the map (M-103).
pub fn place_is_allowed(nodes: usize, record: &Record, limit: u64, place: usize) -> bool {
    let node = usize::from(record.places[place]);
    node < nodes && has(limit, node)
}

/// Places in a given turn, the passed over ones left out (Search order).
fn tries_of_places(nodes: usize, record: &Record, limit: u64, turn: &[usize]) -> Vec<Try> {
    let mut tries = Vec::new();
    for place in turn {
        if place_is_allowed(nodes, record, limit, *place) {
            let node = usize::from(record.places[*place]);
            tries.push(Try { node, part: Part::Place(*place) });
        }
    }
    tries
}

/// "List: places in order" (Search order).
fn list_turn(length: usize) -> Vec<usize> {
    let mut turn = Vec::new();
    for place in 0..length {
        turn.push(place);
    }
    turn
}

/// "List: places in order" (Search order); "a 255 in the last place of a mode 4 list stands, unmapped, for near(CPU's node)
/// there" (M-104). As a place it names no node of the machine.
fn list(machine: Machine, record: &Record, limit: u64, cpu_node: usize) -> Vec<Try> {
    let mut tries = tries_of_places(machine.nodes, record, limit, &list_turn(usize::from(record.length)));
    if closes(record.mode, places_of(record)) {
        tries.extend(as_near(near(machine, limit, cpu_node)));
    }
    tries
}

/// "Ring: places from one past the cursor, once round; from place 0 with no cursor" (Search order).
pub fn ring_turn(length: usize, cursor_field: u8) -> Vec<usize> {
    let mut turn = Vec::new();
    let mut place = 0;
    if cursor_field != 0 {
        let last_place = usize::from(cursor_field) - 1;
        place = next_place(length, last_place);
    }
    for _ in 0..length {
        turn.push(place);
        place = next_place(length, place);
    }
    turn
}

/// One past a place, round the list (Search order, ring).
fn next_place(length: usize, place: usize) -> usize {
    if place + 1 < length {
        place + 1
    } else {
        0
    }
}

/// "Early: place 0, then as ring" (Search order).
fn early_turn(length: usize, cursor_field: u8) -> Vec<usize> {
    let mut turn = vec![0];
    turn.extend(ring_turn(length, cursor_field));
    turn
}

/// The whole search order of a well-formed record for a request from a CPU (Search order). The limit is the allowed set, as
/// 01 has it; or its nodes in the map: "The search order drops nodes outside the map" (M-103). What is effective stays.
pub fn search_order(machine: Machine, record: &Record, limit: u64, cpu: usize) -> Vec<Try> {
    let cpu_node = usize::from(machine.cpus[cpu]);
    let length = usize::from(record.length);
    if static_and_empty(record) {
        return as_near(near(machine, limit, cpu_node));
    }
    match record.mode {
        PREFERRED => as_near(preferred(machine, record, limit, cpu_node)),
        BIND => as_near(bind(machine, record, limit, cpu_node)),
        INTERLEAVE => as_near(interleave(machine, record, limit)),
        LIST => list(machine, record, limit, cpu_node),
        RING => tries_of_places(machine.nodes, record, limit, &ring_turn(length, record.cursor)),
        EARLY => tries_of_places(machine.nodes, record, limit, &early_turn(length, record.cursor)),
        _ => as_near(near(machine, limit, cpu_node)),
    }
}

/// The cursor field after a grant from this try (Search order, last paragraph); "any grant in mode 6 sets the cursor to the granted place"
/// (M-101); all other modes keep theirs.
pub fn cursor_after_grant(record: &Record, granted: Try) -> u8 {
    match record.mode {
        INTERLEAVE => match target(record) {
            Some(t) => t as u8 + 1,
            None => record.cursor,
        },
        RING | EARLY => match granted.part {
            Part::Place(place) => place as u8 + 1,
            Part::Near => record.cursor,
        },
        _ => record.cursor,
    }
}

#[cfg(test)]
mod tests {
    use super::*;
    use crate::record::fresh;

    #[test]
    fn near_puts_x_first_even_before_a_lower_neighbour_at_distance_10() {
        let machine = Machine { nodes: 3, cpus: &[0], distances: &[10, 10, 10, 10, 10, 10, 10, 10, 10] };
        assert_eq!(near(machine, 0b111, 2), vec![2, 0, 1]);
        assert_eq!(near(machine, 0b011, 2), vec![0, 1]);
    }

    #[test]
    fn near_leaves_out_the_unreachable_and_goes_by_row_x() {
        let machine = Machine { nodes: 3, cpus: &[0], distances: &[10, 255, 30, 20, 10, 254, 255, 10, 10] };
        assert_eq!(near(machine, 0b111, 0), vec![0, 2]);
        assert_eq!(near(machine, 0b111, 1), vec![1, 0, 2]);
        assert_eq!(near(machine, 0b111, 2), vec![2, 1]);
        assert_eq!(near(machine, 0b010, 0), Vec::<usize>::new());
    }

    #[test]
    fn a_ring_starts_one_past_its_cursor() {
        assert_eq!(ring_turn(3, 0), vec![0, 1, 2]);
        assert_eq!(ring_turn(3, 1), vec![1, 2, 0]);
        assert_eq!(ring_turn(3, 3), vec![0, 1, 2]);
        assert_eq!(ring_turn(1, 1), vec![0]);
    }

    #[test]
    fn early_tries_place_0_and_then_goes_on_one_past_its_cursor() {
        assert_eq!(early_turn(3, 0), vec![0, 0, 1, 2]);
        assert_eq!(early_turn(3, 1), vec![0, 1, 2, 0]);
        assert_eq!(early_turn(3, 2), vec![0, 2, 0, 1]);
        assert_eq!(early_turn(1, 1), vec![0, 0]);
    }

    /// A mode and these places.
    fn places(mode: u8, list: &[u8]) -> Record {
        let mut record = fresh();
        record.mode = mode;
        record.length = list.len() as u8;
        record.places[..list.len()].copy_from_slice(list);
        record
    }

    #[test]
    fn a_closing_255_is_near_the_cpus_node_in_mode_4_alone() {
        let machine = Machine { nodes: 3, cpus: &[2], distances: &[10, 20, 30, 20, 10, 255, 30, 20, 10] };
        let nodes = |mode, list: &[u8], limit| {
            let order = search_order(machine, &places(mode, list), limit, 0);
            order.iter().map(|one| one.node).collect::<Vec<usize>>()
        };
        assert_eq!(nodes(LIST, &[0, 255], 0b111), vec![0, 2, 1, 0]);
        assert_eq!(nodes(LIST, &[255], 0b111), vec![2, 1, 0]);
        assert_eq!(nodes(LIST, &[1, 255, 0, 255], 0b011), vec![1, 0, 1, 0]);
        assert_eq!(nodes(LIST, &[255, 0], 0b111), vec![0]);
        assert_eq!(nodes(LIST, &[0, 254], 0b111), vec![0]);
        assert_eq!(nodes(RING, &[0, 255], 0b111), vec![0]);
        assert_eq!(nodes(EARLY, &[1, 255], 0b111), vec![1, 1]);
        let near = Try { node: 2, part: Part::Near };
        assert_eq!(cursor_after_grant(&places(LIST, &[0, 255]), near), 0);
    }

    #[test]
    fn the_target_may_follow_a_node_that_is_not_effective() {
        let mut record = fresh();
        record.mode = INTERLEAVE;
        record.effective = 0b10110;
        assert_eq!(target(&record), Some(1));
        record.cursor = 4;
        assert_eq!(target(&record), Some(4));
        record.cursor = 5;
        assert_eq!(target(&record), Some(1));
        record.cursor = 64;
        assert_eq!(target(&record), Some(1));
        record.effective = 0;
        assert_eq!(target(&record), None);
    }
}
