//! The questions for near(x) that are timed.

use reference::generate::Dice;
use reference::masks::all_below;

/// A machine's distances, and the set that is listed.
pub struct Machine {
    pub distances: Vec<u8>,
    pub set: u64,
}

/// Machines of N nodes whose rows are of one kind.
pub struct Rows {
    pub kind: &'static str,
    pub nodes: usize,
    pub machines: Vec<Machine>,
}

/// Any distances that are reached.
fn random_distances(dice: &mut Dice, nodes: usize) -> Vec<u8> {
    let mut distances: Vec<u8> = (0..nodes * nodes).map(|_| dice.between(10, 254) as u8).collect();
    for node in 0..nodes {
        distances[node * (nodes + 1)] = 10;
    }
    distances
}

/// The distances of a cube: by the bits in which two numbers differ.
fn few_distances(nodes: usize) -> Vec<u8> {
    (0..nodes * nodes).map(|cell| 10 + 10 * (cell / nodes ^ cell % nodes).count_ones() as u8).collect()
}

/// Half of the nodes.
fn half(dice: &mut Dice, nodes: usize) -> u64 {
    loop {
        let set = dice.next() & all_below(nodes);
        if set.count_ones() as usize == nodes / 2 {
            return set;
        }
    }
}

/// The three kinds for N nodes, each with so many questions: every x of one machine after the other.
pub fn rows(nodes: usize, questions: usize) -> [Rows; 3] {
    let mut dice = Dice::new(nodes as u64);
    let (mut random, mut few, mut of_half) = (Vec::new(), Vec::new(), Vec::new());
    for _ in 0..questions / nodes {
        let (all, set) = (all_below(nodes), half(&mut dice, nodes));
        random.push(Machine { distances: random_distances(&mut dice, nodes), set: all });
        few.push(Machine { distances: few_distances(nodes), set: all });
        of_half.push(Machine { distances: random_distances(&mut dice, nodes), set });
    }
    [("random distances", random), ("few distances", few), ("random, half of the nodes", of_half)]
        .map(|(kind, machines)| Rows { kind, nodes, machines })
}
