//! Made-up questions for near(x), from a seed. Nothing here decides a rule of the papers.

use crate::generate::Dice;
use crate::masks::{all_below, has};
use crate::near::write_near;

/// One question: N, the distance table, the set, x, and the bytes of room for the order.
#[derive(Clone, Debug, PartialEq, Eq)]
pub struct NearCase {
    pub nodes: usize,
    pub distances: Vec<u8>,
    pub set: u64,
    pub x: usize,
    pub room: usize,
}

/// One distance off the diagonal: few or many, ties, the farthest that is reached, unreachable.
pub fn some_distance(dice: &mut Dice, style: usize) -> u8 {
    match style {
        0 => dice.pick(&[20, 30, 40]),
        1 => dice.between(10, 254) as u8,
        2 => dice.between(10, 255) as u8,
        3 => dice.pick(&[10, 11, 254, 255]),
        4 => dice.pick(&[63, 64, 127, 128, 191, 192, 254, 255]),
        5 => dice.pick(&[254, 255]),
        6 => 10,
        _ => dice.pick(&[10, 20, 255]),
    }
}

/// How many styles there are.
pub const STYLES: usize = 8;

/// A good table: each row has a style of its own, or is wholly unreachable.
fn some_table(dice: &mut Dice, nodes: usize) -> Vec<u8> {
    let mut distances = Vec::new();
    for from in 0..nodes {
        let (style, unreachable) = (dice.below(STYLES), dice.chance(8));
        for to in 0..nodes {
            distances.push(match to == from {
                true => 10,
                false if unreachable => 255,
                false => some_distance(dice, style),
            });
        }
    }
    distances
}

/// Breaks one rule of the table: its length, the diagonal, or a byte below 10.
fn damage(dice: &mut Dice, nodes: usize, distances: &mut Vec<u8>) {
    let any = dice.below(distances.len());
    let at = dice.pick(&[0, any, distances.len() - 1]);
    match dice.below(6) {
        0 => distances.truncate(at),
        1 => distances.push(10),
        2 => distances.resize((nodes + 1) * (nodes + 1), 10),
        3 => distances[dice.below(nodes) * (nodes + 1)] = dice.pick(&[0, 9, 11, 20, 254, 255]),
        _ => distances[at] = dice.below(10) as u8,
    }
}

/// A set: of nodes of the machine, or with bits past them.
fn some_set(dice: &mut Dice, nodes: usize) -> u64 {
    let all = all_below(nodes);
    match dice.below(20) {
        0 => 0,
        1..=6 => all,
        7 => dice.mask(),
        8 => all | 1 << dice.below(64),
        _ => all & dice.mask(),
    }
}

/// A node of the set, a node of the machine, or none: N, one past it, and numbers that are a node in fewer bits.
fn some_x(dice: &mut Dice, nodes: usize, set: u64) -> usize {
    let node = dice.below(nodes);
    match dice.below(20) {
        0 => dice.pick(&[nodes, nodes + 1, 63, 64, 65, 255]),
        1 => dice.pick(&[256 + node, 1 << 16 | node, 1 << 32 | node, usize::MAX, usize::MAX - 255 + node]),
        2..=11 => (node..nodes).chain(0..nodes).find(|node| has(set, *node)).unwrap_or(node),
        _ => node,
    }
}

/// No number of nodes, with tables of a length that its square may be taken for.
fn no_machine(dice: &mut Dice) -> (usize, Vec<u8>) {
    let wrong = [(0, 0), (0, 1), (65, 4225), (65, 4096), (255, 1), (256, 0), (260, 16), (1 << 16, 0)];
    let wide = [(1 << 32, 0), (1 << 32 | 4, 16), (1 << 63, 0), (usize::MAX, 1), (usize::MAX - 3, 16), (usize::MAX, 0)];
    let (nodes, length) = dice.pick(&[&wrong[..], &wide[..]].concat());
    let side = (length as f64).sqrt() as usize;
    let mut distances = vec![20; length];
    for node in 0..side {
        distances[node * (side + 1)] = 10;
    }
    (nodes, distances)
}

/// The room for so many bytes: none, one too few, exact, or more.
pub(crate) fn some_room(dice: &mut Dice, need: usize) -> usize {
    match dice.below(8) {
        0 => 0,
        1 => need.saturating_sub(1),
        2 | 3 => need,
        4 => dice.below(need + 1),
        5 => need + dice.between(1, 3),
        6 => 64,
        _ => 300,
    }
}

/// A question of any sort: mostly good ones, on machines of every size.
pub fn near_case(seed: u64) -> NearCase {
    let mut dice = Dice::new(seed ^ 0x2EA4);
    if dice.chance(4) {
        let (nodes, distances) = no_machine(&mut dice);
        let (set, x, room) = (dice.mask(), dice.below(5), dice.pick(&[0, 4, 64, 300]));
        return NearCase { nodes, distances, set, x, room };
    }
    let nodes = match dice.below(4) {
        0 => dice.pick(&[1, 2, 3, 4, 16, 63, 64, 64]),
        1 => dice.between(1, 8),
        _ => dice.between(1, 64),
    };
    let mut distances = some_table(&mut dice, nodes);
    let set = some_set(&mut dice, nodes);
    let x = some_x(&mut dice, nodes, set);
    let need = write_near(nodes, &distances, set, x, &mut [0; 64]).map_or(nodes, |order| order.nodes);
    let room = some_room(&mut dice, need);
    if dice.chance(6) {
        damage(&mut dice, nodes, &mut distances);
    }
    NearCase { nodes, distances, set, x, room }
}

#[cfg(test)]
mod tests {
    use super::*;
    use std::collections::BTreeMap;

    #[test]
    fn questions_show_every_answer() {
        let mut refused = BTreeMap::new();
        let (mut with_x, mut without_x, mut most) = (0, 0, 0);
        for seed in 0..5_000 {
            let NearCase { nodes, distances, set, x, room } = near_case(seed);
            let answer = write_near(nodes, &distances, set, x, &mut vec![0; room]);
            *refused.entry(answer.err().unwrap_or(0)).or_insert(0) += 1;
            if let Ok(order) = answer {
                with_x += usize::from(has(set, x));
                without_x += usize::from(!has(set, x));
                most = most.max(order.rounds);
            }
        }
        assert_eq!(refused.keys().copied().collect::<Vec<u8>>(), [0, 1, 6, 11]);
        assert!(refused.values().all(|times| *times > 300), "{refused:?}");
        assert!(with_x > 500 && without_x > 500 && most == 127, "{with_x} {without_x} {most}");
    }
}
