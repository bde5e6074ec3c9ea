//! A question for near(x): one row of a machine.

use std::collections::BTreeSet;
use std::fmt;

use reference::generate::Dice;
use reference::masks::all_below;
use reference::near::{write_near, Order};
use reference::near_cases::{some_distance, STYLES};

/// Row x of a machine, and the set. All other rows are 10.
#[derive(Clone, Debug)]
pub struct Question {
    row: Vec<u8>,
    set: u64,
    x: usize,
}

/// The order, and its count of rounds.
pub struct Answer {
    pub order: Vec<u8>,
    pub rounds: u32,
}

impl Question {
    /// A row of any style, a set of any sort.
    pub fn random(dice: &mut Dice, nodes: usize) -> Question {
        let (style, x) = (dice.below(STYLES), dice.below(nodes));
        let row = (0..nodes).map(|node| if node == x { 10 } else { some_distance(dice, style) }).collect();
        Question { row, set: dice.mask() & all_below(nodes), x }
    }

    /// The same but for one byte of the row, one bit of the set, or x.
    pub fn changed(&self, dice: &mut Dice) -> Question {
        let mut next = self.clone();
        let node = dice.below(self.row.len());
        match dice.below(5) {
            0 | 1 => next.row[node] = dice.between(10, 255) as u8,
            2 | 3 => next.set ^= 1 << node,
            _ => next.x = node,
        }
        next.row[next.x] = 10;
        next
    }

    /// The library's answer, which must be the second implementation's.
    pub fn answer(&self) -> Answer {
        let nodes = self.row.len();
        let mut distances = vec![10; nodes * nodes];
        distances[self.x * nodes..][..nodes].copy_from_slice(&self.row);
        let (mut order, mut expected) = ([0xA5; 64], [0xA5; 64]);
        let found = spirerivet::near(nodes, &distances, self.set, self.x, &mut order).expect("a good question");
        let Order { nodes: listed, rounds } =
            write_near(nodes, &distances, self.set, self.x, &mut expected).expect("a good question");
        assert_eq!((found.nodes, found.rounds), (listed, rounds), "{self}");
        assert_eq!(order, expected, "{self}");
        Answer { order: order[..listed].to_vec(), rounds }
    }

    /// How many distances the listed nodes have.
    pub fn distances(&self, answer: &Answer) -> usize {
        answer.order.iter().map(|node| self.row[usize::from(*node)]).collect::<BTreeSet<u8>>().len()
    }
}

impl fmt::Display for Question {
    fn fmt(&self, to: &mut fmt::Formatter) -> fmt::Result {
        write!(to, "x {}, set {:X}, row", self.x, self.set)?;
        self.row.iter().try_for_each(|distance| write!(to, " {distance}"))
    }
}
