//! M-102: near(x) and its count of rounds, by the linked library and by the second implementation.

use hosts::{near_by_both, seeds, NUMBERS};
use reference::examples::machine_a;
use reference::generate::Dice;
use reference::masks::{all_below, has, size};
use reference::near_cases::{near_case, NearCase};
use spirerivet::{Answer, Refusal};

/// What questions showed, so that a test can say it was not empty.
#[derive(Default, Debug)]
struct Seen {
    listed: u64,
    with_x: u64,
    without_x: u64,
    /// Some node of the set could not be reached; none of several could.
    left_out: u64,
    unreachable: u64,
    /// Room for more than the order.
    longer: u64,
    most_rounds: u32,
    refused: [u64; NUMBERS],
}

impl Seen {
    /// Asks both, and enters the answer.
    fn ask(&mut self, told: &str, case: &NearCase) {
        match near_by_both(told, case) {
            Ok((order, rounds)) => {
                let of_set = size(case.set);
                self.listed += 1;
                self.with_x += u64::from(has(case.set, case.x));
                self.without_x += u64::from(!has(case.set, case.x));
                self.left_out += u64::from(order.len() < of_set);
                self.unreachable += u64::from(order.len() < 2 && of_set > 2);
                self.longer += u64::from(case.room > order.len());
                self.most_rounds = self.most_rounds.max(rounds);
            }
            Err(number) => self.refused[usize::from(number)] += 1,
        }
    }
}

#[test]
fn orders_and_counts_are_alike() {
    let mut seen = Seen::default();
    for seed in seeds(30_000) {
        seen.ask(&format!("near seed {seed}"), &near_case(seed));
    }
    println!("{seen:?}");
    assert!(seen.listed > 10_000 && seen.with_x > 5_000 && seen.without_x > 5_000, "{seen:?}");
    assert!(seen.left_out > 3_000 && seen.unreachable > 500 && seen.longer > 5_000, "{seen:?}");
    for number in [1, 6, 11] {
        assert!(seen.refused[number] > 1_000, "refusal {number}: {seen:?}");
    }
    assert_eq!(seen.most_rounds, 127);
}

/// Every table of up to three nodes with these distances, with every set and every x, and with one bit and one node too many.
#[test]
fn every_small_table() {
    let mut seen = Seen::default();
    for nodes in 1..=3 {
        let cells: Vec<usize> = (0..nodes * nodes).filter(|cell| cell % (nodes + 1) != 0).collect();
        for turn in 0..4usize.pow(cells.len() as u32) {
            let mut distances = vec![10; nodes * nodes];
            for (index, cell) in cells.iter().enumerate() {
                distances[*cell] = [10, 20, 254, 255][turn / 4usize.pow(index as u32) % 4];
            }
            for (set, x) in (0..=1 << nodes).flat_map(|set| (0..=nodes).map(move |x| (set, x))) {
                let case = NearCase { nodes, distances: distances.clone(), set, x, room: 2 };
                seen.ask("small", &case);
            }
        }
    }
    println!("{seen:?}");
    assert!(seen.listed > 50_000 && seen.refused[11] > 5_000 && seen.refused[6] > 40_000, "{seen:?}");
    assert_eq!(seen.most_rounds, 5);
}

/// Every length of room for every number of nodes.
#[test]
fn every_room() {
    let mut seen = Seen::default();
    for nodes in 1..=64 {
        for room in 0..=nodes + 1 {
            let (x, set) = (room % nodes, all_below(nodes));
            seen.ask("room", &NearCase { nodes, distances: vec![10; nodes * nodes], set, x, room });
        }
    }
    assert_eq!((seen.listed, seen.refused[11]), (2 * 64, 64 * 65 / 2));
}

/// The order on a machine, with ample room.
fn listed(nodes: usize, distances: &[u8], set: u64, x: usize) -> (Vec<u8>, u32) {
    let case = NearCase { nodes, distances: distances.to_vec(), set, x, room: 64 };
    near_by_both("listed", &case).expect("a good question")
}

#[test]
fn the_orders_of_document_01() {
    let distances = machine_a().distances;
    // "default, CPU 4: node 0, page 0 (order 2,0,3,1)"
    assert_eq!(listed(4, &distances, 0b1111, 2), (vec![2, 0, 3, 1], 7));
    assert_eq!(listed(4, &distances, 0b1111, 0), (vec![0, 1, 2, 3], 7));
    // "bind 1,3, CPU 0: pages 2,3,4,5": x is not in the set.
    assert_eq!(listed(4, &distances, 0b1010, 0), (vec![1, 3], 6));
    // "Sorting near(x) by distance alone, so a distance-10 neighbour with a lower number comes before x."
    assert_eq!(listed(3, &[10; 9], 0b111, 2), (vec![2, 0, 1], 5));
    assert_eq!(listed(3, &[10; 9], 0b011, 2), (vec![0, 1], 5));
    assert_eq!(listed(1, &[10], 0, 0), (vec![], 1));
}

/// A node a page, all free, one job by default: its requests are granted in the order listed, then refused 8.
#[test]
fn requests_go_by_the_order() {
    let mut granted = 0;
    for seed in seeds(1_000) {
        let case = near_case(seed);
        let NearCase { nodes, distances, set, x, .. } = case.clone();
        let Ok((order, _)) = near_by_both("order", &NearCase { room: 64, ..case }) else { continue };
        let (counts, cpus, mut jobs) = (vec![1; nodes], [x as u8], [0, 0, set, 0, 0, 0]);
        let (mut pages, mut free, mut served) = (vec![0; nodes], counts.clone(), Vec::new());
        let maps = spirerivet::identity_maps(nodes, 1);
        let last = loop {
            match spirerivet::request(&counts, &cpus, &distances, &mut pages, &mut jobs, &mut free, &maps, 0, 0) {
                Answer::Granted { node, .. } => served.push(node.0),
                other => break other,
            }
        };
        assert_eq!((&served, last), (&order, Answer::Refused(Refusal::NoRoom)), "seed {seed}");
        granted += served.len();
    }
    println!("{granted} granted");
    assert!(granted > 2_000, "{granted}");
}

/// One byte of a good table after the other is made bad, with a question that would be refused 6 and 11 too.
#[test]
fn every_byte_of_a_table_is_tested() {
    let mut dice = Dice::new(102);
    for nodes in [1, 2, 3, 7, 16, 33, 64] {
        let good: Vec<u8> = (0..nodes * nodes)
            .map(|cell| if cell % (nodes + 1) == 0 { 10 } else { dice.between(10, 255) as u8 })
            .collect();
        for cell in 0..good.len() {
            let mut distances = good.clone();
            distances[cell] = if cell % (nodes + 1) == 0 { dice.pick(&[9, 11, 255]) } else { dice.below(10) as u8 };
            let (set, x) = (dice.mask(), dice.pick(&[0, nodes]));
            let case = NearCase { nodes, distances, set, x, room: 0 };
            assert_eq!(near_by_both(&format!("byte {cell}"), &case), Err(1));
        }
    }
}
