//! The careful near(x) against the second implementation, by sorted keys and by chains.

use bench::near::{near_by_chains, near_by_sort};
use bench::rows::{rows, Machine, Rows};
use reference::near::write_near;
use reference::near_cases::{near_case, NearCase};

/// Asks all: same answer, same bytes. The library too, with its count. Gives how many nodes were listed, or the refusal.
fn same(told: &str, case: &NearCase) -> Result<usize, u8> {
    let NearCase { nodes, distances, set, x, room } = case;
    let mut expected = vec![7; *room];
    let order = write_near(*nodes, distances, *set, *x, &mut expected);
    for call in [near_by_sort, near_by_chains] {
        let mut out = vec![7; *room];
        let found = call(*nodes, distances, *set, *x, &mut out);
        assert_eq!(found, order.map(|order| order.nodes), "{told}: N {nodes} set {set:#x} x {x} room {room}");
        assert_eq!(out, expected, "{told}: N {nodes} set {set:#x} x {x} room {room}");
    }
    let mut out = vec![7; *room];
    let found = spirerivet::near(*nodes, distances, *set, *x, &mut out).map_err(|refusal| refusal.number());
    assert_eq!(
        found.map(|order| (order.nodes, order.rounds)),
        order.map(|order| (order.nodes, order.rounds)),
        "{told}"
    );
    assert_eq!(out, expected, "{told}");
    order.map(|order| order.nodes)
}

#[test]
fn questions_of_any_sort_agree() {
    let (mut listed, mut refused) = (0, [0; 12]);
    for seed in 0..20_000 {
        match same(&format!("seed {seed}"), &near_case(seed)) {
            Ok(_) => listed += 1,
            Err(number) => refused[usize::from(number)] += 1,
        }
    }
    assert!(listed > 8_000 && [1, 6, 11].iter().all(|number| refused[*number] > 500), "{listed} {refused:?}");
}

/// The first of each kind; the program itself compares all.
#[test]
fn the_timed_questions_agree_and_are_of_their_kind() {
    for Rows { kind, nodes, machines } in [4, 16, 64].into_iter().flat_map(|nodes| rows(nodes, 1_024)) {
        assert_eq!(machines.len() * nodes, 1_024);
        let listed = if kind == "random, half of the nodes" { nodes / 2 } else { nodes };
        for Machine { distances, set } in machines {
            for x in 0..nodes {
                let case = NearCase { nodes, distances: distances.clone(), set, x, room: 64 };
                assert_eq!(same(kind, &case), Ok(listed), "{kind} N {nodes}");
                let refused = NearCase { x: nodes, ..case };
                assert_eq!(same(kind, &refused), Err(6), "{kind} N {nodes}");
            }
        }
    }
}
