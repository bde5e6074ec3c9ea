//! A drain: old and new number of each page, in the order moved; then the node is empty, and nothing past the pairs is written.

use spirerivet::{answer_of, drain, words_of, Answer, Call, Refusal, JOB_WORDS};

const COUNTS: [u32; 3] = [2, 2, 4];
const DISTANCES: [u8; 9] = [10, 20, 30, 20, 10, 20, 30, 20, 10];

/// Two jobs that may use all nodes; job 0 holds pages 2 and 7, job 1 page 3.
struct Tables {
    pages: [u8; 8],
    jobs: [u64; 2 * JOB_WORDS],
    free: [u32; 3],
    maps: Vec<u8>,
}

impl Tables {
    fn new() -> Tables {
        let mut jobs = [0; 2 * JOB_WORDS];
        for job in 0..2 {
            assert_eq!(spirerivet::rebind(3, &mut jobs, job, 0b111), Answer::Done);
        }
        Tables { pages: [0, 0, 1, 2, 0, 0, 0, 1], jobs, free: [2, 0, 3], maps: spirerivet::identity_maps(3, 2) }
    }

    /// Drains a node with so much room.
    fn drain(&mut self, node: usize, room: usize) -> Result<Vec<u32>, Refusal> {
        let (mut moves, Tables { pages, jobs, free, maps }) = ([77; 6], self);
        let moved = drain(&COUNTS, &DISTANCES, pages, jobs, free, maps, node, &mut moves[..room]);
        let length = moved.map_or(0, |moved| 2 * moved);
        assert_eq!(moves[length..], [77; 6][length..]);
        moved.map(|_| moves[..length].to_vec())
    }
}

#[test]
fn a_node_is_emptied() {
    let mut tables = Tables::new();
    // Nodes 0 and 2 are as near: the lower number first; there page 0 for job 0 and page 1 for job 1.
    assert_eq!(tables.drain(1, 6), Ok(vec![2, 0, 3, 1]));
    assert_eq!((tables.pages, tables.free), ([1, 2, 0, 0, 0, 0, 0, 1], [0, 2, 3]));
    assert_eq!(tables.drain(1, 0), Ok(vec![]), "it is empty");
}

#[test]
fn refusals_change_nothing() {
    let mut tables = Tables::new();
    let refused = |tables: &mut Tables, node, room, refusal| {
        let (pages, free) = (tables.pages, tables.free);
        assert_eq!(tables.drain(node, room), Err(refusal));
        assert_eq!((tables.pages, tables.free), (pages, free));
    };
    refused(&mut tables, 3, 6, Refusal::DoesNotFit);
    refused(&mut tables, 1, 3, Refusal::OutputTooShort);
    assert_eq!(spirerivet::rebind(3, &mut tables.jobs, 1, 0b010), Answer::Done);
    refused(&mut tables, 1, 3, Refusal::NowhereToGo);
    tables.free[2] = 2;
    refused(&mut tables, 1, 3, Refusal::WrongCount);
    tables.maps.pop();
    refused(&mut tables, 1, 3, Refusal::BadTables);
}

#[test]
fn a_drain_in_a_list() {
    let mut tables = Tables::new();
    let calls = [(1, 3), (1, 4), (1, 0), (3, 0)].map(|(node, room)| Call::Drain { node, room });
    let words: Vec<u64> = calls.iter().flat_map(words_of).collect();
    let (mut answers, Tables { pages, jobs, free, maps }) = ([0; 4], &mut tables);
    let ran = spirerivet::replay(&COUNTS, &[0], &DISTANCES, pages, jobs, free, maps, &words, &mut answers);
    assert_eq!(ran, Ok(4));
    let told: Vec<Answer> = calls.iter().zip(answers).map(|(call, word)| answer_of(call, word)).collect();
    let (short, none) = (Answer::Refused(Refusal::OutputTooShort), Answer::Refused(Refusal::DoesNotFit));
    assert_eq!(told, [short, Answer::Drained { moves: 2 }, Answer::Drained { moves: 0 }, none]);
    assert_eq!(tables.pages, [1, 2, 0, 0, 0, 0, 0, 1]);
}
