//! M-107's drains as one table: tables, a node and the room for the pairs, and what must be written or refused; and some as
//! calls of a list.
//!
//! This crate runs them on the second implementation; `hosts` runs them on the linked library too.

use crate::calls::{Answer, Call, Tables};
use crate::examples::{flat, fresh_a, granted, machine, released, Example, Step};
use crate::maps::write_map;
use crate::record::WORDS;

/// A drain and its outcome: the pairs, or the refusal.
#[derive(Clone, Debug, PartialEq, Eq)]
pub struct DrainExample {
    pub why: &'static str,
    pub tables: Tables,
    pub node: usize,
    pub room: usize,
    pub outcome: Result<Vec<u32>, u8>,
}

/// A drain with just the room that its pairs take.
fn drains(why: &'static str, tables: &Tables, node: usize, pairs: &[u32]) -> DrainExample {
    DrainExample { why, tables: tables.clone(), node, room: pairs.len(), outcome: Ok(pairs.to_vec()) }
}

/// A drain with room enough that is refused.
fn refused(why: &'static str, tables: &Tables, node: usize, number: u8) -> DrainExample {
    DrainExample { why, tables: tables.clone(), node, room: 24, outcome: Err(number) }
}

/// Three nodes of four pages: 0 to 3, 4 to 7, 8 to 11. From node 1 node 2 is nearer than node 0; from node 2 both are as near.
/// Jobs 0 to 3 may use all nodes, 4 to 7 none.
fn three(pages: [u8; 12]) -> Tables {
    let mut tables = machine(&[4; 3], &[0], vec![10, 20, 30, 30, 10, 20, 20, 20, 10]);
    tables.pages = pages.to_vec();
    for job in 0..4 {
        tables.jobs[job * WORDS + 2] = 0b111;
    }
    tables.counted()
}

/// The same, changed by hand; the counts are not made anew.
fn changed(pages: [u8; 12], change: impl FnOnce(&mut Tables)) -> Tables {
    let mut tables = three(pages);
    change(&mut tables);
    tables
}

/// Job 0 holds page 5, job 1 page 6, and nothing else is held.
const TWO: [u8; 12] = [0, 0, 0, 0, 0, 1, 2, 0, 0, 0, 0, 0];
/// Job 0 alone holds page 5.
const ONE: [u8; 12] = [0, 0, 0, 0, 0, 1, 0, 0, 0, 0, 0, 0];

/// Every example of drains.
pub fn drain_examples() -> Vec<DrainExample> {
    [of_pages(), of_turns(), of_limits(), of_modes(), of_jobs(), of_room(), of_counts(), of_tables()].concat()
}

/// "Each goes to the lowest free page of the first node with room in near(x)"; "M-105's colours apply to the page".
fn of_pages() -> Vec<DrainExample> {
    let on = |pages| three(pages);
    vec![
        drains("no page is held", &on([0; 12]), 1, &[]),
        drains("pages of other nodes stay", &on([1, 2, 3, 4, 0, 0, 0, 0, 200, 0, 0, 255]), 1, &[]),
        drains("the nearest node, the lowest page of the colour", &on(ONE), 1, &[5, 8]),
        drains("the colour of job 1", &on([0, 0, 0, 0, 2, 0, 0, 0, 0, 0, 0, 0]), 1, &[4, 9]),
        drains(
            "the colour by the holder, page by page",
            &on([0, 0, 0, 0, 4, 1, 3, 2, 0, 0, 0, 0]),
            1,
            &[4, 11, 5, 8, 6, 10, 7, 9],
        ),
        drains("the offset in the new node counts", &on([0, 0, 0, 0, 0, 0, 0, 1, 9, 0, 0, 0]), 1, &[7, 9]),
        drains("the colour gone: the lowest free page", &on([0, 0, 0, 0, 3, 3, 0, 0, 0, 0, 0, 0]), 1, &[4, 10, 5, 8]),
        drains("a nearer node without the colour first", &on([0, 0, 0, 0, 4, 0, 0, 0, 0, 9, 9, 9]), 1, &[4, 8]),
        drains("a full node is passed over", &on([0, 0, 0, 0, 0, 0, 4, 0, 9, 9, 9, 9]), 1, &[6, 3]),
        drains("as near: the lower number", &on([0, 0, 0, 0, 0, 0, 0, 0, 1, 0, 0, 0]), 2, &[8, 0]),
        drains("by the row of x, not by the column", &on([1, 0, 0, 0, 0, 0, 0, 0, 0, 0, 0, 0]), 0, &[0, 4]),
    ]
}

/// "Go through x's held pages from the lowest up", each on what the moves before it have left.
fn of_turns() -> Vec<DrainExample> {
    let on = |pages| three(pages);
    let last = |byte| on([0, 0, 0, 0, 0, 1, byte, 0, 9, 9, 9, 0]);
    vec![
        drains("two pages of a job", &on([0, 0, 0, 0, 1, 0, 0, 1, 0, 0, 0, 0]), 1, &[4, 8, 7, 9]),
        drains("two jobs and the last page of a node", &last(2), 1, &[5, 11, 6, 1]),
        drains("the lowest page first, whose colour it is not", &last(4), 1, &[5, 11, 6, 3]),
        drains("all four, from a full node", &on([9, 0, 9, 9, 1, 2, 3, 4, 0, 0, 9, 0]), 1, &[4, 8, 5, 9, 6, 11, 7, 1]),
        refused("two pages and one free page in all", &on([9, 9, 9, 9, 0, 1, 2, 0, 9, 9, 9, 0]), 1, 17),
        refused("no free page but x's own", &on([9, 9, 9, 9, 0, 1, 0, 0, 9, 9, 9, 9]), 1, 17),
        refused("a page that becomes free is x's own", &on([9, 9, 9, 9, 1, 1, 1, 1, 9, 9, 9, 0]), 1, 17),
    ]
}

/// "taken over its job's allowed set without x"; "Under M-103 a target must be in the job's map".
fn of_limits() -> Vec<DrainExample> {
    let allowed = |mask| changed(ONE, |t| t.jobs[2] = mask);
    let mapped = |list: &[u8]| changed(ONE, |t| write_map(&mut t.maps, 0, list));
    let far = |cell: usize| changed(ONE, |t| t.distances[cell] = 255);
    let both = changed(TWO, |t| {
        t.jobs[2] = 0b011;
        write_map(&mut t.maps, 1, &[1, 0]);
    });
    let neither = changed(ONE, |t| {
        t.jobs[2] = 0b011;
        write_map(&mut t.maps, 0, &[2, 1]);
    });
    vec![
        drains("the nearest is not allowed", &allowed(0b011), 1, &[5, 0]),
        drains("x itself need not be allowed", &allowed(0b100), 1, &[5, 8]),
        refused("x alone is allowed", &allowed(0b010), 1, 17),
        refused("nothing is allowed", &allowed(0), 1, 17),
        drains("the nearest is not in the map", &mapped(&[0, 1]), 1, &[5, 0]),
        drains("x itself need not be in the map, nor be numbered", &mapped(&[2, 0]), 1, &[5, 8]),
        refused("x alone is in the map", &mapped(&[1]), 1, 17),
        refused("no node is both allowed and in the map", &neither, 1, 17),
        drains("each page by its own job's limits", &both, 1, &[5, 0, 6, 1]),
        drains("a node out of reach is no target", &far(5), 1, &[5, 0]),
        drains("reach goes by row x alone", &far(7), 1, &[5, 8]),
        refused("no node within reach", &changed(ONE, |t| (t.distances[3], t.distances[5]) = (255, 255)), 1, 17),
    ]
}

/// The mode of a record, its masks, places and cursor play no part, and stay.
fn of_modes() -> Vec<DrainExample> {
    let with = |record: [u64; WORDS]| changed(ONE, |t| t.jobs[..WORDS].copy_from_slice(&record));
    vec![
        drains("preferred 0", &with([1, 0b001, 0b111, 0b001, 0, 0]), 1, &[5, 8]),
        drains("bound to 0", &with([2, 0b001, 0b111, 0b001, 0, 0]), 1, &[5, 8]),
        drains("bound to x alone", &with([2, 0b010, 0b111, 0b010, 0, 0]), 1, &[5, 8]),
        drains("static, nothing effective", &with([2 | 1 << 8, 0b100, 0b011, 0, 0, 0]), 1, &[5, 0]),
        drains("relative", &with([2 | 2 << 8, 0b001, 0b111, 0b001, 0, 0]), 1, &[5, 8]),
        drains("interleave over 0, last target 1", &with([3 | 2 << 24, 0b001, 0b111, 0b001, 0, 0]), 1, &[5, 8]),
        drains("a list of 0 and 0", &with([4 | 2 << 16, 0, 0b111, 0, 0, 0]), 1, &[5, 8]),
        drains("a ring of x alone, its cursor set", &with([5 | 2 << 16 | 1 << 24, 0, 0b111, 0, 0x0101, 0]), 1, &[5, 8]),
        drains("early, its cursor set", &with([6 | 2 << 16 | 1 << 24, 0, 0b111, 0, 0, 0]), 1, &[5, 8]),
        drains("a closing 255", &with([4 | 2 << 16, 0, 0b111, 0, 0xFF00, 0]), 1, &[5, 8]),
    ]
}

/// "or its byte names no job, or the job's record or map is malformed, answer 17 and change nothing": of jobs with a page of x.
fn of_jobs() -> Vec<DrainExample> {
    let byte = |byte| changed(TWO, |t| t.pages[6] = byte);
    let record = |job: usize| changed(TWO, |t| t.jobs[job * WORDS] = 7);
    let map = |job: usize| changed(TWO, |t| t.maps[job * 64 + 63] = 0);
    let empty = changed(TWO, |t| t.maps[..64].fill(255));
    vec![
        drains("two good jobs", &three(TWO), 1, &[5, 8, 6, 9]),
        refused("the first byte after the last job's", &byte(9), 1, 17),
        refused("a byte that names no job", &byte(255), 1, 17),
        refused("a fresh job", &byte(8), 1, 17),
        refused("a malformed record", &record(0), 1, 17),
        refused("a malformed record, of the second page", &record(1), 1, 17),
        drains("a malformed record of another job", &record(2), 1, &[5, 8, 6, 9]),
        refused("a bad map", &map(0), 1, 17),
        refused("a bad map, of the second page", &map(1), 1, 17),
        refused("an empty map", &empty, 1, 17),
        drains("a bad map of another job", &map(2), 1, &[5, 8, 6, 9]),
        drains(
            "a malformed record and a bad map, nothing held",
            &changed([0; 12], |t| {
                t.jobs[0] = 7;
                t.maps[0] = 9;
            }),
            1,
            &[],
        ),
    ]
}

/// "a table too short is 11", tested last: two numbers a move.
fn of_room() -> Vec<DrainExample> {
    let room = |why, pages, room, outcome: Result<&[u32], u8>| {
        let outcome = outcome.map(<[u32]>::to_vec);
        DrainExample { why, tables: three(pages), node: 1, room, outcome }
    };
    let stuck = [0, 0, 0, 0, 0, 1, 200, 0, 0, 0, 0, 0];
    vec![
        room("no room, nothing held", [0; 12], 0, Ok(&[])),
        room("room, nothing held", [0; 12], 5, Ok(&[])),
        room("no room", TWO, 0, Err(11)),
        room("room for one move of two", TWO, 2, Err(11)),
        room("a number too few", TWO, 3, Err(11)),
        room("room for just two", TWO, 4, Ok(&[5, 8, 6, 9])),
        room("an odd number", TWO, 5, Ok(&[5, 8, 6, 9])),
        room("more than enough", TWO, 24, Ok(&[5, 8, 6, 9])),
        room("17 before 11", stuck, 0, Err(17)),
        room("17 before 11, room for the first move", stuck, 2, Err(17)),
    ]
}

/// "counts that don't match at entry are 14": those of any node.
fn of_counts() -> Vec<DrainExample> {
    let free = |counts: [u32; 3]| changed(TWO, |t| t.free = counts.to_vec());
    let stuck = changed(TWO, |t| (t.free[0], t.pages[6]) = (3, 200));
    vec![
        drains("counts that match", &free([4, 2, 4]), 1, &[5, 8, 6, 9]),
        refused("a count too low of a node that gets no page", &free([3, 2, 4]), 1, 14),
        refused("a count too high of it", &free([5, 2, 4]), 1, 14),
        refused("of x", &free([4, 1, 4]), 1, 14),
        refused("of the node that gets the pages", &free([4, 2, 3]), 1, 14),
        refused("a count that is a match in fewer bits", &free([4 + 65_536, 2, 4]), 1, 14),
        refused("two that are wrong and make up for each other", &free([3, 2, 5]), 1, 14),
        refused("nothing held, a count wrong elsewhere", &changed([0; 12], |t| t.free[2] = 3), 1, 14),
        refused("14 before 17", &stuck, 1, 14),
        DrainExample { room: 0, ..refused("14 before 11", &free([4, 2, 3]), 1, 14) },
        refused("6 before 14", &free([4, 2, 3]), 3, 6),
    ]
}

/// "Test 1, then x below N (else 6)". 1 looks at all that is lent, and no CPU table is.
fn of_tables() -> Vec<DrainExample> {
    let with = |change: fn(&mut Tables)| changed(TWO, change);
    let one = |pages: [u8; 2]| Tables { pages: pages.to_vec(), ..machine(&[2], &[0], flat(1, 10)) }.counted();
    let mut tail = changed([9, 9, 9, 9, 0, 1, 0, 0, 9, 9, 9, 9], |t| t.pages.extend([0; 4]));
    let stuck = refused("bytes past the last page are no pages", &tail, 1, 17);
    (tail.pages[0], tail.free[0]) = (0, 1);
    let sixty_four = Tables { pages: [[1].to_vec(), vec![0; 63]].concat(), ..machine(&[1; 64], &[0], flat(64, 20)) };
    let mut sixty_four = sixty_four.counted();
    sixty_four.jobs[2] = 1 << 63;
    vec![
        refused("N", &three(TWO), 3, 6),
        refused("one in fewer bits", &three(TWO), 1 << 32 | 1, 6),
        refused("no node at all", &three(TWO), usize::MAX, 6),
        refused("1 before 6", &with(|t| t.distances[0] = 11), 3, 1),
        refused("page counts", &with(|t| t.counts[0] = 65_537), 1, 1),
        refused("distances", &with(|t| t.distances.truncate(8)), 1, 1),
        refused("a page missing", &with(|t| t.pages.truncate(11)), 1, 1),
        refused("the job table", &with(|t| t.jobs.truncate(47)), 1, 1),
        refused("a free count missing", &with(|t| t.free.truncate(2)), 1, 1),
        refused("a free count too many", &with(|t| t.free.push(0)), 1, 1),
        refused("a map missing", &with(|t| t.maps.truncate(7 * 64)), 1, 1),
        drains("the CPU table is not lent", &with(|t| t.cpus = vec![9; 300]), 1, &[5, 8, 6, 9]),
        stuck,
        drains("and stay", &tail, 1, &[5, 0]),
        drains("one node, nothing held", &one([0, 0]), 0, &[]),
        refused("one node, a page held", &one([0, 1]), 0, 17),
        drains("a node without pages", &fresh_a(), 2, &[]),
        drains("node 63", &sixty_four, 0, &[0, 63]),
    ]
}

/// A drain in a list of calls.
fn drained(example: Example, node: usize, room: usize, moves: u32) -> Example {
    example.call(Call::Drain { node, room }, Answer::Drained { moves })
}

fn not_drained(example: Example, node: usize, room: usize, number: u8) -> Example {
    example.call(Call::Drain { node, room }, Answer::Refused(number))
}

/// Job 0 on machine A, with all nodes and ring {3,3,1}, holds pages 4, 5 and 2; its last place is 2.
fn ring_on_a(name: &str) -> Example {
    let install = Call::Install { job: 0, mode: 5, flag: 0, mask: 0, places: vec![3, 3, 1] };
    let mut example = Example::new(name, fresh_a())
        .call(Call::Rebind { job: 0, allowed: 0b1111 }, Answer::Done)
        .call(install, Answer::Done);
    for (node, page) in [(3, 4), (3, 5), (1, 2)] {
        example = example.call(Call::Request { job: 0, cpu: 0 }, granted(node, page));
    }
    example
}

/// Drains among other calls: what they leave, the next calls find.
pub(crate) fn in_lists() -> Vec<Example> {
    let request = Call::Request { job: 0, cpu: 0 };
    let wrong = Tables { free: vec![2, 2, 1, 2], ..fresh_a() };
    let short = not_drained(ring_on_a("M-107: a number too few, then again"), 3, 3, 11).free(&[2, 1, 0, 0]);
    let fresh = not_drained(Example::new("M-107: wrong counts, then a fresh table", wrong), 0, 0, 14);
    vec![
        drained(ring_on_a("M-107: node 3 drained, the ring goes on as if nothing had been"), 3, 4, 2)
            .free(&[1, 0, 0, 2])
            .step(Step::Cursor(3))
            .call(Call::Release { job: 0, page: 5 }, Answer::Refused(10))
            .call(Call::Release { job: 0, page: 3 }, released(1, 3))
            .call(request, granted(3, 4)),
        not_drained(drained(drained(short, 3, 4, 2), 3, 0, 0), 4, 0, 6),
        drained(fresh.call(Call::Fresh, Answer::Done), 0, 0, 0),
    ]
}

/// Likewise, by what the job may use at the time.
pub(crate) fn by_limits_in_lists() -> Vec<Example> {
    let rebind = |allowed| Call::Rebind { job: 0, allowed };
    let set = |list: &[u8]| Call::SetMap { job: 0, list: list.to_vec() };
    let allowed = not_drained(ring_on_a("M-107: by the allowed set").call(rebind(0b1000), Answer::Done), 3, 4, 17);
    let mapped = not_drained(ring_on_a("M-107: by the map").call(set(&[3]), Answer::Done), 3, 4, 17);
    vec![
        drained(allowed.call(rebind(0b0001), Answer::Done), 3, 4, 2)
            .free(&[0, 1, 0, 2])
            .call(Call::Request { job: 0, cpu: 0 }, Answer::Refused(8)),
        drained(mapped.call(set(&[3, 0]), Answer::Done), 3, 4, 2)
            .call(Call::Release { job: 0, page: 1 }, released(1, 1))
            .call(Call::Release { job: 0, page: 2 }, Answer::Released { node: None, page: 2 }),
    ]
}

#[cfg(test)]
mod tests {
    use super::*;
    use crate::drain::drain;
    use crate::drain_requests::{by_requests, wrong_after};
    use crate::drain_ways::{Drain, OTHER_WAYS};
    use std::collections::BTreeSet;

    /// The tables with the pairs of an example moved by hand.
    fn moved(example: &DrainExample, pairs: &[u32]) -> Tables {
        let mut tables = example.tables.clone();
        for pair in pairs.chunks(2) {
            tables.pages.swap(pair[0] as usize, pair[1] as usize);
        }
        tables.counted()
    }

    #[test]
    fn every_example_of_drains() {
        for example in drain_examples() {
            let DrainExample { why, tables, node, room, outcome } = &example;
            let (mut after, mut out) = (tables.clone(), vec![0xA5A5_A5A5; *room]);
            let found = drain(&mut after, *node, &mut out);
            assert_eq!(found.map(|moves| out[..2 * moves].to_vec()), *outcome, "{why}");
            assert!(out[2 * found.unwrap_or(0)..].iter().all(|number| *number == 0xA5A5_A5A5), "{why}");
            match outcome {
                Ok(pairs) => {
                    assert_eq!(after, moved(&example, pairs), "{why}");
                    assert_eq!(wrong_after(tables, &after, *node), None, "{why}");
                    assert_eq!(by_requests(tables, *node).as_ref(), Some(pairs), "{why}: by requests");
                }
                Err(number) => {
                    assert_eq!(after, *tables, "{why}");
                    assert!(*number != 17 || by_requests(tables, *node).is_none(), "{why}: by requests");
                }
            }
        }
    }

    /// How many examples another way gets wrong.
    fn wrong_by(way: Drain) -> usize {
        let is_wrong = |example: &DrainExample| {
            let mut after = example.tables.clone();
            let found = way(&mut after, example.node, example.room);
            let expected = example.outcome.as_ref().map_or(example.tables.clone(), |pairs| moved(example, pairs));
            found != example.outcome || after != expected
        };
        drain_examples().iter().filter(|example| is_wrong(example)).count()
    }

    /// Each other way gets some wrong; every refusal stands in some example.
    #[test]
    fn examples_tell_the_other_ways_apart() {
        for (name, way) in OTHER_WAYS {
            let wrong = wrong_by(way);
            println!("{name}: {wrong} of {} examples are wrong", drain_examples().len());
            assert!(wrong >= 2, "{name}: {wrong}");
        }
        let refused: BTreeSet<u8> = drain_examples().into_iter().filter_map(|example| example.outcome.err()).collect();
        assert_eq!(refused, BTreeSet::from([1, 6, 11, 14, 17]));
    }
}
