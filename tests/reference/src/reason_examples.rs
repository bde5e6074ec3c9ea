//! M-106's reasons as one table: tables, a job and a CPU, the room for the reasons, and what must be written or refused.
//!
//! This crate runs the table on the second implementation; `hosts` runs it on the linked library too.

use crate::calls::{apply, Answer, Call, Tables};
use crate::examples::{machine, machine_a};
use crate::maps::write_map;
use crate::record::{
    fresh, write, Record, BIND, DEFAULT, EARLY, INTERLEAVE, LIST, MOST_PLACES, NO_FLAG, PREFERRED, RING, STATIC,
};

/// A question and its outcome: the reasons, or the refusal.
#[derive(Clone, Debug, PartialEq, Eq)]
pub struct ReasonExample {
    pub why: &'static str,
    pub tables: Tables,
    pub job: usize,
    pub cpu: usize,
    pub room: usize,
    pub outcome: Result<Vec<u8>, u8>,
}

/// A question for job 0 with just the room that its machine needs.
fn asks(why: &'static str, tables: &Tables, cpu: usize, reasons: &[u8]) -> ReasonExample {
    let (tables, room) = (tables.clone(), tables.counts.len());
    ReasonExample { why, tables, job: 0, cpu, room, outcome: Ok(reasons.to_vec()) }
}

/// A question that is refused.
fn refused(why: &'static str, tables: &Tables, job: usize, cpu: usize, room: usize, number: u8) -> ReasonExample {
    ReasonExample { why, tables: tables.clone(), job, cpu, room, outcome: Err(number) }
}

/// The tables with a policy for job 0, by the machine's numbers: all nodes are allowed, and in its map.
fn with_policy(tables: Tables, mode: u8, flag: u8, mask: u64, places: &[u8]) -> Tables {
    let allowed = (1 << tables.counts.len()) - 1;
    let mut record = Record { mode, flag, allowed, user: mask, effective: mask, ..fresh() };
    record.length = places.len() as u8;
    record.places[..places.len()].copy_from_slice(places);
    let mut tables = tables;
    write(&mut tables.jobs, 0, &record);
    tables
}

/// Machine A with such a policy.
fn a(mode: u8, mask: u64, places: &[u8]) -> Tables {
    with_policy(machine_a(), mode, NO_FLAG, mask, places)
}

/// The tables after so many requests of job 0 from a CPU, granted all.
fn after(mut tables: Tables, requests: usize, cpu: usize) -> Tables {
    for _ in 0..requests {
        let answer = apply(&mut tables, &Call::Request { job: 0, cpu });
        assert!(matches!(answer, Answer::Granted { .. }), "{answer:?}");
    }
    tables
}

/// The tables changed by hand.
fn changed(mut tables: Tables, change: impl FnOnce(&mut Tables)) -> Tables {
    change(&mut tables);
    tables
}

/// Every example of reasons.
pub fn reason_examples() -> Vec<ReasonExample> {
    [on_machine_a(), of_limits(), of_reach(), of_places(), of_static_sets(), of_counts(), of_refusals()].concat()
}

/// 01's own examples: "default, CPU 4", "bind 1,3", "interleave 1-3", "ring {3,3,1}", "list {3,3,1}", "early {0,1,3}".
fn on_machine_a() -> Vec<ReasonExample> {
    let (bind, spread) = (a(BIND, 0b1010, &[]), a(INTERLEAVE, 0b1110, &[]));
    let (ring, list, early) = (a(RING, 0, &[3, 3, 1]), a(LIST, 0, &[3, 3, 1]), a(EARLY, 0, &[0, 1, 3]));
    let full = changed(a(DEFAULT, 0, &[]), |t| t.pages.fill(1)).counted();
    vec![
        asks("default, order 2,0,3,1: node 2 has no pages", &a(DEFAULT, 0, &[]), 4, &[6, 7, 5, 7]),
        asks("default, node 0 full", &after(a(DEFAULT, 0, &[]), 2, 4), 4, &[5, 7, 5, 6]),
        asks("default, all full: no 6", &full, 4, &[5, 5, 5, 5]),
        asks("preferred 3", &a(PREFERRED, 0b1000, &[]), 0, &[7, 7, 5, 6]),
        asks("preferred with an empty mask", &a(PREFERRED, 0, &[]), 2, &[7, 6, 5, 7]),
        asks("bind 1,3", &bind, 0, &[2, 6, 2, 7]),
        asks("bind 1,3, node 1 full", &after(bind.clone(), 2, 0), 0, &[2, 5, 2, 6]),
        asks("bind 1,3, then 8", &after(bind, 4, 0), 0, &[2, 5, 2, 5]),
        asks("interleave 1-3: a node outside the mask came later", &spread, 0, &[7, 6, 5, 7]),
        asks("interleave 1-3: a node outside the mask is chosen", &after(spread, 1, 0), 0, &[6, 7, 5, 7]),
        asks("ring {3,3,1}: a node named twice has one byte", &ring, 0, &[4, 7, 4, 6]),
        asks("ring {3,3,1}, its third turn", &after(ring.clone(), 2, 0), 0, &[4, 6, 4, 5]),
        asks("ring {3,3,1}, then 8", &after(ring, 4, 0), 0, &[4, 5, 4, 5]),
        asks("list {3,3,1}: a node named twice has one byte", &list, 0, &[4, 7, 4, 6]),
        asks("list {3,3,1}, then 8", &after(list, 4, 0), 0, &[4, 5, 4, 5]),
        asks("early {0,1,3}", &early, 0, &[6, 7, 4, 7]),
        asks("early {0,1,3}, node 0 full", &after(early, 3, 0), 0, &[5, 7, 4, 6]),
    ]
}

/// "1 not allowed"; "code 1 includes nodes outside the map"; it comes before all others.
fn of_limits() -> Vec<ReasonExample> {
    let mapped = |tables: Tables, map: &[u8]| changed(tables, |t| write_map(&mut t.maps, 0, map));
    let allowed = |tables: Tables, allowed| changed(tables, |t| t.jobs[2] = allowed);
    vec![
        asks("a fresh job is allowed nothing", &allowed(a(DEFAULT, 0, &[]), 0), 0, &[1; 4]),
        asks("not allowed, and full", &allowed(a(DEFAULT, 0, &[]), 0b1001), 0, &[6, 1, 1, 7]),
        asks("not allowed, and outside the bind set", &allowed(a(BIND, 0b1010, &[]), 0b1110), 0, &[1, 6, 2, 7]),
        asks("not allowed, though named", &allowed(a(LIST, 0, &[3, 3, 1]), 0b0111), 0, &[4, 6, 4, 1]),
        asks("outside the map", &mapped(a(DEFAULT, 0, &[]), &[3, 2]), 0, &[1, 1, 5, 6]),
        asks("outside the map, though in the bind set", &mapped(a(BIND, 0b1010, &[]), &[3, 0]), 0, &[2, 1, 1, 6]),
        asks("the whole bind set outside the map", &mapped(a(BIND, 0b1010, &[]), &[2, 0]), 0, &[2, 1, 2, 1]),
        asks("outside the map, though named", &mapped(a(RING, 0, &[3, 3, 1]), &[1, 0, 2]), 0, &[4, 6, 4, 1]),
        asks("the target outside the map", &mapped(a(INTERLEAVE, 0b0010, &[]), &[3, 0]), 0, &[6, 1, 1, 7]),
        asks("the preferred node outside the map", &mapped(a(PREFERRED, 0b1000, &[]), &[0, 1]), 0, &[7, 6, 1, 1]),
        asks("system nodes, whatever the job's numbers", &mapped(a(LIST, 0, &[1]), &[3, 2, 1, 0]), 0, &[4, 6, 4, 4]),
    ]
}

/// Three nodes of a page each. From node 0 node 1 is not reached, from 1 not 2, from 2 not 0; CPU k is on node k.
fn circle() -> Tables {
    machine(&[1; 3], &[0, 1, 2], vec![10, 255, 20, 20, 10, 255, 255, 20, 10])
}

/// "3 unreachable, in modes other than 4 to 6": from the x of the near(x) in use.
fn of_reach() -> Vec<ReasonExample> {
    let on = |mode, mask| with_policy(circle(), mode, NO_FLAG, mask, &[]);
    let taken = |tables: Tables, page: usize| changed(tables, |t| t.pages[page] = 9).counted();
    let next = changed(on(INTERLEAVE, 0b110), |t| t.jobs[0] |= 2 << 24);
    let listed = with_policy(circle(), LIST, NO_FLAG, 0, &[1, 0]);
    vec![
        asks("from the CPU's node", &on(DEFAULT, 0), 0, &[6, 3, 7]),
        asks("from another CPU's", &on(DEFAULT, 0), 1, &[7, 6, 3]),
        asks("unreachable before full", &taken(on(DEFAULT, 0), 1), 0, &[6, 3, 7]),
        asks("from the preferred node, reached from the CPU's", &on(PREFERRED, 0b010), 0, &[7, 6, 3]),
        asks("from the lowest of the preferred nodes", &on(PREFERRED, 0b110), 2, &[7, 6, 3]),
        asks("preferred with an empty mask: from the CPU's node", &on(PREFERRED, 0), 2, &[3, 7, 6]),
        asks("from the target, reached from the CPU's node", &on(INTERLEAVE, 0b110), 0, &[7, 6, 3]),
        asks("from the next target", &next, 0, &[3, 7, 6]),
        asks("from the target, which is full", &taken(next.clone(), 2), 0, &[3, 6, 5]),
        asks("in the bind set: no 6, though it has room", &on(BIND, 0b010), 0, &[2, 3, 2]),
        asks("outside the bind set before unreachable", &on(BIND, 0b101), 0, &[6, 2, 7]),
        asks("distances play no part in a list", &listed, 0, &[7, 6, 4]),
    ]
}

/// "4 named by no place, in modes 4 to 6 (under a closing 255: nor reachable)".
fn of_places() -> Vec<ReasonExample> {
    let on = |mode, places: &[u8]| with_policy(circle(), mode, NO_FLAG, 0, places);
    let taken = |tables: Tables, page: usize| changed(tables, |t| t.pages[page] = 9).counted();
    let sixteen = [[1; MOST_PLACES - 1].to_vec(), vec![2]].concat();
    vec![
        asks("unused places are zero and name nothing", &on(LIST, &[2]), 0, &[4, 4, 6]),
        asks("a place at N or above names nothing", &on(RING, &[3, 2, 200]), 0, &[4, 4, 6]),
        asks("no place names a node: 8", &on(EARLY, &[9]), 0, &[4, 4, 4]),
        asks("the sixteenth place", &on(LIST, &sixteen), 0, &[4, 6, 7]),
        asks("the sixteenth place, the others full", &taken(on(LIST, &sixteen), 1), 0, &[4, 5, 6]),
        asks("a ring's places in turn", &changed(on(RING, &[0, 2]), |t| t.jobs[0] |= 1 << 24), 0, &[7, 4, 6]),
        asks("early's place 0 first", &changed(on(EARLY, &[0, 2]), |t| t.jobs[0] |= 1 << 24), 0, &[6, 4, 7]),
        asks("a closing 255 alone", &on(LIST, &[255]), 0, &[6, 4, 7]),
        asks("a closing 255: neither named nor reachable", &on(LIST, &[2, 255]), 0, &[7, 4, 6]),
        asks("a closing 255: named, not reachable", &on(LIST, &[1, 255]), 0, &[7, 6, 7]),
        asks("a closing 255: reachable, not named", &taken(on(LIST, &[1, 255]), 1), 0, &[6, 5, 7]),
        asks("a closing 255 from another CPU", &taken(on(LIST, &[1, 255]), 1), 2, &[4, 5, 6]),
        asks("a 255 before the last place closes nothing", &on(LIST, &[255, 1]), 0, &[4, 6, 4]),
        asks("a ring has no closing 255", &on(RING, &[2, 255]), 0, &[4, 4, 6]),
        asks("nor has early", &on(EARLY, &[2, 255]), 0, &[4, 4, 6]),
    ]
}

/// "any mode with static and an empty effective set: near(CPU's node)" (01): then no bind set is in force.
fn of_static_sets() -> Vec<ReasonExample> {
    let held = |mode, allowed| {
        let tables = with_policy(circle(), mode, STATIC, 0b010, &[]);
        changed(tables, |t| (t.jobs[2], t.jobs[3]) = (allowed, 0b010 & allowed))
    };
    vec![
        asks("a static bind set in force", &held(BIND, 0b111), 1, &[2, 6, 2]),
        asks("a static bind set that is empty", &held(BIND, 0b101), 0, &[6, 1, 7]),
        asks("likewise, from a CPU that does not reach node 0", &held(BIND, 0b101), 2, &[3, 1, 6]),
        asks("static preferred, empty: from the CPU's node", &held(PREFERRED, 0b101), 2, &[3, 1, 6]),
        asks("static interleave, empty: from the CPU's node", &held(INTERLEAVE, 0b101), 2, &[3, 1, 6]),
    ]
}

/// "Under M-100 full means counted 0"; a node counted above 0 with no free page is 14, met before a page is found.
fn of_counts() -> Vec<ReasonExample> {
    let counted = |free: &[u32], pages: &[u8]| {
        changed(a(DEFAULT, 0, &[]), |t| (t.free, t.pages) = (free.to_vec(), pages.to_vec()))
    };
    let (free, held) = ([0; 6], [1, 1, 0, 0, 0, 0]);
    vec![
        asks("counted 0 with room", &counted(&[0, 2, 0, 2], &free), 0, &[5, 6, 5, 7]),
        asks("all counted 0 with room", &counted(&[0; 4], &free), 0, &[5; 4]),
        asks("counted too high", &counted(&[9, u32::MAX, 0, 1], &free), 0, &[6, 7, 5, 7]),
        refused("counted above 0 without a free page", &counted(&[2, 2, 0, 2], &held), 0, 0, 4, 14),
        refused("a node without pages counted above 0", &counted(&[0, 0, 1, 2], &free), 0, 0, 4, 14),
        asks("counted above 0 without a page, after the chosen", &counted(&[2, 2, 1, 2], &free), 0, &[6, 7, 7, 7]),
        asks("full after the chosen, counted above 0", &counted(&[2, 2, 0, 2], &held), 6, &[7, 7, 5, 6]),
    ]
}

/// "Output shorter than N is 11, tested after the request's own refusals 1 to 4 and 15, before 14".
fn of_refusals() -> Vec<ReasonExample> {
    let good = a(DEFAULT, 0, &[]);
    let wrong = changed(good.clone(), |t| t.free = vec![0, 0, 1, 0]);
    let malformed = changed(wrong.clone(), |t| t.jobs[0] = 7);
    let bad_map = changed(malformed.clone(), |t| t.maps[0] = 255);
    let bad = changed(bad_map.clone(), |t| t.distances[0] = 11);
    let longer = ReasonExample { room: 9, ..asks("more room than there are nodes", &good, 0, &[6, 7, 5, 7]) };
    vec![
        longer,
        refused("no room", &good, 0, 0, 0, 11),
        refused("a byte too few", &good, 0, 0, 3, 11),
        refused("11 before 14", &wrong, 0, 0, 3, 11),
        refused("14 with room", &wrong, 0, 0, 4, 14),
        refused("4 before 11", &malformed, 0, 0, 3, 4),
        refused("3 before 4", &malformed, 0, 8, 3, 3),
        refused("15 before 3", &bad_map, 0, 8, 3, 15),
        refused("2 before 15", &bad_map, 8, 8, 3, 2),
        refused("1 before 2", &bad, 8, 8, 3, 1),
        refused("a free count missing", &changed(good.clone(), |t| t.free.truncate(3)), 0, 0, 4, 1),
        refused("a map missing", &changed(good.clone(), |t| t.maps.truncate(64)), 0, 0, 4, 1),
        refused("a page missing", &changed(good, |t| t.pages.truncate(5)), 0, 0, 4, 1),
    ]
}

#[cfg(test)]
mod tests {
    use super::*;
    use crate::reason_orders::by_orders;
    use crate::reason_ways::OTHER_WAYS;
    use crate::reasons::{write_by, write_reasons, Way};
    use std::collections::BTreeSet;

    #[test]
    fn every_example_of_reasons() {
        for ReasonExample { why, tables, job, cpu, room, outcome } in reason_examples() {
            let mut out = vec![0xA5; room];
            let found = write_reasons(&tables, job, cpu, &mut out);
            assert_eq!(found.map(|length| out[..length].to_vec()), outcome, "{why}");
            assert!(out[found.unwrap_or(0)..].iter().all(|byte| *byte == 0xA5), "{why}");
            if tables.counts_match() {
                assert!(outcome.is_err() || outcome == Ok(by_orders(&tables, job, cpu)), "{why}: by orders");
            }
        }
    }

    /// How many examples another way gets wrong.
    fn wrong_by(way: Way) -> usize {
        let is_wrong = |example: &ReasonExample| {
            let mut out = vec![0; example.room];
            let found = write_by(way, &example.tables, example.job, example.cpu, &mut out);
            found.map(|length| out[..length].to_vec()) != example.outcome
        };
        reason_examples().iter().filter(|example| is_wrong(example)).count()
    }

    /// Each other way gets some wrong; every reason stands in some example, and every refusal.
    #[test]
    fn examples_tell_the_other_ways_apart() {
        for (name, way) in OTHER_WAYS {
            let wrong = wrong_by(way);
            println!("{name}: {wrong} of {} examples are wrong", reason_examples().len());
            assert!(wrong >= 2, "{name}: {wrong}");
        }
        let (mut given, mut refused) = (BTreeSet::new(), BTreeSet::new());
        for example in reason_examples() {
            match example.outcome {
                Ok(reasons) => given.extend(reasons),
                Err(number) => drop(refused.insert(number)),
            }
        }
        assert_eq!(given, (1..=7).collect());
        assert_eq!(refused, BTreeSet::from([1, 2, 3, 4, 11, 14, 15]));
    }
}
