//! M-106's reasons counted, so that a test can say that it was not empty; and wrong ways to give them.

use crate::calls::Tables;
use crate::machine::lowest_free_page;
use crate::masks::has;
use crate::reasons::{
    first_that_fits, full, is_named, is_reached, outside_bind_set, reasons, reasons_by, unreachable, write_by,
    Question, Test, Way, LATER, TESTS,
};
use crate::record::{has_a_list, places_of, read, BIND, INTERLEAVE};

/// Ways to give the reasons that M-106 rules out.
pub const OTHER_WAYS: [(&str, Way); 12] = [
    ("interleave's effective set taken for a bind set", |asked| with(2, outside_interleave_set, asked)),
    ("unreachable from the CPU's node, whatever the mode", |asked| with(3, unreachable_from_cpu, asked)),
    ("a place past the list length names a node", |asked| with(4, not_in_sixteen_places, asked)),
    ("a byte for each try: 6 twice where the node is named twice", by_tries),
    ("a node's last try counts: no 6 where the node is named twice", by_last_tries),
    ("a bind set in force though static and empty", |asked| with(2, outside_any_bind_set, asked)),
    ("7 for a full node after the chosen", |asked| with(5, full_before_the_chosen, asked)),
    ("the map not looked at", |asked| with(1, not_allowed_by_record, asked)),
    ("a closing 255 not looked at", |asked| with(4, in_no_place, asked)),
    ("unreachable before outside a bind set", |asked| with(2, outside_bind_set_but_reached, asked)),
    ("unreachable in modes 4 to 6 too", |asked| with(3, unreachable_in_any_mode, asked)),
    ("full by the page table", |asked| with(5, without_free_page, asked)),
];

/// The reasons with another test for one of them.
fn with(reason: usize, test: Test, question: &Question) -> Vec<u8> {
    let mut tests = TESTS;
    tests[reason - 1] = test;
    reasons_by(&tests, question)
}

fn outside_interleave_set(question: &Question, node: usize) -> bool {
    let outside = question.record.mode == INTERLEAVE && !has(question.record.effective, node);
    outside || outside_bind_set(question, node)
}

fn unreachable_from_cpu(question: &Question, node: usize) -> bool {
    !has_a_list(question.record.mode) && !is_reached(question, question.cpu_node, node)
}

fn not_in_sixteen_places(question: &Question, node: usize) -> bool {
    TESTS[3](question, node) && !is_named(&question.record.places, node)
}

fn outside_any_bind_set(question: &Question, node: usize) -> bool {
    question.record.mode == BIND && !has(question.record.effective, node)
}

fn full_before_the_chosen(question: &Question, node: usize) -> bool {
    let first_try = |node| question.order.iter().position(|one| one.node == node);
    let comes_later = question.chosen.is_some_and(|chosen| first_try(chosen) < first_try(node));
    full(question, node) && !comes_later
}

fn not_allowed_by_record(question: &Question, node: usize) -> bool {
    !has(question.record.allowed, node)
}

fn in_no_place(question: &Question, node: usize) -> bool {
    has_a_list(question.record.mode) && !is_named(places_of(&question.record), node)
}

fn outside_bind_set_but_reached(question: &Question, node: usize) -> bool {
    outside_bind_set(question, node) && !unreachable(question, node)
}

fn unreachable_in_any_mode(question: &Question, node: usize) -> bool {
    unreachable(question, node) || has_a_list(question.record.mode) && !is_reached(question, question.cpu_node, node)
}

fn without_free_page(question: &Question, node: usize) -> bool {
    let Tables { counts, pages, .. } = question.tables;
    lowest_free_page(counts, pages, node).is_none()
}

/// In modes 4 to 6 the first bytes are those of the tries, in their order.
fn by_tries(question: &Question) -> Vec<u8> {
    let mut bytes = reasons(question);
    if has_a_list(question.record.mode) {
        for (byte, one) in bytes.iter_mut().zip(&question.order) {
            *byte = first_that_fits(&TESTS, question, one.node);
        }
    }
    bytes
}

/// Each try writes its node's byte, over what an earlier one wrote: the first with room 6, those after it 7.
fn by_last_tries(question: &Question) -> Vec<u8> {
    let (mut bytes, mut is_given) = (reasons(question), false);
    for one in question.order.iter().filter(|one| !full(question, one.node)) {
        bytes[one.node] = if is_given { LATER } else { LATER - 1 };
        is_given = true;
    }
    bytes
}

/// What answered questions showed (M-106).
#[derive(Clone, Copy, Debug, Default, PartialEq, Eq)]
pub struct Reasons {
    /// For requests that would be granted, and that would be refused 8.
    pub granted: u64,
    pub no_room: u64,
    /// Nodes by mode and reason.
    pub given: [[u64; LATER as usize + 1]; 7],
    /// How often another way would have written otherwise.
    pub told_apart: [u64; OTHER_WAYS.len()],
}

impl Reasons {
    /// Enters the reasons of a question.
    pub fn enter(&mut self, tables: &Tables, job: usize, cpu: usize, reasons: &[u8]) {
        let mode = usize::from(read(&tables.jobs, job).mode);
        for reason in reasons {
            self.given[mode][usize::from(*reason)] += 1;
        }
        let grants = reasons.contains(&(LATER - 1));
        *if grants { &mut self.granted } else { &mut self.no_room } += 1;
        for (apart, (name, way)) in self.told_apart.iter_mut().zip(OTHER_WAYS) {
            let mut out = vec![0; reasons.len()];
            assert_eq!(write_by(way, tables, job, cpu, &mut out), Ok(out.len()), "{name}");
            *apart += u64::from(out != reasons);
        }
    }

    /// Each came at least so often: every reason in every mode that has it, and a difference from each other way.
    pub fn each_at_least(&self, times: u64) -> bool {
        let has_it = |mode: usize, reason: usize| match reason {
            0 => false,
            2 => mode == usize::from(BIND),
            3 => !has_a_list(mode as u8),
            4 => has_a_list(mode as u8),
            _ => true,
        };
        let given = |mode: usize, reason: usize| {
            let count = self.given[mode][reason];
            if has_it(mode, reason) {
                count >= times
            } else {
                count == 0
            }
        };
        (0..7).all(|mode| (0..8).all(|reason| given(mode, reason)))
            && self.told_apart.iter().all(|count| *count >= times)
            && self.granted >= times
            && self.no_room >= times
    }
}

#[cfg(test)]
mod tests {
    use super::*;
    use crate::calls::{apply, Answer, Call};
    use crate::machine::node_of_page;
    use crate::reason_cases::{reason_case, ReasonCase};
    use crate::reason_orders::by_orders;
    use crate::reasons::write_reasons;
    use std::collections::BTreeMap;

    /// What the request does: refused the same, but that 8 is no refusal here; the node of its page is the one with a 6.
    fn as_the_request(told: &str, case: &ReasonCase, reasons: Result<&[u8], u8>) {
        let ReasonCase { tables, job, cpu, .. } = case;
        let answer = apply(&mut tables.clone(), &Call::Request { job: *job, cpu: *cpu });
        let sixes = |reasons: &[u8]| (0..reasons.len()).filter(|node| reasons[*node] == 6).collect::<Vec<usize>>();
        match (answer, reasons) {
            (Answer::Granted { page, .. }, Ok(reasons)) => {
                let node = node_of_page(&tables.counts, page as usize).expect("a page of the machine");
                assert_eq!(sixes(reasons), [node], "{told}");
            }
            (Answer::Refused(8), Ok(reasons)) => assert!(sixes(reasons).is_empty(), "{told}: {reasons:?}"),
            (Answer::Granted { .. } | Answer::Refused(8 | 14), Err(11)) => {}
            (Answer::Refused(request), Err(number)) => assert_eq!(number, request, "{told}"),
            other => panic!("{told}: {other:?}"),
        }
    }

    #[test]
    fn questions_show_every_reason_and_tell_the_other_ways_apart() {
        let (mut shown, mut refused, mut by_order) = (Reasons::default(), BTreeMap::new(), 0);
        for seed in (0..20_000).filter(|seed| seed % 97 != 96) {
            let case = reason_case(seed);
            let ReasonCase { tables, job, cpu, room } = &case;
            let mut out = vec![0xA5; *room];
            let found = write_reasons(tables, *job, *cpu, &mut out);
            as_the_request(&format!("seed {seed}"), &case, found.map(|length| &out[..length]));
            assert!(out[found.unwrap_or(0)..].iter().all(|byte| *byte == 0xA5), "seed {seed}");
            match found {
                Ok(length) => {
                    shown.enter(tables, *job, *cpu, &out[..length]);
                    if tables.counts_match() {
                        assert_eq!(out[..length], by_orders(tables, *job, *cpu), "seed {seed}");
                        by_order += 1;
                    }
                }
                Err(number) => *refused.entry(number).or_insert(0) += 1,
            }
        }
        println!("{shown:?}\n{by_order} by the orders, refused {refused:?}");
        assert!(shown.each_at_least(100) && by_order > 3_000, "{shown:?} {by_order}");
        assert_eq!(refused.keys().copied().collect::<Vec<u8>>(), [1, 2, 3, 4, 11, 14, 15]);
        assert!(refused.values().all(|times| *times > 100), "{refused:?}");
    }
}
