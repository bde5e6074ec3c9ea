//! Document 01's examples and easy mistakes as one table: calls, and what 01 prints for them; a few readings of its rules;
//! and what M-100 says of free counts, M-103 of maps, M-104 of a closing 255. M-105's are in `colour_examples`, M-106's in
//! `reason_examples`, M-107's in `drain_examples`.
//!
//! This crate runs the table on the second implementation; `hosts` runs it on the linked library and the program too.

use crate::calls::{apply, Answer, Call, Tables};
use crate::colour_examples;
use crate::drain_examples;
use crate::journal::{answer_bytes, call_bytes, machine_bytes, MOST_NODES};
use crate::maps::{identity_maps, map_with, AppNode};
use crate::record::{BIND, DEFAULT, EARLY, INTERLEAVE, LIST, NO_FLAG, PREFERRED, RELATIVE, RING, STATIC, WORDS};

/// One step of an example; the record is job 0's.
#[derive(Clone, Debug, PartialEq, Eq)]
pub enum Step {
    /// A call and its answer.
    Call(Call, Answer),
    /// The cursor field.
    Cursor(u64),
    /// The effective mask, and its text.
    Effective(u64, &'static str),
    /// The whole record.
    Record([u64; WORDS]),
    /// The free counts.
    Free(Vec<u32>),
    /// The map: its 64 bytes.
    Map(Vec<u8>),
}

/// Steps on a machine with fresh jobs; but for M-100's examples its pages are free and its free counts match, and but for
/// M-103's, and some of M-104's, each job has map 0 to N-1.
#[derive(Clone, Debug, PartialEq, Eq)]
pub struct Example {
    pub name: String,
    pub start: Tables,
    pub steps: Vec<Step>,
}

impl Example {
    pub(crate) fn new(name: &str, start: Tables) -> Example {
        Example { name: name.to_string(), start, steps: Vec::new() }
    }

    /// "Job 0, freshly installed, all nodes allowed, all pages free", on machine A.
    fn on_a(name: &str, mode: u8, mask: u64, places: &[u8]) -> Example {
        Example::new(name, fresh_a()).rebind(0b1111).install(mode, NO_FLAG, mask, places)
    }

    pub(crate) fn step(mut self, step: Step) -> Example {
        self.steps.push(step);
        self
    }

    pub(crate) fn call(self, call: Call, answer: Answer) -> Example {
        self.step(Step::Call(call, answer))
    }

    /// Job 0 is rebound.
    fn rebind(self, allowed: u64) -> Example {
        self.call(Call::Rebind { job: 0, allowed }, Answer::Done)
    }

    /// Job 0 gets a policy.
    fn install(self, mode: u8, flag: u8, mask: u64, places: &[u8]) -> Example {
        self.call(install(mode, flag, mask, places), Answer::Done)
    }

    /// Requests of job 0 from one CPU, granted from these nodes, by the job's own numbers, and pages.
    fn grants(mut self, cpu: usize, pages: &[(u8, u32)]) -> Example {
        for (node, page) in pages {
            self = self.call(Call::Request { job: 0, cpu }, granted(*node, *page));
        }
        self
    }

    /// A request of job 0 that is refused 8.
    fn no_room(self, cpu: usize) -> Example {
        self.call(Call::Request { job: 0, cpu }, Answer::Refused(8))
    }

    /// A request of job 0 that is refused 14.
    fn wrong_count(self, cpu: usize) -> Example {
        self.call(Call::Request { job: 0, cpu }, Answer::Refused(14))
    }

    /// Job 0 gives a page back.
    fn release(self, node: u8, page: u32) -> Example {
        self.call(Call::Release { job: 0, page: page as usize }, released(node, page))
    }

    /// The administrator sets job 0's map.
    fn set_map(self, list: &[u8]) -> Example {
        self.call(set(list), Answer::Done).map(list)
    }

    /// Job 0 keeps some of its nodes, by its own numbers; its map then has these system nodes.
    fn keep(self, kept: &[u8], left: &[u8]) -> Example {
        self.call(keep(kept), Answer::Done).map(left)
    }

    /// A call that is refused.
    fn refused(self, call: Call, number: u8) -> Example {
        self.call(call, Answer::Refused(number))
    }

    fn cursor(self, field: u64) -> Example {
        self.step(Step::Cursor(field))
    }

    fn effective(self, nodes: &[usize], text: &'static str) -> Example {
        self.step(Step::Effective(mask(nodes), text))
    }

    pub(crate) fn free(self, counts: &[u32]) -> Example {
        self.step(Step::Free(counts.to_vec()))
    }

    fn map(self, list: &[u8]) -> Example {
        self.step(Step::Map(map_with(list)))
    }

    /// Its calls, each with the answer.
    pub fn calls(&self) -> Vec<(&Call, Answer)> {
        let mut calls = Vec::new();
        for step in &self.steps {
            if let Step::Call(call, answer) = step {
                calls.push((call, *answer));
            }
        }
        calls
    }

    /// The example as a journal and its answers, if it fits one: N, free pages that are counted, fresh jobs with map 0 to
    /// N-1, and no fresh table, no call of maps and no drain.
    pub fn journal(&self) -> Option<(Vec<u8>, Vec<u8>)> {
        let Tables { counts, jobs, free, maps, .. } = &self.start;
        let all_free = free == counts && self.start.counts_match();
        let all_fresh = jobs.iter().all(|word| *word == 0) && *maps == identity_maps(counts.len(), jobs.len() / WORDS);
        let has_no_records = self.calls().iter().any(|(call, _)| !call.is_of_journals());
        if counts.len() > MOST_NODES || !all_free || !all_fresh || has_no_records {
            return None;
        }
        let mut journal = machine_bytes(&self.start);
        let mut answers = Vec::new();
        for (call, answer) in self.calls() {
            let record = call_bytes(call);
            journal.extend(record);
            answers.extend(answer_bytes(record[2], answer));
        }
        Some((journal, answers))
    }
}

/// A page granted, or given back, its node by the job's own number.
pub(crate) fn granted(node: u8, page: u32) -> Answer {
    Answer::Granted { node: AppNode(node), page }
}
pub(crate) fn released(node: u8, page: u32) -> Answer {
    Answer::Released { node: Some(AppNode(node)), page }
}

/// An install for job 0.
fn install(mode: u8, flag: u8, mask: u64, places: &[u8]) -> Call {
    Call::Install { job: 0, mode: u64::from(mode), flag: u64::from(flag), mask, places: places.to_vec() }
}

/// The mask of the nodes named.
fn mask(nodes: &[usize]) -> u64 {
    nodes.iter().fold(0, |mask, node| mask | 1 << node)
}

/// A machine with free pages, which are counted, and eight fresh jobs that number their nodes as it does.
pub(crate) fn machine(counts: &[u32], cpus: &[u8], distances: Vec<u8>) -> Tables {
    let pages = vec![0; counts.iter().sum::<u32>() as usize];
    let (maps, counts, free) = (identity_maps(counts.len(), 8), counts.to_vec(), counts.to_vec());
    Tables { counts, cpus: cpus.to_vec(), distances, pages, jobs: vec![0; 8 * WORDS], free, maps }
}

/// Distances of 10 on the diagonal and another number elsewhere.
pub(crate) fn flat(nodes: usize, elsewhere: u8) -> Vec<u8> {
    (0..nodes * nodes).map(|cell| if cell / nodes == cell % nodes { 10 } else { elsewhere }).collect()
}

/// Machine A (Shown by example).
pub(crate) fn fresh_a() -> Tables {
    let distances = vec![10, 20, 20, 30, 20, 10, 30, 20, 20, 30, 10, 20, 30, 20, 20, 10];
    machine(&[2, 2, 0, 2], &[0, 0, 1, 1, 2, 2, 3, 3], distances)
}

/// Machine A with job 0 allowed all nodes.
pub fn machine_a() -> Tables {
    let mut tables = fresh_a();
    assert_eq!(apply(&mut tables, &Call::Rebind { job: 0, allowed: 0b1111 }), Answer::Done);
    tables
}

/// "N = 10 and interleave": two pages to a node, so that as many requests as there are effective nodes, and one more, show them.
fn on_ten(name: &str, allowed: &[usize], flag: u8, user: &[usize]) -> Example {
    let ten = machine(&[2; 10], &[0], flat(10, 20));
    Example::new(name, ten).rebind(mask(allowed)).install(INTERLEAVE, flag, mask(user), &[])
}

/// Every example of the table.
pub fn all() -> Vec<Example> {
    [
        pages(),
        masks(),
        sixteen_places(),
        node_63(),
        easy_to_get_wrong(),
        policies(),
        early(),
        places(),
        reach(),
        free_counts(),
        maps(),
        ends_of_maps(),
        dropped_nodes(),
        map_lists(),
        bad_maps(),
        node_63_in_maps(),
        closing_255(),
        closing_255_is_near(),
        closing_255_in_maps(),
        other_255s(),
        colour_examples::on_machine_a(),
        colour_examples::in_larger_nodes(),
        colour_examples::between_nodes(),
        colour_examples::between_jobs(),
        colour_examples::handed_in(),
        drain_examples::in_lists(),
        drain_examples::by_limits_in_lists(),
    ]
    .concat()
}

/// "Shown by example": pages on machine A.
fn pages() -> Vec<Example> {
    let one_page_each = Tables { counts: vec![1; 4], pages: vec![0; 4], ..fresh_a() }.counted();
    vec![
        Example::on_a("default, CPU 4: node 0, page 0", DEFAULT, 0, &[])
            .grants(4, &[(0, 0), (0, 1), (3, 4), (3, 5), (1, 2), (1, 3)])
            .no_room(4),
        Example::new("default, CPU 4: order 2,0,3,1", one_page_each)
            .rebind(0b1111)
            .install(DEFAULT, NO_FLAG, 0, &[])
            .grants(4, &[(2, 2), (0, 0), (3, 3), (1, 1)])
            .no_room(4),
        Example::on_a("bind 1,3, CPU 0: pages 2,3,4,5, then 8", BIND, 0b1010, &[])
            .grants(0, &[(1, 2), (1, 3), (3, 4), (3, 5)])
            .no_room(0),
        Example::on_a("interleave 1-3: pages 2,0,4", INTERLEAVE, 0b1110, &[]).grants(0, &[(1, 2), (0, 0), (3, 4)]),
        Example::on_a("ring {3,3,1}: pages 4,5,2,3, then 8", RING, 0, &[3, 3, 1])
            .grants(0, &[(3, 4), (3, 5), (1, 2), (1, 3)])
            .no_room(0),
        Example::on_a("list {3,3,1}: pages 4,5,2,3, then 8", LIST, 0, &[3, 3, 1])
            .grants(0, &[(3, 4), (3, 5), (1, 2), (1, 3)])
            .no_room(0),
        Example::on_a("early {0,1,3}: pages 0,1,2,4,3,5, then 8", EARLY, 0, &[0, 1, 3])
            .grants(0, &[(0, 0), (0, 1), (1, 2), (3, 4), (1, 3), (3, 5)])
            .no_room(0),
    ]
}

/// "Shown by example": masks with N = 10.
fn masks() -> Vec<Example> {
    vec![
        on_ten("1-3 in 1-3, rebound to 3-5: 3-5", &[1, 2, 3], NO_FLAG, &[1, 2, 3])
            .effective(&[1, 2, 3], "1-3")
            .rebind(mask(&[3, 4, 5]))
            .effective(&[3, 4, 5], "3-5")
            .grants(0, &[(3, 6), (4, 8), (5, 10), (3, 7)]),
        on_ten("static: 3", &[1, 2, 3], STATIC, &[1, 2, 3])
            .effective(&[1, 2, 3], "1-3")
            .rebind(mask(&[3, 4, 5]))
            .effective(&[3], "3")
            .grants(0, &[(3, 6), (3, 7)]),
        on_ten("relative 2-5 in 3-7: 3,5-7", &[3, 4, 5, 6, 7], RELATIVE, &[2, 3, 4, 5])
            .effective(&[3, 5, 6, 7], "3,5-7")
            .grants(0, &[(3, 6), (5, 10), (6, 12), (7, 14), (3, 7)]),
        on_ten("relative 2-5 in 0,2-3,5: 0,2-3,5", &[0, 2, 3, 5], RELATIVE, &[2, 3, 4, 5])
            .effective(&[0, 2, 3, 5], "0,2-3,5")
            .grants(0, &[(0, 0), (2, 4), (3, 6), (5, 10), (0, 1)]),
        on_ten("1,3,5 in 1-5, rebound to 7-9: 7-9; back to 1-5: 1-3", &[1, 2, 3, 4, 5], NO_FLAG, &[1, 3, 5])
            .effective(&[1, 3, 5], "1,3,5")
            .rebind(mask(&[7, 8, 9]))
            .effective(&[7, 8, 9], "7-9")
            .grants(0, &[(7, 14), (8, 16), (9, 18), (7, 15)])
            .rebind(mask(&[1, 2, 3, 4, 5]))
            .effective(&[1, 2, 3], "1-3")
            .grants(0, &[(1, 2), (2, 4), (3, 6), (1, 3)]),
    ]
}

/// "16 places accepted, 17 refused 6": only the last of the sixteen has pages.
fn sixteen_places() -> Vec<Example> {
    let sixteen = [2, 2, 2, 2, 2, 2, 2, 2, 2, 2, 2, 2, 2, 2, 2, 3];
    let twos = 0x0202_0202_0202_0202;
    let of_mode = |mode, cursor| {
        Example::on_a(&format!("16 places accepted, 17 refused 6: mode {mode}"), mode, 0, &sixteen)
            .call(install(mode, NO_FLAG, 0, &[3; 17]), Answer::Refused(6))
            .step(Step::Record([0x10_0000 + u64::from(mode), 0, 0b1111, 0, twos, twos + (1 << 56)]))
            .grants(0, &[(3, 4), (3, 5)])
            .cursor(cursor)
            .no_room(0)
    };
    vec![of_mode(LIST, 0), of_mode(RING, 16), of_mode(EARLY, 16)]
}

/// "node 63 accepted with N 64", and not with N 63; too many nodes for a journal.
fn node_63() -> Vec<Example> {
    let sixty_four = || machine(&[1; 64], &[63], flat(64, 20));
    let node_63 = 1 << 63;
    vec![
        Example::new("node 63 with N 64: rebind, CPU", sixty_four()).rebind(node_63).grants(0, &[(63, 63)]).no_room(0),
        Example::new("node 63 with N 64: bind", sixty_four())
            .rebind(u64::MAX)
            .install(BIND, NO_FLAG, node_63, &[])
            .effective(&[63], "63")
            .grants(0, &[(63, 63)])
            .no_room(0),
        Example::new("node 63 with N 64: interleave", sixty_four())
            .rebind(u64::MAX)
            .install(INTERLEAVE, NO_FLAG, 3 << 62, &[])
            .grants(0, &[(62, 62), (63, 63)])
            .cursor(64)
            .grants(0, &[(0, 0)])
            .cursor(63),
        Example::new("node 63 with N 64: a place", sixty_four())
            .rebind(u64::MAX)
            .install(RING, NO_FLAG, 0, &[63, 0])
            .step(Step::Record([0x2_0005, 0, u64::MAX, 0, 63, 0]))
            .grants(0, &[(63, 63), (0, 0)]),
        Example::new("node 63 with N 63", machine(&[1; 63], &[0], flat(63, 20)))
            .call(Call::Rebind { job: 0, allowed: node_63 }, Answer::Refused(6))
            .rebind(node_63 - 1)
            .call(install(BIND, NO_FLAG, node_63, &[]), Answer::Refused(6)),
    ]
}

/// "Easy ways to get it wrong", each point so that the mistake would show in an answer.
fn easy_to_get_wrong() -> Vec<Example> {
    let mut examples = vec![
        Example::on_a("a refused request does not move a ring's cursor", RING, 0, &[3, 1])
            .grants(0, &[(3, 4), (1, 2), (3, 5), (1, 3)])
            .no_room(0)
            .cursor(2)
            .release(3, 4)
            .release(1, 2)
            .grants(0, &[(3, 4), (1, 2)]),
        Example::on_a("a refused request does not move interleave's cursor", INTERLEAVE, 0b1010, &[])
            .grants(0, &[(1, 2), (3, 4), (1, 3), (3, 5), (0, 0), (0, 1)])
            .no_room(0)
            .cursor(4)
            .release(1, 2)
            .release(3, 4)
            .grants(0, &[(1, 2), (3, 4)]),
        Example::on_a("interleave stores the target, not the node that served", INTERLEAVE, 0b1110, &[])
            .grants(0, &[(1, 2), (0, 0)])
            .cursor(3)
            .grants(0, &[(3, 4)])
            .cursor(4)
            .grants(0, &[(1, 3)])
            .cursor(2),
        Example::on_a("a ring starts one past its cursor", RING, 0, &[0, 1])
            .grants(0, &[(0, 0), (1, 2)])
            .cursor(2)
            .grants(0, &[(0, 1), (1, 3)]),
    ];
    let x_first = [(3, 4), (3, 5), (0, 0)];
    for (mode, user, cpu) in [(DEFAULT, 0, 7), (PREFERRED, 0b1000, 0), (BIND, 0b1001, 7), (INTERLEAVE, 0b1000, 0)] {
        let all_at_10 = Tables { distances: vec![10; 16], ..fresh_a() };
        let name = format!("near(x) has x before a lower neighbour at distance 10: mode {mode}");
        let example =
            Example::new(&name, all_at_10).rebind(0b1111).install(mode, NO_FLAG, user, &[]).grants(cpu, &x_first);
        examples.push(example);
    }
    examples
}

/// What 01 says and shows no example of: preferred, static with an empty effective set, rebind and clear.
fn policies() -> Vec<Example> {
    let mut examples = vec![
        Example::on_a("preferred with an empty mask is local", PREFERRED, 0, &[])
            .grants(7, &[(3, 4)])
            .grants(0, &[(0, 0)]),
        Example::on_a("preferred goes by its lowest node", PREFERRED, 0b1010, &[])
            .grants(7, &[(1, 2), (1, 3), (0, 0), (0, 1), (3, 4)]),
        Example::on_a("rebind keeps the cursor", INTERLEAVE, 0b1111, &[])
            .grants(0, &[(0, 0), (1, 2), (0, 1)])
            .cursor(3)
            .rebind(0b1010)
            .cursor(3)
            .grants(0, &[(3, 4), (1, 3), (3, 5)]),
        Example::on_a("clear makes the record fresh; held pages stay held", RING, 0, &[3])
            .grants(0, &[(3, 4)])
            .call(Call::Clear { job: 0 }, Answer::Done)
            .step(Step::Record([0; WORDS]))
            .no_room(0)
            .release(3, 4),
    ];
    for mode in [PREFERRED, BIND, INTERLEAVE] {
        let name = format!("static with an empty effective set goes by the CPU's node: mode {mode}");
        let example = Example::new(&name, fresh_a())
            .rebind(0b1111)
            .install(mode, STATIC, 0b0010, &[])
            .rebind(0b1001)
            .effective(&[], "")
            .grants(6, &[(3, 4), (3, 5), (0, 0), (0, 1)])
            .no_room(6)
            .cursor(0);
        examples.push(example);
    }
    examples
}

/// M-101: "any grant in mode 6 sets the cursor to the granted place".
fn early() -> Vec<Example> {
    vec![
        Example::on_a("early {0,1,3}: pages 0,1,2, release of page 0, then pages 0 and 3", EARLY, 0, &[0, 1, 3])
            .grants(0, &[(0, 0)])
            .cursor(1)
            .grants(0, &[(0, 1), (1, 2)])
            .cursor(2)
            .release(0, 0)
            .grants(0, &[(0, 0)])
            .cursor(1)
            .grants(0, &[(1, 3)])
            .cursor(2),
        Example::on_a("a node named twice: early's place 0 is the place that granted", EARLY, 0, &[3, 0, 3, 1])
            .grants(0, &[(3, 4), (3, 5)])
            .cursor(1)
            .grants(0, &[(0, 0)])
            .cursor(2)
            .release(3, 5)
            .grants(0, &[(3, 5)])
            .cursor(1)
            .grants(0, &[(0, 1), (1, 2), (1, 3)])
            .cursor(4)
            .no_room(0)
            .cursor(4),
    ]
}

/// Likewise: places that are passed over.
fn places() -> Vec<Example> {
    let mut handed_in = fresh_a();
    handed_in.jobs[..WORDS].copy_from_slice(&[0x4_0005, 0, 0b1111, 0, 0x0001_FF04, 0]);
    vec![
        Example::new("places at N or above, in a record handed in, are passed over", handed_in)
            .grants(0, &[(1, 2), (0, 0), (1, 3), (0, 1)])
            .no_room(0),
        Example::on_a("M-103: places at N or above are refused 6 at install", RING, 0, &[3])
            .refused(install(RING, NO_FLAG, 0, &[4, 1]), 6)
            .refused(install(LIST, NO_FLAG, 0, &[1, 254]), 6)
            .refused(install(EARLY, NO_FLAG, 0, &[1, 0, 200]), 6)
            .grants(0, &[(3, 4)]),
        Example::on_a("places that are not allowed are passed over", LIST, 0, &[0, 1])
            .rebind(0b1010)
            .grants(0, &[(1, 2), (1, 3)])
            .no_room(0),
    ]
}

/// Likewise: nodes out of reach.
fn reach() -> Vec<Example> {
    let mut far_1 = fresh_a();
    far_1.distances[1] = 255;
    let apart = machine(&[1, 1], &[0], flat(2, 255));
    vec![
        Example::new("bind does not try an effective node out of reach", far_1)
            .rebind(0b1111)
            .install(BIND, NO_FLAG, 0b1010, &[])
            .grants(0, &[(3, 4), (3, 5)])
            .no_room(0),
        Example::new("an interleave target without room keeps its turn", apart)
            .call(Call::Rebind { job: 1, allowed: 0b01 }, Answer::Done)
            .call(Call::Request { job: 1, cpu: 0 }, granted(0, 0))
            .rebind(0b11)
            .install(INTERLEAVE, NO_FLAG, 0b11, &[])
            .no_room(0)
            .no_room(0)
            .cursor(0)
            .call(Call::Release { job: 1, page: 0 }, released(0, 0))
            .grants(0, &[(0, 0), (1, 1)])
            .no_room(0),
    ]
}

/// M-100: free counts kept, and what is answered where they are wrong.
fn free_counts() -> Vec<Example> {
    let a_with = |pages: [u8; 6], free: [u32; 4]| Tables { pages: pages.to_vec(), free: free.to_vec(), ..fresh_a() };
    let on = |name: &str, start: Tables, mode: u8, places: &[u8]| {
        Example::new(&format!("M-100: {name}"), start).rebind(0b1111).install(mode, NO_FLAG, 0, places)
    };
    let not_held = Call::Release { job: 0, page: 2 };
    let held = Call::Release { job: 0, page: 0 };
    let taken = Tables { pages: vec![255, 1, 6, 99, 1, 64, 77], free: vec![9, 0, 9, u32::MAX], ..fresh_a() };
    vec![
        on("a grant takes one from the count, a release gives it back", fresh_a(), DEFAULT, &[])
            .grants(4, &[(0, 0), (0, 1), (3, 4)])
            .free(&[0, 2, 0, 1])
            .release(0, 1)
            .free(&[1, 2, 0, 1]),
        on(
            "14: a node counted above 0 without a free page",
            a_with([6, 6, 0, 0, 0, 0], [1, 2, 0, 2]),
            RING,
            &[2, 0, 1],
        )
        .wrong_count(0)
        .cursor(0)
        .free(&[1, 2, 0, 2]),
        on("14 only where no page was found before", a_with([6, 6, 0, 0, 0, 0], [1, 2, 0, 2]), RING, &[1, 0])
            .grants(0, &[(1, 2)])
            .wrong_count(0)
            .wrong_count(0)
            .cursor(1)
            .free(&[1, 1, 0, 2]),
        on("14 and not 8 where the other nodes are counted 0", a_with([0, 0, 6, 6, 0, 0], [0, 1, 0, 0]), DEFAULT, &[])
            .wrong_count(0)
            .free(&[0, 1, 0, 0]),
        on("8 with room on nodes counted 0", a_with([0; 6], [0; 4]), DEFAULT, &[]).no_room(0).free(&[0; 4]),
        on("a node counted 0 is passed over, room or not", a_with([0; 6], [0, 1, 0, 2]), DEFAULT, &[])
            .grants(0, &[(1, 2), (3, 4), (3, 5)])
            .no_room(0)
            .free(&[0; 4]),
        on(
            "a count too high grants while there is a free page",
            a_with([6, 0, 0, 0, 0, 0], [u32::MAX; 4]),
            LIST,
            &[0, 1],
        )
        .grants(0, &[(0, 1)])
        .free(&[u32::MAX - 1, u32::MAX, u32::MAX, u32::MAX])
        .wrong_count(0),
        on("a count too low grants as many as it says", a_with([0; 6], [1, 2, 0, 2]), LIST, &[0, 1])
            .grants(0, &[(0, 0), (1, 2)])
            .free(&[0, 1, 0, 2]),
        on("14: a release above the node's pages", a_with([1, 0, 0, 0, 0, 0], [2, 2, 0, 2]), DEFAULT, &[])
            .call(held.clone(), Answer::Refused(14))
            .free(&[2, 2, 0, 2])
            .grants(0, &[(0, 1)])
            .call(held.clone(), released(0, 0))
            .free(&[2, 2, 0, 2]),
        on("10 before 14 in a release", a_with([1, 0, 0, 0, 0, 0], [u32::MAX; 4]), DEFAULT, &[])
            .call(not_held, Answer::Refused(10))
            .call(held, Answer::Refused(14))
            .free(&[u32::MAX; 4]),
        on("a fresh table, then requests", taken, DEFAULT, &[])
            .wrong_count(4)
            .call(Call::Fresh, Answer::Done)
            .free(&[2, 2, 0, 2])
            .grants(4, &[(0, 0), (0, 1), (3, 4), (3, 5), (1, 2), (1, 3)])
            .no_room(4)
            .call(Call::Fresh, Answer::Done)
            .grants(6, &[(3, 4)])
            .free(&[2, 2, 0, 1]),
    ]
}

/// Job 0 on machine A, allowed all nodes, with a map.
fn mapped(name: &str, list: &[u8]) -> Example {
    Example::new(&format!("M-103: {name}"), fresh_a()).rebind(0b1111).set_map(list)
}

/// M-103: masks and places turned at install, answers back; the search order in the map.
fn maps() -> Vec<Example> {
    vec![
        mapped("default, CPU 4, on a node outside map {3,0,1}", &[3, 0, 1])
            .grants(4, &[(1, 0), (1, 1), (0, 4), (0, 5), (2, 2), (2, 3)])
            .no_room(4)
            .release(0, 4)
            .release(2, 3),
        mapped("a mask is turned by entry: bind 0,2 in map {3,0,1} is 1,3", &[3, 0, 1])
            .install(BIND, NO_FLAG, 0b101, &[])
            .step(Step::Record([2, 0b1010, 0b1111, 0b1010, 0, 0]))
            .grants(0, &[(2, 2), (2, 3), (0, 4), (0, 5)])
            .no_room(0),
        mapped("a static mask is turned too", &[3, 0, 1])
            .install(INTERLEAVE, STATIC, 0b011, &[])
            .step(Step::Record([0x0103, 0b1001, 0b1111, 0b1001, 0, 0]))
            .grants(0, &[(1, 0), (0, 4), (1, 1), (0, 5)]),
        mapped("a relative mask is not turned", &[3, 0, 1])
            .install(INTERLEAVE, RELATIVE, 1 << 63 | 0b01, &[])
            .step(Step::Record([0x0203, 1 << 63 | 0b01, 0b1111, 0b1001, 0, 0]))
            .grants(0, &[(1, 0), (0, 4)]),
        mapped("places are turned: ring {0,0,2} in map {3,0,1} is {3,3,1}", &[3, 0, 1])
            .install(RING, NO_FLAG, 0, &[0, 0, 2])
            .step(Step::Record([0x3_0005, 0, 0b1111, 0, 0x01_0303, 0]))
            .grants(0, &[(0, 4), (0, 5), (2, 2), (2, 3)])
            .no_room(0),
    ]
}

/// M-103: what is not turned, what does not fit, and what a map is beside the allowed set.
fn ends_of_maps() -> Vec<Example> {
    vec![
        mapped("a rebind's mask is not turned", &[3, 0, 1]).rebind(0b0001).grants(6, &[(1, 0), (1, 1)]).no_room(6),
        mapped("an application number past the map's end is 6", &[3, 0, 1])
            .refused(install(BIND, NO_FLAG, 0b1001, &[]), 6)
            .refused(install(PREFERRED, STATIC, 1 << 63, &[]), 6)
            .refused(install(LIST, NO_FLAG, 0, &[0, 3]), 6)
            .refused(install(EARLY, NO_FLAG, 0, &[255]), 6)
            .install(INTERLEAVE, RELATIVE, 1 << 63, &[]),
        mapped("a mask misses the allowed set by its system nodes", &[3, 0])
            .rebind(0b0001)
            .refused(install(BIND, NO_FLAG, 0b01, &[]), 6)
            .install(BIND, NO_FLAG, 0b10, &[])
            .step(Step::Record([2, 0b0001, 0b0001, 0b0001, 0, 0])),
        mapped("clear leaves the map", &[3, 0])
            .call(Call::Clear { job: 0 }, Answer::Done)
            .map(&[3, 0])
            .rebind(0b1111)
            .grants(6, &[(0, 4)]),
    ]
}

/// M-103: "The tenant's call may only drop nodes"; what then happens to policies that name them and to pages held there.
fn dropped_nodes() -> Vec<Example> {
    vec![
        mapped("a tenant keeps nodes 0 and 2 of map {3,0,1}", &[3, 0, 1])
            .grants(0, &[(1, 0)])
            .keep(&[0, 2], &[3, 1])
            .grants(0, &[(1, 2), (1, 3), (0, 4)])
            .keep(&[1], &[1])
            .no_room(0),
        mapped("a released page outside the map answers node FF", &[3, 0, 1])
            .grants(0, &[(1, 0)])
            .keep(&[0, 2], &[3, 1])
            .call(Call::Release { job: 0, page: 0 }, Answer::Released { node: None, page: 0 })
            .free(&[2, 2, 0, 2])
            .refused(Call::Release { job: 0, page: 0 }, 10),
        mapped("places outside the map are passed over", &[0, 1, 3])
            .install(RING, NO_FLAG, 0, &[2, 1, 0])
            .keep(&[0, 2], &[0, 3])
            .grants(0, &[(1, 4), (0, 0), (1, 5), (0, 1)])
            .cursor(3)
            .no_room(0),
        mapped("interleave's target may lie outside the map", &[0, 1, 3])
            .install(INTERLEAVE, NO_FLAG, 0b111, &[])
            .keep(&[0, 2], &[0, 3])
            .grants(0, &[(0, 0), (0, 1)])
            .cursor(2)
            .grants(0, &[(1, 4)])
            .cursor(4),
        mapped("preferred's lowest node may lie outside the map", &[1, 0, 3])
            .install(PREFERRED, NO_FLAG, 0b001, &[])
            .keep(&[1, 2], &[0, 3])
            .grants(6, &[(0, 0), (0, 1), (1, 4)]),
        mapped("an effective set outside the map is not empty", &[1, 0, 3])
            .install(BIND, STATIC, 0b001, &[])
            .keep(&[1, 2], &[0, 3])
            .no_room(0)
            .rebind(0b1101)
            .effective(&[], "")
            .grants(0, &[(0, 0)]),
    ]
}

/// A keep of nodes and a map set, both for job 0.
fn keep(kept: &[u8]) -> Call {
    Call::KeepNodes { job: 0, kept: kept.to_vec() }
}
fn set(list: &[u8]) -> Call {
    Call::SetMap { job: 0, list: list.to_vec() }
}

/// M-103: the lists of the two calls, "else 15"; "Both test 1, 2, 15".
fn map_lists() -> Vec<Example> {
    let mut tenant = mapped("the tenant's list, else 15", &[3, 0, 1]);
    for kept in [&[][..], &[0, 0], &[1, 0], &[3], &[0, 1, 2, 3], &[255]] {
        tenant = tenant.refused(keep(kept), 15).map(&[3, 0, 1]);
    }
    let mut administrator = mapped("the administrator's list, else 15", &[3, 0, 1]);
    for list in [&[][..], &[0, 0], &[4], &[0, 255], &[0; 65], &[2, 1, 0, 2]] {
        administrator = administrator.refused(set(list), 15).map(&[3, 0, 1]);
    }
    vec![
        tenant.keep(&[0, 1, 2], &[3, 0, 1]),
        administrator.set_map(&[2, 1, 0, 3]),
        mapped("no such job: 2", &[3])
            .refused(Call::KeepNodes { job: 8, kept: vec![] }, 2)
            .refused(Call::SetMap { job: 8, list: vec![] }, 2),
    ]
}

/// M-103: a bad map is "refused 15, right after 2 in request, release and install"; a table of another length 1.
fn bad_maps() -> Vec<Example> {
    let request = |job, cpu| Call::Request { job, cpu };
    let mut examples = Vec::new();
    for bytes in [&[][..], &[3, 3], &[0, 4], &[1, 0xFF, 0], &[0xFF, 0]] {
        let mut start = fresh_a();
        start.maps[..64].copy_from_slice(&map_with(bytes));
        let name = format!("M-103: a bad map {bytes:?} is 15, right after 2");
        let example = Example::new(&name, start)
            .rebind(0b1111)
            .refused(request(0, 0), 15)
            .refused(request(0, 99), 15)
            .refused(request(8, 99), 2)
            .refused(Call::Release { job: 0, page: 0 }, 15)
            .refused(install(9, 9, 0, &[]), 15)
            .refused(keep(&[0]), 15)
            .map(bytes)
            .call(Call::Clear { job: 0 }, Answer::Done)
            .rebind(0b1111)
            .set_map(&[1])
            .grants(0, &[(0, 2)]);
        examples.push(example);
    }
    let mut long = fresh_a();
    long.maps.push(0xFF);
    examples.push(
        Example::new("M-103: a table not of 64 bytes a job is 1", long)
            .rebind(0b1111)
            .refused(request(8, 99), 1)
            .refused(Call::Release { job: 8, page: 99 }, 1)
            .refused(install(9, 9, 0, &[]), 1)
            .refused(keep(&[]), 1)
            .refused(set(&[]), 1)
            .call(Call::Fresh, Answer::Done),
    );
    examples
}

/// M-103: a map of 64 entries has no FF.
fn node_63_in_maps() -> Vec<Example> {
    let backward: Vec<u8> = (0..64).rev().collect();
    let sixty_four = machine(&[1; 64], &[63], flat(64, 20));
    vec![Example::new("M-103: node 63 is application node 0 of a map without FF", sixty_four)
        .rebind(u64::MAX)
        .set_map(&backward)
        .install(BIND, NO_FLAG, 1 << 63 | 1, &[])
        .effective(&[0, 63], "0,63")
        .grants(0, &[(0, 63), (63, 0)])
        .no_room(0)
        .keep(&[63], &[0])
        .call(Call::Release { job: 0, page: 63 }, Answer::Released { node: None, page: 63 })
        .release(0, 0)]
}

/// M-104: "a 255 in the last place of a mode 4 list stands, unmapped, for near(CPU's node) there".
fn closing_255() -> Vec<Example> {
    let mut sixteen = [2; 16];
    sixteen[15] = 255;
    let twos = 0x0202_0202_0202_0202;
    vec![
        Example::on_a("M-104: list {3,255}, CPU 4: node 3, then near(2)", LIST, 0, &[3, 255])
            .step(Step::Record([0x2_0004, 0, 0b1111, 0, 0xFF03, 0]))
            .grants(4, &[(3, 4), (3, 5), (0, 0), (0, 1), (1, 2)])
            .release(3, 5)
            .grants(4, &[(3, 5), (1, 3)])
            .cursor(0)
            .no_room(4),
        Example::on_a("M-104: list {255} goes by the CPU's node", LIST, 0, &[255])
            .step(Step::Record([0x1_0004, 0, 0b1111, 0, 0xFF, 0]))
            .grants(7, &[(3, 4)])
            .grants(0, &[(0, 0)])
            .grants(2, &[(1, 2)])
            .grants(4, &[(0, 1), (3, 5), (1, 3)])
            .no_room(4),
        Example::on_a("M-104: 255 as the last of 16 places, and as the 17th", LIST, 0, &sixteen)
            .refused(install(LIST, NO_FLAG, 0, &[[2; 16].to_vec(), vec![255]].concat()), 6)
            .step(Step::Record([0x10_0004, 0, 0b1111, 0, twos, twos | 0xFF << 56]))
            .grants(6, &[(3, 4)]),
    ]
}

/// M-104: that near(CPU's node) is the one of default.
fn closing_255_is_near() -> Vec<Example> {
    let mut far_1 = fresh_a();
    far_1.distances[9] = 255;
    let wrong = Tables { pages: vec![0, 0, 0, 0, 6, 6], free: vec![2, 2, 0, 1], ..fresh_a() };
    vec![
        Example::on_a("M-104: near goes by what is allowed", LIST, 0, &[1, 255])
            .rebind(0b1001)
            .grants(2, &[(0, 0), (0, 1), (3, 4), (3, 5)])
            .no_room(2),
        Example::new("M-104: near leaves out what is out of reach", far_1)
            .rebind(0b1111)
            .install(LIST, NO_FLAG, 0, &[3, 255])
            .grants(4, &[(3, 4), (3, 5), (0, 0), (0, 1)])
            .no_room(4),
        Example::new("M-104: a wrong count in near is 14", wrong)
            .rebind(0b1111)
            .install(LIST, NO_FLAG, 0, &[0, 255])
            .grants(6, &[(0, 0), (0, 1)])
            .wrong_count(6)
            .grants(2, &[(1, 2), (1, 3)])
            .wrong_count(2),
    ]
}

/// M-104: near is over the nodes "allowed and in the map"; the 255 is "unmapped" even where the map has 64 entries.
fn closing_255_in_maps() -> Vec<Example> {
    let sixty_four = machine(&[1; 64], &[63], flat(64, 20));
    vec![
        mapped("M-104's list {2,255} in map {3,0,1}", &[3, 0, 1])
            .install(LIST, NO_FLAG, 0, &[2, 255])
            .step(Step::Record([0x2_0004, 0, 0b1111, 0, 0xFF01, 0]))
            .grants(6, &[(2, 2), (2, 3), (0, 4), (0, 5), (1, 0), (1, 1)])
            .no_room(6),
        mapped("M-104's closing 255 tries no node that left the map", &[3, 0, 1])
            .install(LIST, NO_FLAG, 0, &[0, 255])
            .keep(&[0, 2], &[3, 1])
            .grants(0, &[(0, 4), (0, 5), (1, 2), (1, 3)])
            .no_room(0),
        Example::new("M-104: a closing 255 beside a map without FF", sixty_four)
            .rebind(u64::MAX)
            .install(LIST, NO_FLAG, 0, &[1, 255])
            .step(Step::Record([0x2_0004, 0, u64::MAX, 0, 0xFF01, 0]))
            .grants(0, &[(1, 1), (63, 63), (0, 0), (2, 2)]),
    ]
}

/// M-104: "elsewhere nothing changes": 6 at install; in a record handed in passed over.
fn other_255s() -> Vec<Example> {
    let handed_in = |name: &str, mode: u64, places: u64, length: u64| {
        let mut start = fresh_a();
        start.jobs[..WORDS].copy_from_slice(&[mode | length << 16, 0, 0b1111, 0, places, 0]);
        Example::new(&format!("M-104: handed in, {name}"), start)
    };
    vec![
        Example::on_a("M-104: a 255 elsewhere is 6", LIST, 0, &[3])
            .refused(install(LIST, NO_FLAG, 0, &[255, 3]), 6)
            .refused(install(LIST, NO_FLAG, 0, &[1, 255, 3]), 6)
            .refused(install(LIST, NO_FLAG, 0, &[255, 255]), 6)
            .refused(install(LIST, NO_FLAG, 0, &[4, 255]), 6)
            .refused(install(LIST, NO_FLAG, 1, &[3, 255]), 6)
            .refused(install(LIST, STATIC, 0, &[3, 255]), 5)
            .refused(install(RING, NO_FLAG, 0, &[3, 255]), 6)
            .refused(install(RING, NO_FLAG, 0, &[255]), 6)
            .refused(install(EARLY, NO_FLAG, 0, &[3, 255]), 6)
            .refused(install(EARLY, NO_FLAG, 0, &[255]), 6)
            .refused(install(DEFAULT, NO_FLAG, 0, &[255]), 6)
            .grants(0, &[(3, 4)]),
        handed_in("list {255,1} passes over the 255", 4, 0x01FF, 2).grants(0, &[(1, 2), (1, 3)]).no_room(0),
        handed_in("list {1,255,255} has one that closes", 4, 0xFF_FF01, 3).grants(6, &[(1, 2), (1, 3), (3, 4)]),
        handed_in("ring {1,255} passes over the 255", 5, 0xFF01, 2).grants(0, &[(1, 2), (1, 3)]).no_room(0),
        handed_in("early {1,255} passes over the 255", 6, 0xFF01, 2).grants(0, &[(1, 2), (1, 3)]).no_room(0),
        handed_in("list {1,254} does not close", 4, 0xFE01, 2).grants(0, &[(1, 2), (1, 3)]).no_room(0),
    ]
}

/// A text with N and the allowed set; the mask it stands for and how that is written, or the refusal.
#[derive(Clone, Copy, Debug, PartialEq, Eq)]
pub struct TextExample {
    pub nodes: usize,
    pub allowed: u64,
    pub text: &'static str,
    pub outcome: Result<(u64, &'static str), u8>,
}

/// "Shown by example": texts, and node 63 in a text.
pub fn texts() -> Vec<TextExample> {
    let two_to_five = 0b0011_1100;
    let node_63 = 1 << 63;
    let examples = [
        (8, two_to_five, "!4-5", Ok((0b1100_1111, "0-3,6-7"))),
        (8, two_to_five, "+0-3", Ok((0b0011_1100, "2-5"))),
        (8, two_to_five, "5-3", Err(12)),
        (8, two_to_five, "1,", Err(12)),
        (8, two_to_five, "!all", Err(12)),
        (8, two_to_five, "01", Err(12)),
        (64, 0, "63", Ok((node_63, "63"))),
        (64, u64::MAX, "+63", Ok((node_63, "63"))),
        (64, 0, "!0-62", Ok((node_63, "63"))),
        (64, 0, "0-63", Ok((u64::MAX, "0-63"))),
        (64, 0, "64", Err(12)),
        (63, 0, "63", Err(12)),
    ];
    examples.into_iter().map(|(nodes, allowed, text, outcome)| TextExample { nodes, allowed, text, outcome }).collect()
}

/// "Journal on A: rebind job 0 to 0F, then request from CPU 0."
#[rustfmt::skip]
pub const JOURNAL_ON_A: [u8; 102] = [
    0x4E, 0x50, 0, 4, 8, 0,
    2, 0, 2, 0, 0, 0, 2, 0,
    0, 0, 1, 1, 2, 2, 3, 3,
    10, 20, 20, 30, 20, 10, 30, 20, 20, 30, 10, 20, 30, 20, 20, 10,
    0x4E, 0x50, 3, 0, 0, 0, 0, 0, 0x0F, 0, 0, 0, 0, 0, 0, 0, 0, 0, 0, 0, 0, 0, 0, 0, 0, 0, 0, 0, 0, 0, 0, 0,
    0x4E, 0x50, 1, 0, 0, 0, 0, 0, 0, 0, 0, 0, 0, 0, 0, 0, 0, 0, 0, 0, 0, 0, 0, 0, 0, 0, 0, 0, 0, 0, 0, 0,
];

/// "The whole output".
#[rustfmt::skip]
pub const ANSWERS_ON_A: [u8; 24] = [
    0x4E, 0x41, 0x03, 0x00, 0xFF, 0x00, 0x00, 0x00, 0xFF, 0xFF, 0xFF, 0xFF,
    0x4E, 0x41, 0x01, 0x00, 0x00, 0x00, 0x00, 0x00, 0x00, 0x00, 0x00, 0x00,
];

#[cfg(test)]
mod tests {
    use super::*;
    use crate::journal::run;
    use crate::text::{read_nodes, write_nodes};

    /// The text of a mask.
    fn written(nodes: usize, mask: u64) -> String {
        let mut out = [0; 130];
        let length = write_nodes(nodes, mask, &mut out).unwrap();
        String::from_utf8(out[..length].to_vec()).unwrap()
    }

    #[test]
    fn every_example_of_calls() {
        for example in all() {
            let mut tables = example.start.clone();
            for (turn, step) in example.steps.iter().enumerate() {
                let told = format!("{}: step {turn}", example.name);
                match step {
                    Step::Call(call, answer) => assert_eq!(apply(&mut tables, call), *answer, "{told}"),
                    Step::Cursor(field) => assert_eq!(tables.jobs[0] >> 24, *field, "{told}"),
                    Step::Effective(mask, text) => {
                        assert_eq!(tables.jobs[3], *mask, "{told}");
                        assert_eq!(written(tables.counts.len(), *mask), *text, "{told}");
                    }
                    Step::Record(words) => assert_eq!(tables.jobs[..WORDS], *words, "{told}"),
                    Step::Free(counts) => assert_eq!(tables.free, *counts, "{told}"),
                    Step::Map(bytes) => assert_eq!(tables.maps[..64], *bytes, "{told}"),
                }
            }
            if let Some((journal, answers)) = example.journal() {
                assert_eq!(run(&journal), answers, "{}", example.name);
            }
        }
    }

    #[test]
    fn every_example_of_text() {
        for TextExample { nodes, allowed, text, outcome } in texts() {
            assert_eq!(read_nodes(nodes, allowed, text.as_bytes()), outcome.map(|(mask, _)| mask), "{text}");
            if let Ok((mask, back)) = outcome {
                assert_eq!(written(nodes, mask), back, "{text}");
            }
        }
    }

    #[test]
    fn the_journal_on_a_byte_for_byte() {
        assert_eq!(run(&JOURNAL_ON_A), ANSWERS_ON_A);
    }
}
