//! Demand 3 by brute force: every window of k times L granted requests is counted; the free counts match at the start (M-100),
//! and "allowed" means allowed and in the map (M-103).

use crate::calls::{apply, first_with_room, Answer, Call, Tables};
use crate::machine::{lowest_free_page, node_of_page};
use crate::maps::{map_of, nodes_in};
use crate::masks::{has, node_of_rank, size};
use crate::order::{place_is_allowed, search_order, Machine, Part};
use crate::record::{read, Record, INTERLEAVE, RING, WORDS};

/// A granted request: its page, the machine's node that this lies in, and in ring mode its place (The lists of demand 3).
#[derive(Clone, Copy, Debug, PartialEq, Eq)]
pub struct Grant {
    pub node: usize,
    pub page: usize,
    pub place: Option<usize>,
}

/// How a request is made; the tests put wrong ones in its stead.
pub type Ask = fn(&mut Tables, usize, usize) -> Option<Grant>;

/// One granted request as demand 3 looks at it.
#[derive(Clone, Debug)]
pub struct Look {
    /// For each place or node: allowed, and a free page before this request.
    pub open: Vec<bool>,
    /// Which place or node was granted; none if it is not one of them.
    pub granted: Option<usize>,
}

/// The granted requests of one job in a row while its policy and limits stay (demand 3).
#[derive(Clone, Debug)]
pub struct Stretch {
    pub job: usize,
    /// L: list places in ring mode, effective nodes in interleave mode.
    pub length: usize,
    pub looks: Vec<Look>,
}

/// What was counted, to show that the check is not empty.
#[derive(Clone, Copy, Debug, Default, PartialEq, Eq)]
pub struct Seen {
    pub grants: u64,
    pub windows: u64,
    /// Places or nodes that were open before each request of a window.
    pub at_least: u64,
    /// Windows in which all of them were.
    pub exact: u64,
}

/// A window that breaks demand 3.
#[derive(Clone, Debug, PartialEq, Eq)]
pub struct Unfair {
    pub job: usize,
    pub first_grant: usize,
    pub k: usize,
    pub which: usize,
    pub times: usize,
}

/// "In demand 3 \"allowed\" then means in both" the allowed set and the map (M-103).
fn allowed(tables: &Tables, job: usize) -> u64 {
    read(&tables.jobs, job).allowed & nodes_in(map_of(&tables.maps, job))
}

/// "the place granted is the first that is allowed and has a free page" (The lists of demand 3).
fn place_granted(tables: &Tables, job: usize, cpu: usize) -> Option<usize> {
    let machine = Machine { nodes: tables.counts.len(), cpus: &tables.cpus, distances: &tables.distances };
    let order = search_order(machine, &read(&tables.jobs, job), allowed(tables, job), cpu);
    match first_with_room(&tables.counts, &tables.pages, &order) {
        Some(granted) => match granted.part {
            Part::Place(place) => Some(place),
            _ => None,
        },
        None => None,
    }
}

/// A request by this implementation's own rules (The lists of demand 3).
pub fn ask(tables: &mut Tables, job: usize, cpu: usize) -> Option<Grant> {
    let before = tables.clone();
    match apply(tables, &Call::Request { job, cpu }) {
        Answer::Granted { page, .. } => {
            let is_ring = read(&before.jobs, job).mode == RING;
            let place = if is_ring { place_granted(&before, job, cpu) } else { None };
            Some(Grant { node: node_of_page(&before.counts, page as usize)?, page: page as usize, place })
        }
        _ => None,
    }
}

/// L of a record: places in ring mode, effective nodes in interleave mode, else 0 (demand 3).
fn length_of(record: &Record) -> usize {
    match record.mode {
        RING => usize::from(record.length),
        INTERLEAVE => size(record.effective),
        _ => 0,
    }
}

/// For each place or node: "allowed and has a free page" (demand 3).
fn open_ones(tables: &Tables, job: usize) -> Vec<bool> {
    let (nodes, record, allowed) = (tables.counts.len(), read(&tables.jobs, job), allowed(tables, job));
    let mut open = Vec::new();
    for which in 0..length_of(&record) {
        let node = match record.mode {
            RING if place_is_allowed(nodes, &record, allowed, which) => Some(usize::from(record.places[which])),
            INTERLEAVE => node_of_rank(record.effective, which),
            _ => None,
        };
        let is_open = match node {
            Some(node) if node < nodes && has(allowed, node) => {
                lowest_free_page(&tables.counts, &tables.pages, node).is_some()
            }
            _ => false,
        };
        open.push(is_open);
    }
    open
}

/// Which of the places or nodes a grant counts for (The lists of demand 3).
fn which_granted(record: &Record, grant: Grant) -> Option<usize> {
    if record.mode == RING {
        return grant.place;
    }
    for which in 0..size(record.effective) {
        if node_of_rank(record.effective, which) == Some(grant.node) {
            return Some(which);
        }
    }
    None
}

/// The job whose policy or limits an accepted call sets: install, rebind, clear (demand 3), keep nodes, set map (M-103). A
/// drain sets none, and "in demand 3 it isn't a granted request" (M-107).
fn job_whose_policy_is_set(call: &Call) -> Option<usize> {
    match call {
        Call::Install { job, .. } | Call::Rebind { job, .. } | Call::Clear { job } => Some(*job),
        Call::KeepNodes { job, .. } | Call::SetMap { job, .. } => Some(*job),
        Call::Request { .. } | Call::Release { .. } | Call::Fresh | Call::Drain { .. } => None,
    }
}

/// A stretch that begins with the job's record as it stands; L may be 0.
fn begin(tables: &Tables, job: usize) -> Stretch {
    let record = read(&tables.jobs, job);
    Stretch { job, length: length_of(&record), looks: Vec::new() }
}

/// All stretches of all jobs. Each is a list of demand 3: it starts in the
/// tables as they are then, and its job's policy is set only by refused calls.
/// "Demands 2 and 3 then read for matching counts" (M-100).
pub fn stretches(start: &Tables, calls: &[Call], ask: Ask) -> Vec<Stretch> {
    assert!(start.counts_match(), "demand 3 reads for matching counts");
    let mut tables = start.clone();
    let mut done = Vec::new();
    let mut open = Vec::new();
    for job in 0..tables.jobs.len() / WORDS {
        open.push(begin(&tables, job));
    }
    for call in calls {
        if let Call::Request { job, cpu } = call {
            if *job < open.len() {
                look_at_request(&mut tables, &mut open[*job], *cpu, ask);
            }
            continue;
        }
        let answer = apply(&mut tables, call);
        if let (Some(job), Answer::Done) = (job_whose_policy_is_set(call), answer) {
            let next = begin(&tables, job);
            done.push(std::mem::replace(&mut open[job], next));
        }
    }
    done.extend(open);
    done
}

/// Makes a request and enters it in its job's stretch if it is granted.
fn look_at_request(tables: &mut Tables, stretch: &mut Stretch, cpu: usize, ask: Ask) {
    let record = read(&tables.jobs, stretch.job);
    let before = tables.clone();
    if let Some(grant) = ask(tables, stretch.job, cpu) {
        if stretch.length >= 1 {
            let open = open_ones(&before, stretch.job);
            stretch.looks.push(Look { open, granted: which_granted(&record, grant) });
        }
    }
}

/// Open before each request of the window (demand 3).
fn open_before_each(window: &[Look], which: usize) -> bool {
    window.iter().all(|look| look.open[which])
}

/// How often a place or node was granted in the window (demand 3).
fn times_granted(window: &[Look], which: usize) -> usize {
    window.iter().filter(|look| look.granted == Some(which)).count()
}

/// One window of k times L granted requests: at least k, and exactly k if all are open (demand 3).
fn check_window(stretch: &Stretch, first_grant: usize, k: usize, seen: &mut Seen) -> Result<(), Unfair> {
    let window = &stretch.looks[first_grant..first_grant + k * stretch.length];
    let mut all_open = true;
    seen.windows += 1;
    for which in 0..stretch.length {
        if !open_before_each(window, which) {
            all_open = false;
            continue;
        }
        seen.at_least += 1;
        let times = times_granted(window, which);
        if times < k {
            return Err(Unfair { job: stretch.job, first_grant, k, which, times });
        }
    }
    if !all_open {
        return Ok(());
    }
    seen.exact += 1;
    for which in 0..stretch.length {
        let times = times_granted(window, which);
        if times != k {
            return Err(Unfair { job: stretch.job, first_grant, k, which, times });
        }
    }
    Ok(())
}

/// All windows of a stretch, k from 1 (demand 3).
fn check_stretch(stretch: &Stretch, seen: &mut Seen) -> Result<(), Unfair> {
    if stretch.length == 0 {
        return Ok(());
    }
    seen.grants += stretch.looks.len() as u64;
    let mut k = 1;
    while k * stretch.length <= stretch.looks.len() {
        for first_grant in 0..=stretch.looks.len() - k * stretch.length {
            check_window(stretch, first_grant, k, seen)?;
        }
        k += 1;
    }
    Ok(())
}

/// Demand 3 for a list of calls and a way to make requests.
pub fn check_with(start: &Tables, calls: &[Call], ask: Ask) -> Result<Seen, Unfair> {
    let mut seen = Seen::default();
    for stretch in stretches(start, calls, ask) {
        check_stretch(&stretch, &mut seen)?;
    }
    Ok(seen)
}

/// Demand 3 for a list of calls by this implementation's own rules.
pub fn check(start: &Tables, calls: &[Call]) -> Result<Seen, Unfair> {
    check_with(start, calls, ask)
}

/// Adds up what was counted.
pub fn add(total: &mut Seen, one: Seen) {
    total.grants += one.grants;
    total.windows += one.windows;
    total.at_least += one.at_least;
    total.exact += one.exact;
}

#[cfg(test)]
mod tests {
    use super::*;
    use crate::examples::machine_a;
    use crate::generate::{journal_parts, list};
    use crate::record::write;

    /// A wrong ring: it starts at its cursor, so one node serves until full.
    fn ask_staying(tables: &mut Tables, job: usize, cpu: usize) -> Option<Grant> {
        let kept = read(&tables.jobs, job);
        if kept.mode == RING && kept.cursor > 0 {
            let mut back = kept;
            back.cursor -= 1;
            write(&mut tables.jobs, job, &back);
        }
        let grant = ask(tables, job, cpu);
        if grant.is_none() {
            write(&mut tables.jobs, job, &kept);
        }
        grant
    }

    /// A wrong ring: a refused request moves the cursor on.
    fn ask_losing_turns(tables: &mut Tables, job: usize, cpu: usize) -> Option<Grant> {
        let grant = ask(tables, job, cpu);
        let mut record = read(&tables.jobs, job);
        if grant.is_none() && record.mode == RING && record.length > 0 {
            record.cursor = record.cursor % record.length + 1;
            write(&mut tables.jobs, job, &record);
        }
        grant
    }

    /// A wrong interleave: it stores the node that served and not the target.
    fn ask_storing_served(tables: &mut Tables, job: usize, cpu: usize) -> Option<Grant> {
        let grant = ask(tables, job, cpu)?;
        let mut record = read(&tables.jobs, job);
        if record.mode == INTERLEAVE {
            record.cursor = grant.node as u8 + 1;
            write(&mut tables.jobs, job, &record);
        }
        Some(grant)
    }

    /// Machine A with a policy for job 0.
    fn policy(mode: u64, mask: u64, places: &[u8]) -> Tables {
        let mut tables = machine_a();
        let call = Call::Install { job: 0, mode, flag: 0, mask, places: places.to_vec() };
        assert_eq!(apply(&mut tables, &call), Answer::Done);
        tables
    }

    /// Requests in a row.
    fn requests(how_many: usize) -> Vec<Call> {
        vec![Call::Request { job: 0, cpu: 0 }; how_many]
    }

    #[test]
    fn the_checker_fails_on_a_ring_that_stays() {
        let tables = policy(5, 0, &[0, 1]);
        assert!(check(&tables, &requests(4)).is_ok());
        let unfair = check_with(&tables, &requests(2), ask_staying).unwrap_err();
        assert_eq!(unfair, Unfair { job: 0, first_grant: 0, k: 1, which: 1, times: 0 });
    }

    #[test]
    fn the_checker_fails_on_a_ring_that_loses_turns() {
        let mut tables = policy(5, 0, &[0, 1]);
        tables.pages = vec![0, 9, 0, 9, 9, 9];
        tables = tables.counted();
        assert_eq!(apply(&mut tables, &Call::Rebind { job: 1, allowed: 0b0010 }), Answer::Done);
        // Job 1 takes the page of place 1, job 0 is refused, both are freed: the turn is place 1's.
        let calls = vec![
            Call::Request { job: 0, cpu: 0 },
            Call::Request { job: 1, cpu: 0 },
            Call::Request { job: 0, cpu: 0 },
            Call::Release { job: 0, page: 0 },
            Call::Release { job: 1, page: 2 },
            Call::Request { job: 0, cpu: 0 },
        ];
        assert!(check(&tables, &calls).is_ok());
        let unfair = check_with(&tables, &calls, ask_losing_turns).unwrap_err();
        assert_eq!(unfair.times, 0);
    }

    #[test]
    fn the_checker_fails_on_an_interleave_that_stores_the_node_that_served() {
        let mut tables = policy(3, 0b1111, &[]);
        tables.counts = vec![4, 0, 4, 4];
        tables.pages = vec![0; 12];
        tables = tables.counted();
        assert!(check(&tables, &requests(12)).is_ok());
        assert!(check_with(&tables, &requests(12), ask_storing_served).is_err());
    }

    #[test]
    fn the_checker_counts_places_by_position() {
        let mut tables = policy(5, 0, &[3, 3, 1]);
        tables.counts = vec![0, 9, 0, 9];
        tables.pages = vec![0; 18];
        tables = tables.counted();
        let seen = check(&tables, &requests(12)).unwrap();
        assert_eq!(seen.grants, 12);
        assert!(seen.exact > 0);
        let looks = &stretches(&tables, &requests(4), ask)[0].looks;
        let granted: Vec<Option<usize>> = looks.iter().map(|look| look.granted).collect();
        assert_eq!(granted, vec![Some(0), Some(1), Some(2), Some(0)]);
    }

    #[test]
    fn a_granted_policy_call_ends_a_stretch_and_a_refused_one_does_not() {
        let tables = policy(5, 0, &[0, 1]);
        let mut calls = requests(1);
        calls.push(Call::Rebind { job: 0, allowed: 0 });
        calls.push(Call::KeepNodes { job: 0, kept: vec![1, 0] });
        calls.push(Call::SetMap { job: 0, list: vec![4] });
        calls.push(Call::SetMap { job: 1, list: vec![3] });
        calls.extend(requests(1));
        calls.push(Call::Rebind { job: 0, allowed: 0b1111 });
        calls.extend(requests(3));
        calls.push(Call::KeepNodes { job: 0, kept: vec![0, 1, 2, 3] });
        calls.push(Call::Release { job: 0, page: 0 });
        calls.extend(requests(1));
        calls.push(Call::SetMap { job: 0, list: vec![0, 1, 2, 3] });
        let lengths: Vec<usize> = stretches(&tables, &calls, ask)
            .iter()
            .filter(|stretch| stretch.job == 0)
            .map(|stretch| stretch.looks.len())
            .collect();
        assert_eq!(lengths, vec![2, 2, 1, 0]);
    }

    #[test]
    fn lists_from_any_tables_are_fair() {
        let mut total = Seen::default();
        for seed in 0..600 {
            let (start, calls) = list(seed, 160);
            match check(&start, &calls) {
                Ok(seen) => add(&mut total, seen),
                Err(unfair) => panic!("seed {seed}: {unfair:?}"),
            }
        }
        println!("lists: {total:?}");
        assert!(total.grants > 10_000, "{total:?}");
        assert!(total.at_least > 10_000, "{total:?}");
        assert!(total.exact > 1_000, "{total:?}");
    }

    #[test]
    fn journals_are_fair() {
        let mut total = Seen::default();
        for seed in 0..300 {
            let (start, calls) = journal_parts(seed, 200);
            match check(&start, &calls) {
                Ok(seen) => add(&mut total, seen),
                Err(unfair) => panic!("seed {seed}: {unfair:?}"),
            }
        }
        println!("journals: {total:?}");
        assert!(total.grants > 5_000, "{total:?}");
        assert!(total.exact > 500, "{total:?}");
    }

    #[test]
    fn the_wrong_ones_are_found_by_the_same_lists() {
        for wrong in [ask_staying as Ask, ask_losing_turns, ask_storing_served] {
            let mut found = 0;
            for seed in 0..120 {
                let (start, calls) = list(seed, 160);
                if check_with(&start, &calls, wrong).is_err() {
                    found += 1;
                }
            }
            assert!(found >= 1, "no list shows the fault");
        }
    }
}
