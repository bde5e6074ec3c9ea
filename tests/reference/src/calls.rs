//! The calls on lent tables: request, release, install, rebind, clear, M-100's fresh table, M-103's two of maps, and M-107's
//! drain as a call of a list.

use crate::drain::drain_pairs;
use crate::machine::{
    all_pages, byte_of_job, free_counts, free_fits, fresh_tables_fit, lowest_free_page, node_of_page, page_for_job,
    policy_tables_fit, release_tables_fit, request_tables_fit, FREE,
};
use crate::maps::{
    application_node, identity_maps, is_good, is_good_list, kept_entries, map_of, maps_fit, nodes_in, system_mask,
    system_places, write_map, AppNode,
};
use crate::masks::{folded, lies_below, remapped};
use crate::order::{cursor_after_grant, search_order, Machine, Try};
use crate::record::{
    self, closes, has_a_list, has_a_mask, read, well_formed, write, Record, BIND, DEFAULT, EARLY, INTERLEAVE,
    MOST_PLACES, NO_FLAG, PREFERRED, RELATIVE, STATIC, WORDS,
};

/// What a call gives: its answer or one numbered refusal (Refusal numbers). A node is answered by the job's own number;
/// "A released page outside the map answers node FF", which is none here (M-103). A drain answers how many pages moved (M-107).
#[derive(Clone, Copy, Debug, PartialEq, Eq)]
pub enum Answer {
    Granted { node: AppNode, page: u32 },
    Released { node: Option<AppNode>, page: u32 },
    Drained { moves: u32 },
    Done,
    Refused(u8),
}

/// Refusal 2: "no such job" (Refusal numbers).
fn no_such_job(jobs: &[u64], job: usize) -> bool {
    job >= jobs.len() / WORDS
}

/// "The first node in the order with a free page" (Search order).
pub fn first_with_room(counts: &[u32], pages: &[u8], order: &[Try]) -> Option<Try> {
    for one in order {
        if lowest_free_page(counts, pages, one.node).is_some() {
            return Some(*one);
        }
    }
    None
}

/// "let requests pass over nodes counted 0": the first node in the order that is not (M-100).
pub fn first_counted(free: &[u32], order: &[Try]) -> Option<Try> {
    for one in order {
        if free[one.node] > 0 {
            return Some(*one);
        }
    }
    None
}

/// How a job's request finds its try and page by page counts, pages, free counts and order; else refusal 14 or 8. The tests
/// put other ways in its stead.
pub type Find = fn(&[u32], &[u8], &[u32], &[Try], usize) -> Result<(Try, usize), u8>;

/// The first node that is not counted 0 (M-100) picks the page by the job's colour (M-105): "the node picked doesn't change,
/// nor when refusal 8 is given".
pub fn find(counts: &[u32], pages: &[u8], free: &[u32], order: &[Try], job: usize) -> Result<(Try, usize), u8> {
    let counted = first_counted(free, order).ok_or(8)?;
    let page = page_for_job(counts, pages, counted.node, job).ok_or(14)?;
    Ok((counted, page))
}

/// As it was before M-105: such a node "grants its lowest free page" (Search order).
pub fn find_without_colours(
    counts: &[u32],
    pages: &[u8],
    free: &[u32],
    order: &[Try],
    _job: usize,
) -> Result<(Try, usize), u8> {
    let counted = first_counted(free, order).ok_or(8)?;
    let page = lowest_free_page(counts, pages, counted.node).ok_or(14)?;
    Ok((counted, page))
}

/// The number that a job is told for a system node; before M-103 it was the node's own.
fn told_number(map: Option<&[u8]>, node: usize) -> Option<AppNode> {
    match map {
        Some(map) => application_node(map, node),
        None => Some(AppNode(node as u8)),
    }
}

/// What a request goes by: the job's record, its search order and its map.
pub(crate) struct Asked<'a> {
    pub record: Record,
    pub order: Vec<Try>,
    pub map: Option<&'a [u8]>,
}

/// A request's refusals 1, 2, 15, 3, 4, in this order; else what it goes by (Refusal numbers, M-103). Without maps there is
/// no 15, and the allowed set alone is the limit: so it was before M-103.
pub(crate) fn record_and_order<'a>(
    machine: Machine,
    counts: &[u32],
    pages: &[u8],
    jobs: &[u64],
    maps: Option<&'a [u8]>,
    job: usize,
    cpu: usize,
) -> Result<Asked<'a>, u8> {
    if !request_tables_fit(counts, machine.cpus, machine.distances, pages, jobs) {
        return Err(1);
    }
    if maps.is_some_and(|maps| !maps_fit(jobs, maps)) {
        return Err(1);
    }
    if no_such_job(jobs, job) {
        return Err(2);
    }
    let map = maps.map(|maps| map_of(maps, job));
    if map.is_some_and(|map| !is_good(counts.len(), map)) {
        return Err(15);
    }
    if cpu >= machine.cpus.len() {
        return Err(3);
    }
    let record = read(jobs, job);
    if !well_formed(counts.len(), &record) {
        return Err(4);
    }
    let limit = match map {
        Some(map) => record.allowed & nodes_in(map),
        None => record.allowed,
    };
    Ok(Asked { record, order: search_order(machine, &record, limit, cpu), map })
}

/// Marks the page as the job's and moves the cursor (Search order, last paragraph; The machine for the page byte).
fn grant(pages: &mut [u8], jobs: &mut [u64], job: usize, asked: &Asked, granted: Try, page: usize) -> Answer {
    let mut record = asked.record;
    record.cursor = cursor_after_grant(&record, granted);
    write(jobs, job, &record);
    pages[page] = byte_of_job(job);
    let node = told_number(asked.map, granted.node).expect("the order has no node outside the map");
    Answer::Granted { node, page: page as u32 }
}

/// Request without free counts, as it was before M-100: refusals in the order 1, 2, 15, 3, 4, 8 (Refusal numbers, M-103).
pub fn request_without_counts(
    counts: &[u32],
    cpus: &[u8],
    distances: &[u8],
    pages: &mut [u8],
    jobs: &mut [u64],
    maps: &[u8],
    job: usize,
    cpu: usize,
) -> Answer {
    let machine = Machine { nodes: counts.len(), cpus, distances };
    let asked = match record_and_order(machine, counts, pages, jobs, Some(maps), job, cpu) {
        Ok(asked) => asked,
        Err(number) => return Answer::Refused(number),
    };
    match first_with_room(counts, pages, &asked.order) {
        None => Answer::Refused(8),
        Some(granted) => {
            let page = page_for_job(counts, pages, granted.node, job).expect("the node has room");
            grant(pages, jobs, job, &asked, granted, page)
        }
    }
}

/// Request with maps or, as it was before M-103, without them; its page is found in one way or another.
fn request_with(
    counts: &[u32],
    cpus: &[u8],
    distances: &[u8],
    pages: &mut [u8],
    jobs: &mut [u64],
    free: &mut [u32],
    maps: Option<&[u8]>,
    job: usize,
    cpu: usize,
    find: Find,
) -> Answer {
    if !free_fits(counts, free) {
        return Answer::Refused(1);
    }
    let machine = Machine { nodes: counts.len(), cpus, distances };
    let asked = match record_and_order(machine, counts, pages, jobs, maps, job, cpu) {
        Ok(asked) => asked,
        Err(number) => return Answer::Refused(number),
    };
    match find(counts, pages, free, &asked.order, job) {
        Err(number) => Answer::Refused(number),
        Ok((granted, page)) => {
            free[granted.node] -= 1;
            grant(pages, jobs, job, &asked, granted, page)
        }
    }
}

/// Request: refusals in the order 1, 2, 15, 3, 4, 14, 8 (Refusal numbers, M-100, M-103).
///
/// 14: "before it finds a page, meets a node counted above 0 with no free page". 8: "every node in the order counted 0".
/// 15: "An empty map, or one with a repeated or unknown node or a node after an FF".
pub fn request(
    counts: &[u32],
    cpus: &[u8],
    distances: &[u8],
    pages: &mut [u8],
    jobs: &mut [u64],
    free: &mut [u32],
    maps: &[u8],
    job: usize,
    cpu: usize,
) -> Answer {
    request_with(counts, cpus, distances, pages, jobs, free, Some(maps), job, cpu, find)
}

/// Request as it was before M-103: refusals in the order 1, 2, 3, 4, 14, 8; nodes by the machine's own numbers.
pub fn request_without_maps(
    counts: &[u32],
    cpus: &[u8],
    distances: &[u8],
    pages: &mut [u8],
    jobs: &mut [u64],
    free: &mut [u32],
    job: usize,
    cpu: usize,
) -> Answer {
    request_with(counts, cpus, distances, pages, jobs, free, None, job, cpu, find)
}

/// A release's refusals 1, 2, 15, 10, in this order; else the node of the page and the number that the job is told for it
/// (Refusal numbers, M-103; The machine for the page byte). Without maps as before M-103.
fn node_of_held_page(
    counts: &[u32],
    pages: &[u8],
    jobs: &[u64],
    maps: Option<&[u8]>,
    job: usize,
    page: usize,
) -> Result<(usize, Option<AppNode>), u8> {
    if !release_tables_fit(counts, pages, jobs) {
        return Err(1);
    }
    if maps.is_some_and(|maps| !maps_fit(jobs, maps)) {
        return Err(1);
    }
    if no_such_job(jobs, job) {
        return Err(2);
    }
    let map = maps.map(|maps| map_of(maps, job));
    if map.is_some_and(|map| !is_good(counts.len(), map)) {
        return Err(15);
    }
    match node_of_page(counts, page) {
        Some(node) if pages[page] == byte_of_job(job) => Ok((node, told_number(map, node))),
        _ => Err(10),
    }
}

/// Release without free counts, as it was before M-100: refusals in the order 1, 2, 15, 10 (Refusal numbers, M-103).
pub fn release_without_counts(
    counts: &[u32],
    pages: &mut [u8],
    jobs: &[u64],
    maps: &[u8],
    job: usize,
    page: usize,
) -> Answer {
    match node_of_held_page(counts, pages, jobs, Some(maps), job, page) {
        Err(number) => Answer::Refused(number),
        Ok((_, told)) => {
            pages[page] = FREE;
            Answer::Released { node: told, page: page as u32 }
        }
    }
}

/// Release with maps or, as it was before M-103, without them.
fn release_with(
    counts: &[u32],
    pages: &mut [u8],
    jobs: &[u64],
    free: &mut [u32],
    maps: Option<&[u8]>,
    job: usize,
    page: usize,
) -> Answer {
    if !free_fits(counts, free) {
        return Answer::Refused(1);
    }
    match node_of_held_page(counts, pages, jobs, maps, job, page) {
        Err(number) => Answer::Refused(number),
        Ok((node, told)) => {
            if u64::from(free[node]) + 1 > u64::from(counts[node]) {
                return Answer::Refused(14);
            }
            pages[page] = FREE;
            free[node] += 1;
            Answer::Released { node: told, page: page as u32 }
        }
    }
}

/// Release: refusals in the order 1, 2, 15, 10, 14 (Refusal numbers, M-100, M-103).
///
/// 14: "a release that would take a count above the node's pages"; "In a release 14 stands last".
pub fn release(
    counts: &[u32],
    pages: &mut [u8],
    jobs: &[u64],
    free: &mut [u32],
    maps: &[u8],
    job: usize,
    page: usize,
) -> Answer {
    release_with(counts, pages, jobs, free, Some(maps), job, page)
}

/// Release as it was before M-103: refusals in the order 1, 2, 10, 14; the node by the machine's own number.
pub fn release_without_maps(
    counts: &[u32],
    pages: &mut [u8],
    jobs: &[u64],
    free: &mut [u32],
    job: usize,
    page: usize,
) -> Answer {
    release_with(counts, pages, jobs, free, None, job, page)
}

/// "A fresh table and its counts are made by one call: it frees every page of the machine, can be refused only 1" (M-100).
///
/// Bytes past the last page are never changed (The machine).
pub fn fresh(counts: &[u32], pages: &mut [u8], free: &mut [u32]) -> Answer {
    if !fresh_tables_fit(counts, pages, free) {
        return Answer::Refused(1);
    }
    for page in 0..all_pages(counts) as usize {
        pages[page] = FREE;
    }
    for node in 0..counts.len() {
        free[node] = counts[node];
    }
    Answer::Done
}

/// Refusal 5: unknown mode or flag, or a flag where none may be (Refusal numbers).
fn refused_5(mode: u64, flag: u64, mask: u64) -> bool {
    if mode > u64::from(EARLY) || flag > u64::from(RELATIVE) {
        return true;
    }
    if flag == u64::from(NO_FLAG) {
        return false;
    }
    if !has_a_mask(mode as u8) {
        return true;
    }
    mode == u64::from(PREFERRED) && mask == 0
}

/// Refusal 6 at install: the mask or list does not fit (Refusal numbers, last paragraph); all in system nodes.
fn refused_6_at_install(nodes: usize, allowed: u64, mode: u8, flag: u8, mask: u64, places: &[u8]) -> bool {
    if (mode == BIND || mode == INTERLEAVE) && mask == 0 {
        return true;
    }
    if (mode == DEFAULT || has_a_list(mode)) && mask != 0 {
        return true;
    }
    if flag == NO_FLAG || flag == STATIC {
        if !lies_below(mask, nodes) {
            return true;
        }
        if mask != 0 && mask & allowed == 0 {
            return true;
        }
    }
    if has_a_list(mode) {
        places.is_empty() || places.len() > MOST_PLACES
    } else {
        !places.is_empty()
    }
}

/// "User masks and places are turned into system nodes at install"; "a relative mask doesn't, being ranks already"; "an
/// application number past the map's end is 6", which is none here (M-103). A closing 255 stands "unmapped" (M-104).
fn turned(map: &[u8], mode: u8, flag: u8, mask: u64, places: &[u8]) -> Option<(u64, Vec<u8>)> {
    let mask = if flag == RELATIVE { mask } else { system_mask(map, mask)? };
    let (mapped, unmapped) = places.split_at(places.len() - usize::from(closes(mode, places)));
    Some((mask, [system_places(map, mapped)?, unmapped.to_vec()].concat()))
}

/// "Effective: user and allowed (flags 0, 1) or folded (2)" (Masks, install).
fn effective_at_install(flag: u8, user: u64, allowed: u64) -> u64 {
    if flag == RELATIVE {
        folded(user, allowed)
    } else {
        user & allowed
    }
}

/// "stores mode, flag, user mask or places, keeps the allowed mask and clears the rest" (Masks, install).
fn installed(allowed: u64, mode: u8, flag: u8, mask: u64, places: &[u8]) -> Record {
    let mut record = record::fresh();
    record.mode = mode;
    record.flag = flag;
    record.user = mask;
    record.allowed = allowed;
    record.effective = effective_at_install(flag, mask, allowed);
    record.length = places.len() as u8;
    for place in 0..places.len() {
        record.places[place] = places[place];
    }
    record
}

/// An install's refusals 1, 2, 15, 4, 5, 7, in this order; else the allowed set, and the map (Refusal numbers, M-103). Without
/// maps as before M-103.
fn allowed_at_install<'a>(
    nodes: usize,
    jobs: &[u64],
    maps: Option<&'a [u8]>,
    job: usize,
    policy: (u64, u64, u64),
) -> Result<(u64, Option<&'a [u8]>), u8> {
    if !policy_tables_fit(nodes, jobs) || maps.is_some_and(|maps| !maps_fit(jobs, maps)) {
        return Err(1);
    }
    if no_such_job(jobs, job) {
        return Err(2);
    }
    let map = maps.map(|maps| map_of(maps, job));
    if map.is_some_and(|map| !is_good(nodes, map)) {
        return Err(15);
    }
    let old = read(jobs, job);
    if !well_formed(nodes, &old) {
        return Err(4);
    }
    let (mode, flag, mask) = policy;
    if refused_5(mode, flag, mask) {
        return Err(5);
    }
    if old.allowed == 0 {
        return Err(7);
    }
    Ok((old.allowed, map))
}

/// Install with maps or, as it was before M-103, without them.
fn install_with(
    nodes: usize,
    jobs: &mut [u64],
    maps: Option<&[u8]>,
    job: usize,
    mode: u64,
    flag: u64,
    mask: u64,
    places: &[u8],
) -> Answer {
    let (allowed, map) = match allowed_at_install(nodes, jobs, maps, job, (mode, flag, mask)) {
        Ok(found) => found,
        Err(number) => return Answer::Refused(number),
    };
    let (mode, flag) = (mode as u8, flag as u8);
    let in_system_nodes = match map {
        Some(map) => turned(map, mode, flag, mask, places),
        None => Some((mask, places.to_vec())),
    };
    match in_system_nodes {
        Some((mask, places)) if !refused_6_at_install(nodes, allowed, mode, flag, mask, &places) => {
            write(jobs, job, &installed(allowed, mode, flag, mask, &places));
            Answer::Done
        }
        _ => Answer::Refused(6),
    }
}

/// Install: refusals in the order 1, 2, 15, 4, 5, 7, 6 (Refusal numbers, Masks, M-103, M-104).
pub fn install(
    nodes: usize,
    jobs: &mut [u64],
    maps: &[u8],
    job: usize,
    mode: u64,
    flag: u64,
    mask: u64,
    places: &[u8],
) -> Answer {
    install_with(nodes, jobs, Some(maps), job, mode, flag, mask, places)
}

/// Install as it was before M-103: refusals in the order 1, 2, 4, 5, 7, 6; masks and places by the machine's own numbers.
pub fn install_without_maps(
    nodes: usize,
    jobs: &mut [u64],
    job: usize,
    mode: u64,
    flag: u64,
    mask: u64,
    places: &[u8],
) -> Answer {
    install_with(nodes, jobs, None, job, mode, flag, mask, places)
}

/// "flag 0 remaps the effective mask, static takes user and allowed, relative folds afresh" (Masks, rebind).
fn effective_at_rebind(old: &Record, allowed: u64) -> u64 {
    match old.flag {
        STATIC => old.user & allowed,
        RELATIVE => folded(old.user, allowed),
        _ => remapped(old.effective, old.allowed, allowed),
    }
}

/// Refusal 9: "a rebind gives an empty effective set, flag not static, user mask not empty" (Refusal numbers).
fn refused_9(old: &Record, effective: u64) -> bool {
    effective == 0 && old.flag != STATIC && old.user != 0
}

/// Rebind: refusals in the order 1, 2, 4, 6, 7, 9; the cursor stays (Refusal numbers, Masks).
pub fn rebind(nodes: usize, jobs: &mut [u64], job: usize, allowed: u64) -> Answer {
    if !policy_tables_fit(nodes, jobs) {
        return Answer::Refused(1);
    }
    if no_such_job(jobs, job) {
        return Answer::Refused(2);
    }
    let old = read(jobs, job);
    if !well_formed(nodes, &old) {
        return Answer::Refused(4);
    }
    if !lies_below(allowed, nodes) {
        return Answer::Refused(6);
    }
    if allowed == 0 {
        return Answer::Refused(7);
    }
    let effective = effective_at_rebind(&old, allowed);
    if refused_9(&old, effective) {
        return Answer::Refused(9);
    }
    let mut new = old;
    new.allowed = allowed;
    new.effective = effective;
    write(jobs, job, &new);
    Answer::Done
}

/// Clear: refusals in the order 1, 2; "makes the record fresh; held pages stay held" (Masks, Refusal numbers).
pub fn clear(nodes: usize, jobs: &mut [u64], job: usize) -> Answer {
    if !policy_tables_fit(nodes, jobs) {
        return Answer::Refused(1);
    }
    if no_such_job(jobs, job) {
        return Answer::Refused(2);
    }
    write(jobs, job, &record::fresh());
    Answer::Done
}

/// A map call's refusals 1 and 2 (M-103): "Both test 1, 2, 15". Neither looks at the job's record.
fn refused_1_or_2(nodes: usize, jobs: &[u64], maps: &[u8], job: usize) -> Option<u8> {
    if !policy_tables_fit(nodes, jobs) || !maps_fit(jobs, maps) {
        return Some(1);
    }
    if no_such_job(jobs, job) {
        return Some(2);
    }
    None
}

/// The tenant's call: "it lists the application nodes it keeps of a good map, one or more, rising, else 15" (M-103).
pub fn keep_nodes(nodes: usize, jobs: &[u64], maps: &mut [u8], job: usize, kept: &[u8]) -> Answer {
    if let Some(number) = refused_1_or_2(nodes, jobs, maps, job) {
        return Answer::Refused(number);
    }
    let map = map_of(maps, job);
    if !is_good(nodes, map) {
        return Answer::Refused(15);
    }
    match kept_entries(map, kept) {
        None => Answer::Refused(15),
        Some(list) => {
            write_map(maps, job, &list);
            Answer::Done
        }
    }
}

/// The administrator's call: it "sets any good list of system nodes, else 15" (M-103), whatever the map was.
pub fn set_map(nodes: usize, jobs: &[u64], maps: &mut [u8], job: usize, list: &[u8]) -> Answer {
    if let Some(number) = refused_1_or_2(nodes, jobs, maps, job) {
        return Answer::Refused(number);
    }
    if !is_good_list(nodes, list) {
        return Answer::Refused(15);
    }
    write_map(maps, job, list);
    Answer::Done
}

/// All lent tables together (The machine, A job's record, M-100, M-103).
#[derive(Clone, Debug, PartialEq, Eq)]
pub struct Tables {
    pub counts: Vec<u32>,
    pub cpus: Vec<u8>,
    pub distances: Vec<u8>,
    pub pages: Vec<u8>,
    pub jobs: Vec<u64>,
    pub free: Vec<u32>,
    pub maps: Vec<u8>,
}

impl Tables {
    /// The free counts "match the page table" (M-100).
    pub fn counts_match(&self) -> bool {
        self.free == free_counts(&self.counts, &self.pages)
    }

    /// The same tables with free counts that match (M-100).
    pub fn counted(self) -> Tables {
        Tables { free: free_counts(&self.counts, &self.pages), ..self }
    }

    /// The same tables with "map 0 to N-1" for each job (M-103).
    pub fn numbered_as_the_machine(self) -> Tables {
        Tables { maps: identity_maps(self.counts.len(), self.jobs.len() / WORDS), ..self }
    }
}

/// "The calls are request, release, install, rebind and clear; a later call that changes pages, records or limits joins
/// them" (The lists of demand 3): M-100's fresh table, M-103's two of maps, M-107's drain, which hands out no pairs, but says the
/// room for them, in numbers.
#[derive(Clone, Debug, PartialEq, Eq)]
pub enum Call {
    Request { job: usize, cpu: usize },
    Release { job: usize, page: usize },
    Install { job: usize, mode: u64, flag: u64, mask: u64, places: Vec<u8> },
    Rebind { job: usize, allowed: u64 },
    Clear { job: usize },
    Fresh,
    KeepNodes { job: usize, kept: Vec<u8> },
    SetMap { job: usize, list: Vec<u8> },
    Drain { node: usize, room: usize },
}

impl Call {
    /// Is it one of M-103's, which no journal has and no host had before?
    pub fn is_of_maps(&self) -> bool {
        matches!(self, Call::KeepNodes { .. } | Call::SetMap { .. })
    }

    /// Has a journal a record for it?
    pub fn is_of_journals(&self) -> bool {
        !self.is_of_maps() && !matches!(self, Call::Fresh | Call::Drain { .. })
    }
}

/// A drain as a call of a list.
fn drain_call(tables: &mut Tables, node: usize, room: usize) -> Answer {
    match drain_pairs(tables, node, room) {
        Ok(pairs) => Answer::Drained { moves: (pairs.len() / 2) as u32 },
        Err(number) => Answer::Refused(number),
    }
}

/// Makes one call on the tables, N given apart for the calls that are lent it alone (Refusal numbers).
pub fn apply_with(nodes: usize, tables: &mut Tables, call: &Call) -> Answer {
    let Tables { counts, cpus, distances, pages, jobs, free, maps } = tables;
    match call {
        Call::Request { job, cpu } => request(counts, cpus, distances, pages, jobs, free, maps, *job, *cpu),
        Call::Release { job, page } => release(counts, pages, jobs, free, maps, *job, *page),
        Call::Install { job, mode, flag, mask, places } => {
            install(nodes, jobs, maps, *job, *mode, *flag, *mask, places)
        }
        Call::Rebind { job, allowed } => rebind(nodes, jobs, *job, *allowed),
        Call::Clear { job } => clear(nodes, jobs, *job),
        Call::Fresh => fresh(counts, pages, free),
        Call::KeepNodes { job, kept } => keep_nodes(nodes, jobs, maps, *job, kept),
        Call::SetMap { job, list } => set_map(nodes, jobs, maps, *job, list),
        Call::Drain { node, room } => drain_call(tables, *node, *room),
    }
}

/// Makes one call as it was "before" M-100: the free counts are neither read nor written. A fresh table frees its pages, and
/// a drain goes by the pages alone.
pub fn apply_without_counts(nodes: usize, tables: &mut Tables, call: &Call) -> Answer {
    if let Call::Drain { node, room } = call {
        let mut counted = tables.clone().counted();
        let answer = drain_call(&mut counted, *node, *room);
        tables.pages = counted.pages;
        return answer;
    }
    let Tables { counts, cpus, distances, pages, jobs, maps, .. } = tables;
    match call {
        Call::Request { job, cpu } => request_without_counts(counts, cpus, distances, pages, jobs, maps, *job, *cpu),
        Call::Release { job, page } => release_without_counts(counts, pages, jobs, maps, *job, *page),
        Call::Fresh => fresh(counts, pages, &mut counts.clone()),
        _ => apply_with(nodes, tables, call),
    }
}

/// Makes one call as it was before M-103: the maps are neither read nor written. The calls of maps were not there. A drain
/// goes by the map 0 to N-1, which is no limit.
pub fn apply_without_maps(nodes: usize, tables: &mut Tables, call: &Call) -> Answer {
    if let Call::Drain { node, room } = call {
        let mut without = tables.clone().numbered_as_the_machine();
        let answer = drain_call(&mut without, *node, *room);
        (tables.pages, tables.free) = (without.pages, without.free);
        return answer;
    }
    let Tables { counts, cpus, distances, pages, jobs, free, .. } = tables;
    match call {
        Call::Request { job, cpu } => request_without_maps(counts, cpus, distances, pages, jobs, free, *job, *cpu),
        Call::Release { job, page } => release_without_maps(counts, pages, jobs, free, *job, *page),
        Call::Install { job, mode, flag, mask, places } => {
            install_without_maps(nodes, jobs, *job, *mode, *flag, *mask, places)
        }
        _ => {
            assert!(!call.is_of_maps(), "before M-103 there was no such call: {call:?}");
            apply_with(nodes, tables, call)
        }
    }
}

/// Makes one call, a request finding its page in another way; no other call finds one.
pub fn apply_finding(nodes: usize, tables: &mut Tables, call: &Call, find: Find) -> Answer {
    let Tables { counts, cpus, distances, pages, jobs, free, maps } = tables;
    match call {
        Call::Request { job, cpu } => {
            request_with(counts, cpus, distances, pages, jobs, free, Some(maps), *job, *cpu, find)
        }
        _ => apply_with(nodes, tables, call),
    }
}

/// Makes one call as it was before M-105: the lowest free page of the node is granted, whatever the job.
pub fn apply_without_colours(nodes: usize, tables: &mut Tables, call: &Call) -> Answer {
    apply_finding(nodes, tables, call, find_without_colours)
}

/// Makes one call on one unchanged machine (The lists of demand 3).
pub fn apply(tables: &mut Tables, call: &Call) -> Answer {
    apply_with(tables.counts.len(), tables, call)
}

/// Makes calls one by one, from a start, and hands on each with the tables before it and its answer.
pub fn apply_each(start: &Tables, calls: &[Call], mut enter: impl FnMut(&Tables, &Call, Answer)) {
    let mut tables = start.clone();
    for call in calls {
        let before = tables.clone();
        enter(&before, call, apply(&mut tables, call));
    }
}
