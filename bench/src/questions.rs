//! The questions for the reasons that are timed.

use reference::calls::{Call, Tables};
use reference::generate::Dice;
use reference::masks::all_below;

use crate::works::{fast_made, machine};

/// Questions of one kind on machines of N nodes: job and CPU of each.
pub struct Questions {
    pub kind: &'static str,
    pub nodes: usize,
    pub tables: Tables,
    pub asked: Vec<(usize, usize)>,
}

/// The policy of a job: its mode, and a mask of allowed nodes, or eight places, the last of which may be 255.
fn policy(dice: &mut Dice, nodes: usize, job: usize, allowed: u64, kind: &str) -> Call {
    let some = dice.part_of(allowed);
    let mut places: Vec<u8> = (0..8).map(|_| dice.below(nodes) as u8).collect();
    let (mode, mask) = match kind {
        "default" => (0, 0),
        "preferred" => (1, some),
        "bind" => (2, some),
        "interleave" => (3, some),
        "ring" => (5, 0),
        _ => (4, 0),
    };
    if kind == "closing list" {
        places[7] = 255;
    }
    let places = if mode < 4 { Vec::new() } else { places };
    Call::Install { job, mode, flag: 0, mask, places }
}

/// One node of three is full, in the others the first free page is among the first 32; one distance of seven is 255; 64 jobs
/// of the kind, allowed some of the nodes.
fn tables(dice: &mut Dice, nodes: usize, kind: &str) -> Tables {
    let mut tables = machine(nodes);
    let count = tables.counts[0] as usize;
    for (node, pages) in tables.pages.chunks_mut(count).enumerate() {
        let held = if node % 3 == 2 { count } else { dice.below(32) };
        pages[..held].fill(77);
    }
    for (cell, far) in tables.distances.iter_mut().enumerate() {
        let (from, to) = (cell / nodes, cell % nodes);
        if from != to && (from + 2 * to) % 7 == 3 {
            *far = 255;
        }
    }
    for job in 0..64 {
        let allowed = dice.part_of(all_below(nodes)) | dice.part_of(all_below(nodes));
        let calls = [Call::Rebind { job, allowed }, policy(dice, nodes, job, allowed, kind)];
        calls.iter().for_each(|call| fast_made(&mut tables, call));
    }
    tables.counted()
}

/// The kinds of policies.
pub const KINDS: [&str; 7] = ["default", "preferred", "bind", "interleave", "list", "ring", "closing list"];

/// Every kind for N nodes, each with so many questions of any job from any CPU.
pub fn questions(nodes: usize, how_many: usize) -> Vec<Questions> {
    let mut dice = Dice::new(106 + nodes as u64);
    let mut of_kind = |kind| {
        let tables = tables(&mut dice, nodes, kind);
        let asked = (0..how_many).map(|_| (dice.below(64), dice.below(256))).collect();
        Questions { kind, nodes, tables, asked }
    };
    KINDS.map(&mut of_kind).into()
}
