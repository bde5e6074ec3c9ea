//! The journals that both programs are timed on, made from fixed seeds.

use reference::calls::{Call, Tables};
use reference::generate::Dice;
use reference::journal::{call_bytes, machine_bytes};
use reference::maps::identity_maps;
use reference::masks::all_below;

use crate::ways::fast_call;

/// A journal, and what it holds.
pub struct Journal {
    pub name: &'static str,
    pub bytes: Vec<u8>,
    pub records: usize,
    pub refused: usize,
}

/// Writes a journal and keeps the tables up, so that calls can be chosen by them.
struct Maker {
    name: &'static str,
    dice: Dice,
    tables: Tables,
    bytes: Vec<u8>,
    /// The pages held, in no order.
    held: Vec<usize>,
    records: usize,
    refused: usize,
}

const JOBS: usize = 64;
const PAGES: u32 = 1_024;

/// N nodes of 1,024 pages, four CPUs to a node or more, distances by how far apart the numbers are.
fn machine(nodes: usize) -> Tables {
    let apart = |place: usize| (place / nodes).abs_diff(place % nodes);
    Tables {
        counts: vec![PAGES; nodes],
        cpus: (0..64).map(|cpu| (cpu * nodes / 64) as u8).collect(),
        distances: (0..nodes * nodes).map(|place| 10 + 3 * apart(place).min(nodes - apart(place)) as u8).collect(),
        pages: vec![0; nodes * PAGES as usize],
        jobs: vec![0; JOBS * 6],
        free: vec![PAGES; nodes],
        maps: identity_maps(nodes, JOBS),
    }
}

impl Maker {
    /// A machine of N nodes, all of them allowed to some jobs.
    fn new(name: &'static str, nodes: usize, jobs: usize) -> Maker {
        let (tables, held) = (machine(nodes), Vec::new());
        let seed = name.bytes().fold(0, |seed: u64, byte| seed.wrapping_mul(31) + u64::from(byte));
        let bytes = machine_bytes(&tables);
        let mut maker = Maker { name, dice: Dice::new(seed), tables, bytes, held, records: 0, refused: 0 };
        for job in 0..jobs {
            maker.call(Call::Rebind { job, allowed: all_below(nodes) });
        }
        maker
    }

    fn nodes(&self) -> usize {
        self.tables.counts.len()
    }

    /// Adds a call. It is not refused? Then the page held or given back is noted.
    fn call(&mut self, call: Call) -> bool {
        let word = fast_call(self.nodes(), &mut self.tables, &call);
        self.bytes.extend(call_bytes(&call));
        self.records += 1;
        if word as u8 != 0 {
            self.refused += 1;
        } else if matches!(call, Call::Request { .. }) {
            self.held.push((word >> 32) as usize);
        }
        word as u8 == 0
    }

    /// A request from a CPU of the job's own.
    fn request(&mut self, job: usize) -> bool {
        self.call(Call::Request { job, cpu: job })
    }

    /// Requests of some jobs in no order.
    fn requests(&mut self, jobs: usize, how_many: usize) {
        for _ in 0..how_many {
            let job = self.dice.below(jobs) * JOBS / jobs;
            self.request(job);
        }
    }

    /// A release of any page held.
    fn release(&mut self) {
        if !self.held.is_empty() {
            let page = self.held.swap_remove(self.dice.below(self.held.len()));
            let job = usize::from(self.tables.pages[page]) - 1;
            self.call(Call::Release { job, page });
        }
    }

    /// A policy with places: the nodes in no order, over again if there are more places.
    fn install_places(&mut self, job: usize, mode: u64, length: usize) {
        let mut nodes: Vec<u8> = (0..self.nodes() as u8).collect();
        for place in 1..nodes.len() {
            nodes.swap(place, self.dice.below(place + 1));
        }
        let places = nodes.into_iter().cycle().take(length).collect();
        self.call(Call::Install { job, mode, flag: 0, mask: 0, places });
    }

    /// A policy with a mask that the job's allowed nodes are not all outside of.
    fn install_mask(&mut self, job: usize, mode: u64, flag: u64) {
        let allowed = self.tables.jobs[6 * job + 2];
        let mask = match flag {
            2 => self.dice.next() & self.dice.next(),
            _ => self.dice.part_of(allowed),
        };
        self.call(Call::Install { job, mode, flag, mask, places: Vec::new() });
    }

    /// A policy of any mode and flag.
    fn install_any(&mut self, job: usize) {
        match self.dice.below(7) as u64 {
            0 => {
                self.call(Call::Install { job, mode: 0, flag: 0, mask: 0, places: Vec::new() });
            }
            mode @ 1..=3 => {
                let flag = self.dice.below(3) as u64;
                self.install_mask(job, mode, flag);
            }
            mode => {
                let length = self.dice.between(1, 16);
                self.install_places(job, mode, length);
            }
        }
    }

    /// New allowed nodes.
    fn rebind(&mut self, job: usize) {
        let allowed = self.dice.part_of(all_below(self.nodes()));
        self.call(Call::Rebind { job, allowed });
    }

    fn done(self) -> Journal {
        let Maker { name, bytes, records, refused, .. } = self;
        Journal { name, bytes, records, refused }
    }
}

/// Jobs fill the machine, all in one mode.
fn fill(name: &'static str, mode: u64) -> Journal {
    let mut maker = Maker::new(name, 16, JOBS);
    for job in 0..JOBS {
        match mode {
            0 => {}
            2 => {
                // The job's own node and the three after it.
                let mask = u64::from(0xFu16.rotate_left(job as u32 / 4));
                maker.call(Call::Install { job, mode, flag: 0, mask, places: Vec::new() });
            }
            3 => {
                maker.call(Call::Install { job, mode, flag: 0, mask: 0xFFFF, places: Vec::new() });
            }
            6 => maker.install_places(job, mode, 8),
            _ => maker.install_places(job, mode, 16),
        }
    }
    let pages = maker.tables.pages.len();
    maker.requests(if mode < 4 { JOBS } else { 8 }, pages);
    maker.done()
}

/// Requests and releases of 64 jobs in turns, half of the pages held.
fn steady() -> Journal {
    let mut maker = Maker::new("steady", 16, JOBS);
    maker.requests(JOBS, 8_192);
    for _ in 0..8_192 {
        maker.release();
        maker.requests(JOBS, 1);
    }
    maker.done()
}

/// No page is free but the one that one record in eight gives back.
fn full8() -> Journal {
    let mut maker = Maker::new("full8", 16, JOBS);
    maker.requests(JOBS, 16_384);
    for turn in 0..16_000 {
        match turn % 8 {
            0 => maker.release(),
            _ => maker.requests(JOBS, 1),
        }
    }
    maker.done()
}

/// All kinds of call, all modes and flags; a third to two thirds of the pages held.
fn mixed(name: &'static str, nodes: usize) -> Journal {
    let mut maker = Maker::new(name, nodes, JOBS);
    for job in 0..JOBS {
        maker.install_any(job);
    }
    let pages = maker.tables.pages.len();
    maker.requests(JOBS, pages / 2);
    while maker.records < 24_000 {
        let job = maker.dice.below(JOBS);
        match maker.dice.below(100) {
            0..7 => maker.rebind(job),
            7..15 => maker.install_any(job),
            15 => {
                maker.call(Call::Clear { job });
                maker.rebind(job);
                maker.install_any(job);
            }
            16..56 => maker.release(),
            _ => {
                maker.request(job);
            }
        }
    }
    maker.done()
}

/// Installs and rebinds of policies with a mask and one flag, and requests.
fn policy(name: &'static str, flag: u64) -> Journal {
    let mut maker = Maker::new(name, 16, JOBS);
    for job in 0..JOBS {
        maker.install_mask(job, 1 + job as u64 % 3, flag);
    }
    while maker.records < 24_000 {
        let job = maker.dice.below(JOBS);
        match maker.dice.below(100) {
            0..60 => maker.rebind(job),
            60..70 => maker.install_mask(job, 1 + job as u64 % 3, flag),
            70..80 => maker.release(),
            _ => {
                maker.request(job);
            }
        }
    }
    maker.done()
}

/// All twelve.
pub fn journals() -> Vec<Journal> {
    vec![
        fill("fill_default", 0),
        fill("fill_bind", 2),
        fill("fill_interleave", 3),
        fill("fill_list", 4),
        fill("fill_ring", 5),
        fill("fill_early", 6),
        steady(),
        full8(),
        mixed("mixed4", 4),
        mixed("mixed16", 16),
        policy("policy_relative", 2),
        policy("policy_remap", 0),
    ]
}

/// A machine record alone.
pub fn empty() -> Vec<u8> {
    machine_bytes(&machine(16))
}
