//! Rents out machine A of document 01 to three tenants, the last with a map of its own and a program that names its memory,
//! and tells what happens; for the support desk also why each node would serve a tenant or not. At last a board is pulled.

use spirerivet::{flag, mode, which, Answer, AppNode, Reason, SysNode, JOB_WORDS, MOST_PLACES};

/// The machine: page counts, the node of each CPU, and the distances.
const COUNTS: [u32; 4] = [2, 2, 0, 2];
const CPUS: [u8; 8] = [0, 0, 1, 1, 2, 2, 3, 3];
const DISTANCES: [u8; 16] = [10, 20, 20, 30, 20, 10, 30, 20, 20, 30, 10, 20, 30, 20, 20, 10];
/// What its nodes are called by programs.
const NAMES: &[u8] = b"DRAM0\0SRAM\0FLASH\0DRAM1\0";

/// Each node's pages, a mark for each: the digit of its tenant, or a dot.
fn nodes(pages: &[u8]) -> [String; 4] {
    let mut marks = pages.iter().map(|held| match held {
        0 => '.',
        tenant => char::from(b'0' + tenant - 1),
    });
    COUNTS.map(|count| marks.by_ref().take(count as usize).collect())
}

/// The tenants' tables, the free pages of each node, and the story so far.
struct House {
    pages: [u8; 6],
    jobs: [u64; 3 * JOB_WORDS],
    free: [u32; 4],
    maps: Vec<u8>,
    story: String,
}

impl House {
    /// Adds a line for a call: what was asked, and its answer.
    fn tell(&mut self, asked: &str, answer: Answer) {
        let words = match answer {
            Answer::Granted { node, page } => format!("node {node}, page {page}"),
            Answer::Released { node: Some(node), page } => format!("node {node}, page {page} is free"),
            Answer::Released { node: None, page } => format!("page {page}, outside its map, is free"),
            Answer::Done | Answer::Drained { .. } => String::from("done"),
            Answer::Refused(refusal) => refusal.to_string(),
        };
        self.line(asked, &words);
    }

    /// Adds a line: what was asked, the nodes afterwards, what was said.
    fn line(&mut self, asked: &str, words: &str) {
        let nodes = nodes(&self.pages).join("|");
        self.story.push_str(&format!("{asked:<40} |{nodes}|  {words}\n"));
    }

    /// Frees all pages and counts them.
    fn open(&mut self) {
        let answer = spirerivet::fresh(&COUNTS, &mut self.pages, &mut self.free);
        self.tell("the house opens", answer);
    }

    /// All nodes as they are tried from one of them, and the rounds that it took to list them.
    fn look(&mut self, node: usize) {
        let mut out = [0; COUNTS.len()];
        let words = match spirerivet::near(COUNTS.len(), &DISTANCES, 0b1111, node, &mut out) {
            Ok(order) => format!("{:?} in {} rounds", &out[..order.nodes], order.rounds),
            Err(refusal) => refusal.to_string(),
        };
        self.line(&format!("the nodes as seen from node {node}"), &words);
    }

    /// Lets a tenant use the nodes of a list.
    fn rent(&mut self, job: usize, list: &str) {
        let allowed = spirerivet::read_nodes(COUNTS.len(), 0, list.as_bytes()).expect("a good node list");
        let answer = spirerivet::rebind(COUNTS.len(), &mut self.jobs, job, allowed);
        self.tell(&format!("tenant {job} rents nodes {list}"), answer);
    }

    /// Gives a tenant nodes of the machine that it numbers from 0.
    fn number(&mut self, job: usize, nodes: &[SysNode]) {
        let answer = spirerivet::set_map(COUNTS.len(), &self.jobs, &mut self.maps, job, nodes);
        let list: Vec<String> = nodes.iter().map(SysNode::to_string).collect();
        let numbers: Vec<String> = (0..nodes.len()).map(|number| number.to_string()).collect();
        self.tell(&format!("tenant {job} gets {} as its {}", list.join(", "), numbers.join(", ")), answer);
    }

    /// A tenant keeps one of its nodes and drops the others.
    fn keep(&mut self, job: usize, node: AppNode) {
        let answer = spirerivet::keep_nodes(COUNTS.len(), &self.jobs, &mut self.maps, job, &[node]);
        self.tell(&format!("tenant {job} keeps its node {node} alone"), answer);
    }

    /// Sets a tenant's policy, by its own numbers.
    fn policy(&mut self, job: usize, words: &str, mode: u64, flag: u64, mask: u64, places: &[AppNode]) {
        let answer = spirerivet::install(COUNTS.len(), &mut self.jobs, &self.maps, job, mode, flag, mask, places);
        self.tell(&format!("tenant {job} wants {words}"), answer);
    }

    /// A program comes with a note: its names, text before data.
    fn load(&mut self, note: &[u8]) {
        let names = (0..).map(|k| spirerivet::name(note, k)).take_while(|name| !name.is_empty());
        let words: Vec<String> = names.map(|name| String::from_utf8_lossy(name).into_owned()).collect();
        self.line("a program names its memory", &words.join(" "));
    }

    /// A tenant's policy becomes a list of the note, or the default where the note has none for it.
    fn go_by(&mut self, job: usize, note: &[u8], list: u64) {
        let (mut places, asked) = ([AppNode(0); MOST_PLACES], if list == which::TEXT { "text" } else { "data" });
        match spirerivet::note_places(COUNTS.len(), &self.jobs, &self.maps, NAMES, note, job, list, &mut places) {
            Ok(0) => self.policy(job, &format!("{asked}: the default"), mode::DEFAULT, flag::NONE, 0, &[]),
            Ok(length) => {
                let list: Vec<String> = places[..length].iter().map(AppNode::to_string).collect();
                let words = format!("{asked}: {}", list.join(", "));
                self.policy(job, &words, mode::LIST, flag::NONE, 0, &places[..length]);
            }
            Err(refusal) => self.line(&format!("tenant {job} wants {asked}"), &refusal.to_string()),
        }
    }

    /// A tenant's program needs a page on a CPU.
    fn need(&mut self, job: usize, cpu: usize) {
        let House { pages, jobs, free, maps, .. } = self;
        let answer = spirerivet::request(&COUNTS, &CPUS, &DISTANCES, pages, jobs, free, maps, job, cpu);
        self.tell(&format!("tenant {job} needs a page on CPU {cpu}"), answer);
    }

    /// Why a tenant's next page on a CPU would come from where it would, for the support desk: the machine's numbers.
    fn explain(&mut self, job: usize, cpu: usize) {
        let (mut out, House { pages, jobs, free, maps, .. }) = ([0; COUNTS.len()], &self);
        let words = match spirerivet::reasons(&COUNTS, &CPUS, &DISTANCES, pages, jobs, free, maps, job, cpu, &mut out) {
            Ok(length) => {
                let reason = |byte: &u8| Reason::of_number(*byte).map_or("?", Reason::words);
                let told = out[..length].iter().enumerate().map(|(node, byte)| format!("{node} {}", reason(byte)));
                told.collect::<Vec<String>>().join(", ")
            }
            Err(refusal) => refusal.to_string(),
        };
        self.line(&format!("why, for tenant {job} on CPU {cpu}"), &words);
    }

    /// Every page of a node moves to another, before the board is pulled: the machine's number.
    fn empty(&mut self, node: usize) {
        let (mut moves, House { pages, jobs, free, maps, .. }) = ([[0; 2]; 6], &mut *self);
        let out = moves.as_flattened_mut();
        let words = match spirerivet::drain(&COUNTS, &DISTANCES, pages, jobs, free, maps, node, out) {
            Ok(0) => String::from("nothing to move"),
            Ok(moved) => {
                let told: Vec<String> = moves[..moved].iter().map(|[old, new]| format!("{old} to {new}")).collect();
                format!("pages {}", told.join(", "))
            }
            Err(refusal) => refusal.to_string(),
        };
        self.line(&format!("node {node} is emptied"), &words);
    }

    /// A tenant gives a page back.
    fn give_back(&mut self, job: usize, page: usize) {
        let House { pages, jobs, free, maps, .. } = self;
        let answer = spirerivet::release(&COUNTS, pages, jobs, free, maps, job, page);
        self.tell(&format!("tenant {job} gives page {page} back"), answer);
    }

    /// A tenant leaves; what it held stays held until it is given back.
    fn leave(&mut self, job: usize) {
        let answer = spirerivet::clear(COUNTS.len(), &mut self.jobs, job);
        self.tell(&format!("tenant {job} leaves"), answer);
    }
}

/// A program with a note: its text goes by names, its data, of a node outside the map, by default.
fn named_memory(house: &mut House) {
    house.rent(2, "0-3");
    house.number(2, &[SysNode(3), SysNode(1), SysNode(0)]);
    let mut note = [0; 64];
    let length = spirerivet::write_note(b"SRAM\0DRAM1\0ANY\0", b"FLASH\0", &mut note).expect("good lists");
    let note = &note[..length];
    house.load(note);
    house.go_by(2, note, which::TEXT);
    house.need(2, 0);
    house.explain(2, 0);
    house.need(2, 0);
    house.go_by(2, note, which::DATA);
    house.go_by(2, &note[..length - 1], which::TEXT);
}

/// Node 1 has to go: no tenant gets a new page there, its pages move, and then it is empty.
fn pulled_board(house: &mut House) {
    house.rent(0, "!1");
    house.rent(2, "!1");
    house.empty(1);
    house.give_back(1, 1);
    house.give_back(2, 4);
    house.empty(1);
    house.empty(1);
}

/// Three tenants that number the nodes as the machine does, and no page yet.
fn built() -> House {
    let maps = spirerivet::identity_maps(COUNTS.len(), 3);
    House { pages: [0; 6], jobs: [0; 3 * JOB_WORDS], free: [0; 4], maps, story: String::new() }
}

/// The whole story.
pub fn story() -> String {
    let mut house = built();
    house.open();
    house.look(2);
    house.look(4);
    house.rent(0, "0-3");
    house.policy(0, "turns over 3, 3, 1", mode::RING, flag::NONE, 0, &[AppNode(3), AppNode(3), AppNode(1)]);
    house.need(0, 0);
    house.need(0, 0);
    house.need(0, 0);
    house.explain(0, 0);
    house.need(1, 4);
    house.explain(1, 4);
    house.rent(1, "!3");
    house.explain(1, 4);
    house.need(1, 4);
    house.give_back(0, 4);
    house.give_back(1, 5);
    house.rent(2, "1-3");
    house.number(2, &[SysNode(3), SysNode(1)]);
    house.policy(2, "to spread over its 0, 1", mode::INTERLEAVE, flag::STATIC, 0b11, &[]);
    house.need(2, 0);
    house.need(2, 0);
    house.need(2, 0);
    house.keep(2, AppNode(0));
    house.keep(2, AppNode(1));
    house.give_back(2, 3);
    house.need(2, 0);
    house.explain(2, 0);
    house.give_back(2, 4);
    house.need(2, 0);
    house.leave(2);
    named_memory(&mut house);
    pulled_board(&mut house);
    for (node, marks) in nodes(&house.pages).iter().enumerate() {
        let (free, all) = (house.free[node], COUNTS[node]);
        house.story.push_str(&format!("node {node:2}  {free} of {all} free  |{marks}|\n"));
    }
    house.story
}

#[allow(dead_code)] // The test takes `story` alone.
fn main() {
    print!("{}", story());
}
