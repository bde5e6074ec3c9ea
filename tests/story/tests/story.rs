//! Scripts, journals and told answers.

use std::io::Write;
use std::process::{Command, Stdio};

use reference::calls::{apply, Answer, Call, Tables};
use reference::drain::drain_pairs;
use reference::journal::{read_journal, run};
use reference::notes::{name, note_places, write_note};
use reference::reasons::write_reasons;
use story::answers::{refused_words, told, told_lines, Reply, Told};
use story::script::{journal, read_script, Script, Step};

const MACHINE_A: &str = "machine A
pages 2 2 0 2
cpus 0 0 1 1 2 2 3 3
distance 10 20 20 30
distance 20 10 30 20
distance 20 30 10 20
distance 30 20 20 10
";

/// Machine A and some lines.
fn on_a(lines: &str) -> String {
    format!("{MACHINE_A}{lines}")
}

/// The calls of a script, by its journal.
fn calls(lines: &str) -> Vec<Call> {
    let script = read_script(&on_a(lines)).unwrap();
    let (machine, calls) = read_journal(&journal(&script).unwrap()).unwrap();
    assert_eq!(machine, script.machine);
    assert_eq!(calls, calls_of(&script));
    calls
}

/// The calls of a script that has no other lines.
fn calls_of(script: &Script) -> Vec<Call> {
    script.lines.iter().map(|line| line.call().expect("a call").clone()).collect()
}

/// The script told with the answers that the rules give.
fn story(script: &str) -> String {
    let script = read_script(script).unwrap();
    told(&script, &run(&journal(&script).unwrap())).unwrap()
}

/// A call by the rules.
fn reply(tables: &mut Tables, call: &Call) -> Reply {
    let (refusal, node, page) = match apply(tables, call) {
        Answer::Granted { node, page } => (0, node.0, page),
        Answer::Released { node, page } => (0, node.map_or(0xFF, |node| node.0), page),
        Answer::Drained { moves } => (0, 0xFF, moves),
        Answer::Done => (0, 0xFF, u32::MAX),
        Answer::Refused(number) => (number, 0xFF, u32::MAX),
    };
    Reply { refusal, node, page }
}

/// A script's tables, the names of the nodes and the note, kept by the rules.
struct Book {
    tables: Tables,
    names: Vec<u8>,
    note: Vec<u8>,
}

impl Book {
    /// The places of a list.
    fn places(&self, names: &[u8], note: &[u8], job: usize, which: u64) -> Result<Vec<u8>, u8> {
        let (mut out, Tables { counts, jobs, maps, .. }) = ([0; 16], &self.tables);
        let length = note_places(counts.len(), jobs, maps, names, note, job, which, &mut out)?;
        Ok(out[..length].to_vec())
    }

    /// The names of the note, told.
    fn told_note(&self) -> String {
        let parts = (0..).map(|k| name(&self.note, k)).take_while(|part| part.len != 0);
        let names: Vec<&[u8]> = parts.map(|part| &self.note[part.start..part.start + part.len]).collect();
        let told = if names.is_empty() { b"no names".to_vec() } else { names.join(&b' ') };
        format!("{} bytes: {}", self.note.len(), String::from_utf8(told).unwrap())
    }

    /// What a line tells.
    fn told(&mut self, step: &Step) -> Result<Told, u8> {
        match step {
            Step::Call(call) => Ok(Told::Reply(reply(&mut self.tables, call))),
            Step::Why { job, cpu } => {
                let mut out = [0; 64];
                let nodes = write_reasons(&self.tables, *job, *cpu, &mut out)?;
                Ok(Told::Reasons(out[..nodes].to_vec()))
            }
            Step::Drain { node } => {
                let pairs = drain_pairs(&mut self.tables, *node, usize::MAX)?;
                Ok(Told::Moves(pairs.chunks(2).map(|pair| [pair[0], pair[1]]).collect()))
            }
            _ => self.words(step).map(Told::Words),
        }
    }

    /// What a line of names or notes does.
    fn words(&mut self, step: &Step) -> Result<String, u8> {
        match step {
            Step::Call(_) | Step::Why { .. } | Step::Drain { .. } => panic!("{step:?}"),
            Step::Names(names) => {
                self.places(names, &[0; 16], 0, 0)?;
                self.names = names.clone();
                return Ok(String::from("done"));
            }
            Step::Note(text, data) => {
                let mut out = vec![0; 1_000];
                let length = write_note(text, data, &mut out)?;
                self.note = out[..length].to_vec();
            }
            Step::NoteFile(file) => self.note = std::fs::read(format!("scripts/{file}")).unwrap(),
            Step::InstallNote { job, which } => {
                let places = self.places(&self.names, &self.note, *job, *which)?;
                let list: Vec<String> = places.iter().map(u8::to_string).collect();
                let (mode, policy) = if list.is_empty() {
                    (0, String::from("default"))
                } else {
                    (4, format!("list {}", list.join(",")))
                };
                let install = Call::Install { job: *job, mode, flag: 0, mask: 0, places };
                return Ok(match reply(&mut self.tables, &install).refusal {
                    0 => format!("{policy}: done"),
                    refusal => format!("{policy}: {}", refused_words(refusal)),
                });
            }
        }
        Ok(self.told_note())
    }
}

/// The script told with the answers that the rules give, line by line.
fn by_the_rules(script: &str) -> String {
    let script = read_script(script).unwrap();
    let mut book = Book { tables: script.machine.clone(), names: Vec::new(), note: Vec::new() };
    let refused = |number| Told::Words(refused_words(number));
    let told: Vec<Told> = script.lines.iter().map(|line| book.told(&line.step).unwrap_or_else(refused)).collect();
    told_lines(&script, &told).unwrap()
}

#[test]
fn the_journal_of_document_01() {
    let script = read_script(&on_a("rebind 0 0-3\nrequest 0 cpu 0\n")).unwrap();
    let bytes = journal(&script).unwrap();
    assert_eq!(bytes[..6], [0x4E, 0x50, 0, 4, 8, 0]);
    assert_eq!(bytes.len(), 6 + 8 + 8 + 16 + 64);
    let answers =
        [[0x4E, 0x41, 3, 0, 0xFF, 0, 0, 0, 0xFF, 0xFF, 0xFF, 0xFF], [0x4E, 0x41, 1, 0, 0, 0, 0, 0, 0, 0, 0, 0]];
    assert_eq!(run(&bytes), answers.concat());
    let lines = "machine A
   8  rebind 0 0-3     |..|..||..|  done
   9  request 0 cpu 0  |0.|..||..|  node 0, page 0
node  0  1 of 2 held  |0.|
node  1  0 of 2 held  |..|
node  2  0 of 0 held  ||
node  3  0 of 2 held  |..|
";
    assert_eq!(told(&script, &answers.concat()).unwrap(), lines);
}

#[test]
fn every_sort_of_line() {
    let install = |mode, flag, mask, places: &[u8]| Call::Install { job: 7, mode, flag, mask, places: places.to_vec() };
    let lines = "rebind 7 1-3\nrebind 7 +0,2\nrebind 7 !0\nrebind 7 all\nrebind 7 none\ninstall 7 default\n\
        install 7 preferred\ninstall 7 preferred 2\ninstall 7 bind !1 static\ninstall 7 interleave 0,63 relative\n\
        install 7 interleave +0-1 relative\ninstall 7 list 255\n  install   7 ring 3,3,1 # turns\n\n# nothing\n\
        install 7 early 0,1\nrequest 255 cpu 255\nrelease 7 page 4294967295\nclear 64\n";
    let expected = vec![
        Call::Rebind { job: 7, allowed: 0b1110 },
        Call::Rebind { job: 7, allowed: 0b1010 },
        Call::Rebind { job: 7, allowed: 0b1110 },
        Call::Rebind { job: 7, allowed: 0b1110 },
        Call::Rebind { job: 7, allowed: 0 },
        install(0, 0, 0, &[]),
        install(1, 0, 0, &[]),
        install(1, 0, 0b0100, &[]),
        install(2, 1, 0b1101, &[]),
        install(3, 2, 1 | 1 << 63, &[]),
        install(3, 2, 0b0110, &[]),
        install(4, 0, 0, &[255]),
        install(5, 0, 0, &[3, 3, 1]),
        install(6, 0, 0, &[0, 1]),
        Call::Request { job: 255, cpu: 255 },
        Call::Release { job: 7, page: 4_294_967_295 },
        Call::Clear { job: 64 },
    ];
    assert_eq!(calls(lines), expected);
}

const MODES: &str = "a mode: `default`, `preferred`, `bind`, `interleave`, `list`, `ring` or `early`, or `note`";
const NOTES: &str = "`note FILE`, or `note text NAMES data NAMES` or one of the two lists";
const AFTER_BIND: &str = "a node list after `bind`, then `static`, `relative` or nothing";
const LISTS: &str = "such as `0-3,5`, `!2`, `+0-1`, `all` or `none` in place of";

/// A line of a script that is wrong, and what was expected.
fn is_bad(line: &str, expected: &str) {
    let fault = read_script(&on_a(&format!("clear 0\n\n# the next line is bad\n{line}\n"))).unwrap_err();
    assert_eq!(fault.to_string(), format!("line 11: expected {expected}, found `{line}`"));
}

#[test]
fn bad_lines_say_where_and_what() {
    for (line, expected) in [
        (
            "ask 0",
            "`request`, `release`, `rebind`, `install`, `clear`, `map`, `keep`, `drain`, `names`, `note` or `why`",
        ),
        ("note", NOTES),
        ("note A B", NOTES),
        ("install 0 note", "`text` or `data` after `note`"),
        ("install 0 note text data", "`text` or `data` after `note`"),
        ("install 256 note text", "a job from 0 to 255 in place of `256`"),
        ("map 0", "`map JOB NODES`"),
        ("map 0 3 1", "`map JOB NODES`"),
        ("keep 0", "`keep JOB NODES`"),
        ("map 0 0-3", "nodes from 0 to 255 such as `3,1`, or `none`, in place of `0-3`"),
        ("keep 0 1,256", "nodes from 0 to 255 such as `3,1`, or `none`, in place of `1,256`"),
        ("map 256 0", "a job from 0 to 255 in place of `256`"),
        ("request 0 4", "`request JOB cpu CPU`"),
        ("request 256 cpu 0", "a job from 0 to 255 in place of `256`"),
        ("request 0 cpu -1", "a CPU from 0 to 255 in place of `-1`"),
        ("release 0 page +1", "a page from 0 to 4294967295 in place of `+1`"),
        ("release 0 5", "`release JOB page PAGE`"),
        ("clear", "`clear JOB`"),
        ("rebind 0", "`rebind JOB NODES`"),
        ("rebind 0 0-4", &format!("nodes below 4 {LISTS} `0-4`")),
        ("install", "`install JOB MODE` and what the mode carries"),
        ("install 0", MODES),
        ("install 0 rings 1", MODES),
        ("install 0 default 1", "nothing after `default`"),
        ("install 0 bind", AFTER_BIND),
        ("install 0 bind 1 fixed", AFTER_BIND),
        ("install 0 bind 64 relative", &format!("nodes below 64 {LISTS} `64`")),
        ("install 0 ring 3,,1", "places from 0 to 255 such as `3,3,1` in place of `3,,1`"),
        ("install 0 ring 3 static", "places such as `3,3,1` after `ring`, and nothing else"),
    ] {
        is_bad(line, expected);
    }
}

#[test]
fn bad_questions_say_where_and_what() {
    for line in ["why", "why 0", "why 0 1", "why 0 cpu", "why 0 cpu 1 2", "why 0 page 1"] {
        is_bad(line, "`why JOB cpu CPU`");
    }
    for line in ["drain", "drain 1 2", "drain 1 cpu 2"] {
        is_bad(line, "`drain NODE`");
    }
    is_bad("drain 256", "a node from 0 to 255 in place of `256`");
    is_bad("drain 1-2", "a node from 0 to 255 in place of `1-2`");
    is_bad("why 256 cpu 0", "a job from 0 to 255 in place of `256`");
    is_bad("why 0 cpu 256", "a CPU from 0 to 255 in place of `256`");
}

#[test]
fn bad_machines_say_where_and_what() {
    let fault = |script: &str| read_script(script).unwrap_err().to_string();
    let pages = "`pages` and the pages of 1 to 16 nodes, at most 16384 together";
    assert_eq!(fault(""), "line 1: expected `machine` and a name or nothing, found the end");
    assert_eq!(fault("clear 0"), "line 1: expected `machine` and a name or nothing, found `clear 0`");
    assert_eq!(fault("machine\n"), format!("line 2: expected {pages}, found the end"));
    assert_eq!(fault("machine\npages\n"), format!("line 2: expected {pages}, found `pages`"));
    assert_eq!(fault("machine\npages 16384 1\n"), format!("line 2: expected {pages}, found `pages 16384 1`"));
    let cpus = "`cpus` and the node (0 to 1) of 1 to 64 CPUs";
    assert_eq!(fault("machine\npages 1 1\ncpus 2\n"), format!("line 3: expected {cpus}, found `cpus 2`"));
    let head = "machine\npages 1 1\ncpus 1\n";
    let row = |node| format!("`distance` and 2 distances from node {node}: 10 to itself, else 10 to 255");
    assert_eq!(fault(head), format!("line 4: expected {}, found the end", row(0)));
    assert_eq!(fault(&format!("{head}distance 10\n")), format!("line 4: expected {}, found `distance 10`", row(0)));
    let far = format!("{head}distance 10 256\n");
    assert_eq!(fault(&far), format!("line 4: expected {}, found `distance 10 256`", row(0)));
    let not_ten = format!("{head}distance 10 20\n# row 1\ndistance 20 11\n");
    assert_eq!(fault(&not_ten), format!("line 6: expected {}, found `distance 20 11`", row(1)));
}

#[test]
fn the_story_of_three_tenants() {
    let (script, told) = (include_str!("../scripts/rent.txt"), include_str!("../scripts/rent.told.txt"));
    assert_eq!(story(script), told);
    assert_eq!(by_the_rules(script), told);
    assert_eq!(story::run::run(&read_script(script).unwrap()).unwrap(), told);
}

#[test]
fn the_story_of_two_tenants_with_maps() {
    let (script, told) = (include_str!("../scripts/maps.txt"), include_str!("../scripts/maps.told.txt"));
    assert_eq!(by_the_rules(script), told);
    let script = read_script(script).unwrap();
    assert_eq!(story::run::run(&script).unwrap(), told);
    let no_record = "line 12: expected a call that a journal has (`story run` takes every script), found `map 0 3,0,1`";
    assert_eq!(journal(&script).unwrap_err().to_string(), no_record);
}

/// The script at a path, its files beside it.
fn at_scripts(script: &str) -> Script {
    Script { folder: "scripts".into(), ..read_script(script).unwrap() }
}

#[test]
fn the_story_of_programs_that_name_their_memory() {
    let (script, told) = (include_str!("../scripts/notes.txt"), include_str!("../scripts/notes.told.txt"));
    assert_eq!(by_the_rules(script), told);
    let script = at_scripts(script);
    assert_eq!(story::run::run(&script).unwrap(), told);
    let fault = journal(&script).unwrap_err().to_string();
    assert!(fault.starts_with("line 11: expected a call that a journal has"), "{fault}");
}

#[test]
fn the_story_of_a_node_that_holds_no_page() {
    let (script, told) = (include_str!("../scripts/why.txt"), include_str!("../scripts/why.told.txt"));
    assert_eq!(by_the_rules(script), told);
    let script = read_script(script).unwrap();
    assert_eq!(story::run::run(&script).unwrap(), told);
    for words in spirerivet::Reason::ALL.map(spirerivet::Reason::words) {
        assert!(told.lines().any(|line| line.starts_with("      node  3") && line.ends_with(words)), "{words}");
    }
    let fault = journal(&script).unwrap_err().to_string();
    assert_eq!(
        fault,
        "line 13: expected a call that a journal has (`story run` takes every script), found `why 0 cpu 2`"
    );
}

#[test]
fn the_story_of_a_board_that_is_pulled() {
    let (script, told) = (include_str!("../scripts/drain.txt"), include_str!("../scripts/drain.told.txt"));
    assert_eq!(by_the_rules(script), told);
    let script = read_script(script).unwrap();
    assert_eq!(story::run::run(&script).unwrap(), told);
    let drained: Vec<&str> = told.lines().filter(|line| line.contains("drain")).collect();
    let ends = ["refused 17: a page has nowhere to go", "pages 4 to 0, 5 to 8, 6 to 2, 7 to 1", "no page to move"];
    assert_eq!(drained.len(), ends.len());
    for (line, end) in drained.iter().zip(ends) {
        assert!(line.ends_with(end), "{line}");
    }
    assert_eq!(told.lines().filter(|line| line.starts_with("node  1  0 of 4 held")).count(), 1);
    let fault = journal(&script).unwrap_err().to_string();
    assert!(fault.starts_with("line 16: expected a call that a journal has"), "{fault}");
    let fault = journal(&read_script(&on_a("drain 0\n")).unwrap()).unwrap_err().to_string();
    assert!(fault.starts_with("line 8: expected a call that a journal has"), "{fault}");
}

/// The same script without its `why` lines leaves the same nodes and gets the same answers.
#[test]
fn why_changes_nothing() {
    let script = read_script(include_str!("../scripts/why.txt")).unwrap();
    let lines = script.lines.iter().filter(|line| line.call().is_some()).cloned().collect();
    let without = Script { lines, ..script.clone() };
    let [told, told_without] = [&script, &without].map(|script| story::run::run(script).unwrap());
    let is_why = |line: &str| line.get(6..).is_some_and(|text| text.starts_with("why") || text.starts_with("node"));
    let answers = |told: &str| told.lines().filter(|line| !is_why(line)).map(str::to_string).collect::<Vec<String>>();
    assert!(answers(&told).len() + 15 < told.lines().count());
    assert_eq!(answers(&told), answers(&told_without));
}

#[test]
fn names_and_notes_of_a_script() {
    let lines = "names A B\nnames\nnote text A ANY data B\nnote text text data data text\nnote data A\nnote text\n\
        note a/file\ninstall 7 note text\ninstall 255 note data\n";
    let script = read_script(&on_a(lines)).unwrap();
    let note = |text: &[u8], data: &[u8]| Step::Note(text.to_vec(), data.to_vec());
    let expected = vec![
        Step::Names(b"A\0B\0".to_vec()),
        Step::Names(vec![]),
        note(b"A\0ANY\0", b"B\0"),
        note(b"text\0", b"data\0text\0"),
        note(b"", b"A\0"),
        note(b"", b""),
        Step::NoteFile(String::from("a/file")),
        Step::InstallNote { job: 7, which: 0 },
        Step::InstallNote { job: 255, which: 1 },
    ];
    assert_eq!(script.lines.iter().map(|line| line.step.clone()).collect::<Vec<Step>>(), expected);
    let missing = story::run::run(&script).unwrap_err();
    assert!(missing.starts_with("a/file: "), "{missing}");
}

/// Without names for the nodes a list has no places, and without a note there is none: 1, then 16.
#[test]
fn refused_names_and_notes_leave_those_that_there_were() {
    let lines =
        "install 0 note text\nnames A B C D\ninstall 0 note text\nnote text A data\nrebind 0 0-3\nnames A B ANY D\n\
        note text any\ninstall 0 note text\ninstall 0 note data\nrequest 0 cpu 6\n";
    let script = on_a(lines);
    let told = story::run::run(&read_script(&script).unwrap()).unwrap();
    assert_eq!(by_the_rules(&script), told);
    for (line, end) in [
        (8, "refused 1: machine tables or job table length break the rules"),
        (10, "refused 16: the note, or a list of names, isn't a good one"),
        (11, "18 bytes: A"),
        (13, "refused 1: machine tables or job table length break the rules"),
        (14, "refused 16: the note, or a list of names, isn't a good one"),
        (15, "list 0: done"),
        (16, "default: done"),
    ] {
        let start = format!("{line:4}  ");
        let found = told.lines().find(|told| told.starts_with(&start)).unwrap();
        assert!(found.ends_with(end), "{found}");
    }
}

/// Lists of an install go by the job's own numbers: below its map's end, `all` and `+` by what it is allowed of the map.
#[test]
fn node_numbers_are_the_jobs_own_once_it_has_a_map() {
    let lines = "map 0 1\nrebind 1 0-2\nmap 1 3,2,0\ninstall 1 bind all\ninstall 1 bind +1\ninstall 1 bind !2\n\
        install 1 ring 2,3\ninstall 1 bind 40 relative\nkeep 1 1\ninstall 1 bind all\nmap 255 none\n\
        keep 255 7,255\ninstall 255 bind 3\n";
    let script = read_script(&on_a(lines)).unwrap();
    let install = |mode, flag, mask, places: &[u8]| Call::Install { job: 1, mode, flag, mask, places: places.to_vec() };
    let expected = vec![
        Call::SetMap { job: 0, list: vec![1] },
        Call::Rebind { job: 1, allowed: 0b0111 },
        Call::SetMap { job: 1, list: vec![3, 2, 0] },
        install(2, 0, 0b110, &[]),
        install(2, 0, 0b100, &[]),
        install(2, 0, 0b011, &[]),
        install(5, 0, 0, &[2, 3]),
        install(2, 2, 1 << 40, &[]),
        Call::KeepNodes { job: 1, kept: vec![1] },
        install(2, 0, 0b001, &[]),
        Call::SetMap { job: 255, list: vec![] },
        Call::KeepNodes { job: 255, kept: vec![7, 255] },
        Call::Install { job: 255, mode: 2, flag: 0, mask: 0b1000, places: vec![] },
    ];
    assert_eq!(calls_of(&script), expected);
    let fault = read_script(&on_a("rebind 1 0-2\nmap 1 3,2\ninstall 1 bind 2\n")).unwrap_err();
    assert_eq!(fault.to_string(), format!("line 10: expected nodes below 2 {LISTS} `2`, found `install 1 bind 2`"));
}

#[test]
fn bad_replies_say_where_and_what() {
    let script = read_script(&on_a("rebind 0 0-3\nrequest 0 cpu 0\n")).unwrap();
    let done = Told::Reply(Reply { refusal: 0, node: 0xFF, page: u32::MAX });
    let message = |told| told_lines(&script, &[done.clone(), told]).unwrap_err();
    assert_eq!(told_lines(&script, &[done.clone()]).unwrap_err(), "expected 2 answers, found 1");
    assert_eq!(message(done.clone()), "answer 1 (line 9): expected a node of the job's map");
    let far = Told::Reply(Reply { refusal: 0, node: 0, page: 6 });
    assert_eq!(message(far), "answer 1 (line 9): expected a page of this machine");
    let words = Told::Words(String::from("done"));
    let reasons = Told::Reasons(vec![6, 7, 5, 7]);
    for told in [words, reasons.clone(), Told::Moves(vec![])] {
        assert_eq!(message(told), "answer 1 (line 9): expected an answer for a call, words for another line");
    }
    let why = read_script(&on_a("why 0 cpu 0\n")).unwrap();
    let told = |reasons: &[u8]| told_lines(&why, &[Told::Reasons(reasons.to_vec())]);
    assert!(told(&[6, 7, 5, 7]).unwrap().contains("node  0  0 of 2 held  |..|  chosen\n"));
    assert_eq!(told(&[6, 7, 8, 7]).unwrap_err(), "answer 0 (line 8): expected reasons from 1 to 7");
    for wrong in [told(&[6, 7, 5]), told_lines(&why, &[done])] {
        assert_eq!(wrong.unwrap_err(), "answer 0 (line 8): expected an answer for a call, words for another line");
    }
    let drain = read_script(&on_a("drain 0\n")).unwrap();
    let told = |pairs: &[[u32; 2]]| told_lines(&drain, &[Told::Moves(pairs.to_vec())]);
    assert!(told(&[[0, 5]]).unwrap().contains("page 0 to 5\n"));
    for far in [[0, 6], [6, 0], [u32::MAX, 0]] {
        assert_eq!(told(&[far]).unwrap_err(), "answer 0 (line 8): expected pages of this machine");
    }
}

#[test]
fn the_examples_of_document_01() {
    for (policy, cpu, places) in [
        ("default", 4, "0 1 4 5 2 3"),
        ("bind 1,3", 0, "2 3 4 5 -"),
        ("interleave 1-3", 0, "2 0 4"),
        ("ring 3,3,1", 0, "4 5 2 3 -"),
        ("list 3,3,1", 0, "4 5 2 3 -"),
        ("early 0,1,3", 0, "0 1 2 4 3 5 -"),
    ] {
        let mut script = on_a(&format!("rebind 0 all\nrebind 0 0-3\ninstall 0 {policy}\n"));
        for _ in places.split(' ') {
            script.push_str(&format!("request 0 cpu {cpu}\n"));
        }
        let told = story(&script);
        let requests = told.lines().filter(|line| line.contains("request"));
        for (line, place) in requests.zip(places.split(' ')) {
            let end = match place {
                "-" => String::from("refused 8: no node in the order has a free page"),
                page => format!(", page {page}"),
            };
            assert!(line.ends_with(&end), "{policy}: {line}");
        }
    }
}

#[test]
fn bad_answers_say_where_and_what() {
    let script = read_script(&on_a("rebind 0 0-3\nrequest 0 cpu 0\n")).unwrap();
    let good = run(&journal(&script).unwrap());
    let changed = |index: usize, byte: u8| {
        let mut bytes = good.clone();
        bytes[index] = byte;
        told(&script, &bytes)
    };
    let message = |index, byte| changed(index, byte).unwrap_err();
    assert_eq!(told(&script, &good[..12]).unwrap_err(), "answer 1 (line 9): expected an answer, found the end");
    let bytes = "twelve bytes 4E 41 kind refusal node 0 0 0 page";
    assert_eq!(told(&script, &good[..23]).unwrap_err(), format!("answer 1 (line 9): expected {bytes}"));
    assert_eq!(message(0, 0), format!("answer 0 (line 8): expected {bytes}"));
    assert_eq!(message(6, 1), format!("answer 0 (line 8): expected {bytes}"));
    assert_eq!(message(2, 1), "answer 0 (line 8): expected kind 3, found 1");
    assert_eq!(message(4, 1), "answer 0 (line 8): expected an answer that names no node and no page");
    assert_eq!(message(15, 8), "answer 1 (line 9): expected a refusal that names no node and no page");
    assert_eq!(message(20, 6), "answer 1 (line 9): expected a page of this machine");
    let more = [good.clone(), good.clone()].concat();
    assert_eq!(told(&script, &more).unwrap_err(), "expected no more answers than calls");
    let stopped = [0x4E, 0x41, 0xFF, 13, 0xFF, 0, 0, 0, 0xFF, 0xFF, 0xFF, 0xFF];
    assert!(told(&script, &stopped).unwrap().contains("   8  the program stopped with 13: damaged journal\n"));
}

/// Runs the program with an input.
fn program(arguments: &[&str], input: &[u8]) -> (bool, Vec<u8>, String) {
    let mut child = Command::new(env!("CARGO_BIN_EXE_story"))
        .args(arguments)
        .stdin(Stdio::piped())
        .stdout(Stdio::piped())
        .stderr(Stdio::piped())
        .spawn()
        .unwrap();
    let _ = child.stdin.take().unwrap().write_all(input);
    let output = child.wait_with_output().unwrap();
    (output.status.success(), output.stdout, String::from_utf8(output.stderr).unwrap())
}

#[test]
fn the_program() {
    let path = concat!(env!("CARGO_MANIFEST_DIR"), "/scripts/rent.txt");
    let (good, journal, _) = program(&["journal"], include_bytes!("../scripts/rent.txt"));
    assert!(good);
    let (good, lines, _) = program(&["answers", path], &run(&journal));
    assert!(good);
    assert_eq!(lines, include_bytes!("../scripts/rent.told.txt"));
    let (good, lines, _) = program(&["run", path], b"");
    assert!(good);
    assert_eq!(lines, include_bytes!("../scripts/rent.told.txt"));
    let maps = concat!(env!("CARGO_MANIFEST_DIR"), "/scripts/maps.txt");
    let (good, lines, _) = program(&["run", maps], b"");
    assert!(good);
    assert_eq!(lines, include_bytes!("../scripts/maps.told.txt"));
    let notes = concat!(env!("CARGO_MANIFEST_DIR"), "/scripts/notes.txt");
    let (good, lines, _) = program(&["run", notes], b"");
    assert!(good);
    assert_eq!(lines, include_bytes!("../scripts/notes.told.txt"));
    let why = concat!(env!("CARGO_MANIFEST_DIR"), "/scripts/why.txt");
    let (good, lines, _) = program(&["run", why], b"");
    assert!(good);
    assert_eq!(lines, include_bytes!("../scripts/why.told.txt"));
    let drain = concat!(env!("CARGO_MANIFEST_DIR"), "/scripts/drain.txt");
    let (good, lines, _) = program(&["run", drain], b"");
    assert!(good);
    assert_eq!(lines, include_bytes!("../scripts/drain.told.txt"));
    let (good, nothing, message) = program(&["journal"], include_bytes!("../scripts/maps.txt"));
    assert!(!good && nothing.is_empty());
    assert!(message.starts_with("line 12: expected a call that a journal has"), "{message}");
    let (good, nothing, message) = program(&["journal"], b"machine\npages x\n");
    assert!(!good && nothing.is_empty());
    assert!(message.starts_with("line 2: expected `pages`"), "{message}");
    assert!(!program(&[], b"").0);
}
