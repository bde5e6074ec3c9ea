//! M-105's colours by the linked library, judged by the pages alone: which of the node's free pages was granted, and that the
//! node, the refusals and all else are as they were before M-105.

use hosts::{answer_word, library_call, library_replay, seeds, words, Both, LentTables, Seen};
use reference::calls::{apply, apply_without_colours, Answer, Call, Tables};
use reference::colours::Colours;
use reference::examples::machine_a;
use reference::generate::{case, journal_parts, list, tables, Case, Dice};
use reference::machine::node_of_page;
use reference::record::WORDS;

/// How many pages come before a node's.
fn before(counts: &[u32], node: usize) -> usize {
    counts[..node].iter().map(|count| *count as usize).sum()
}

/// Of a node's free pages the one that M-105 names: those of the job's colour come first, then the lower offset.
fn named(counts: &[u32], pages: &[u8], node: usize, job: usize) -> Option<usize> {
    let first = before(counts, node);
    let free = (0..counts[node] as usize).filter(|offset| pages[first + offset] == 0);
    free.min_by_key(|offset| (offset % 4 != job % 4, *offset)).map(|offset| first + offset)
}

/// Judges a call that the library made: a granted page by `named`; the node, the refusal and all tables but the pages by the
/// rules before M-105; the pages by the ledger.
fn judge(told: &str, nodes: usize, start: &Tables, call: &Call, answer: Answer, after: &LentTables) {
    let mut old = start.clone();
    let old_answer = apply_without_colours(nodes, &mut old, call);
    let (Call::Request { job, .. }, Answer::Granted { node, page }) = (call, answer) else {
        assert_eq!(answer, old_answer, "{told}");
        assert_eq!(after.difference(&old), None, "{told}");
        return;
    };
    let Answer::Granted { node: old_node, page: old_page } = old_answer else {
        panic!("{told}: {old_answer:?} before")
    };
    let of_page = |page: u32| node_of_page(&start.counts, page as usize).expect("a page of the machine");
    assert_eq!((node, of_page(page)), (old_node, of_page(old_page)), "{told}: the node");
    assert_eq!(Some(page as usize), named(&start.counts, &start.pages, of_page(page), *job), "{told}: the page");
    old.pages.swap(page as usize, old_page as usize);
    assert_eq!(after.difference(&old), None, "{told}: {answer:?}");
}

/// Makes the calls by the library alone and judges each.
fn judged(told: &str, nodes: usize, start: Tables, calls: &[Call], shown: &mut Colours) {
    let mut lent = LentTables::new(&start);
    let mut tables = start;
    for (turn, call) in calls.iter().enumerate() {
        let answer = library_call(nodes, &mut lent, call);
        judge(&format!("{told} call {turn}: {call:?}"), nodes, &tables, call, answer, &lent);
        shown.enter(&tables, call, answer);
        for (table, now) in [(&mut tables.pages, &lent.pages), (&mut tables.maps, &lent.maps)] {
            table.copy_from_slice(now.now());
        }
        tables.jobs.copy_from_slice(lent.jobs.now());
        tables.free.copy_from_slice(lent.free.now());
    }
}

#[test]
fn single_calls_grant_the_page_that_is_named_and_no_other_node() {
    let mut shown = Colours::default();
    for seed in seeds(20_000) {
        let Case { nodes, tables, call } = case(seed);
        judged(&format!("case {seed}"), nodes, tables, &[call], &mut shown);
    }
    println!("{shown:?}");
    assert!(shown.each_at_least(40), "{shown:?}");
}

#[test]
fn runs_of_calls_grant_the_page_that_is_named_and_no_other_node() {
    let mut shown = Colours::default();
    for seed in seeds(150) {
        let (nodes, any, any_calls) = tables(seed, 40);
        judged(&format!("tables {seed}"), nodes, any, &any_calls, &mut shown);
        for (what, (start, calls)) in [("list", list(seed, 150)), ("journal", journal_parts(seed, 150))] {
            judged(&format!("{what} {seed}"), start.counts.len(), start, &calls, &mut shown);
        }
    }
    println!("{shown:?}");
    assert!(shown.each_at_least(200), "{shown:?}");
}

/// Nodes with these counts, all at distance 10, eight jobs that are allowed all; every page is held by nobody known.
fn held(counts: &[u32]) -> Tables {
    let (nodes, counts) = (counts.len(), counts.to_vec());
    let (pages, distances) = (vec![200; counts.iter().sum::<u32>() as usize], vec![10; nodes * nodes]);
    let jobs = [0, 0, (1 << nodes) - 1, 0, 0, 0].repeat(8);
    let cpus = (0..nodes as u8).collect();
    Tables { counts, cpus, distances, pages, jobs, ..machine_a() }.counted().numbered_as_the_machine()
}

/// Node 1 of up to four pages' start and six pages: every set of free pages, every job; by both, and by `named`.
#[test]
fn every_small_node() {
    let mut granted = 0;
    for first in 0..4 {
        for set in 0..64 {
            let mut start = held(&[first, 6]);
            for offset in (0..6).filter(|offset| set >> offset & 1 == 1) {
                start.pages[first as usize + offset] = 0;
            }
            let start = start.counted();
            for job in 0..8 {
                let told = format!("first page {first}, free {set:06b}, job {job}");
                let mut both = Both::new(2, start.clone());
                let answer = both.call(&Call::Request { job, cpu: 1 }, &mut Seen::default());
                match named(&start.counts, &start.pages, 1, job) {
                    None => assert_eq!(answer, Ok(Answer::Refused(8)), "{told}"),
                    Some(page) => {
                        assert!(
                            matches!(answer, Ok(Answer::Granted { page: found, .. }) if found as usize == page),
                            "{told}"
                        );
                        granted += 1;
                    }
                }
            }
        }
    }
    assert_eq!(granted, 4 * 63 * 8);
}

/// The page that the library grants from node 1, by its offset; the page is given back.
fn offset_granted(tables: &mut Tables, job: usize) -> usize {
    let Tables { counts, cpus, distances, pages, jobs, free, maps } = tables;
    let answer = spirerivet::request(counts, cpus, distances, pages, jobs, free, maps, job, 1);
    let spirerivet::Answer::Granted { page, .. } = answer else { panic!("{answer:?}") };
    assert_eq!(pages[page as usize], job as u8 + 1);
    (pages[page as usize], free[1]) = (0, free[1] + 1);
    page as usize - counts[0] as usize
}

/// A node of 300 pages, from page 3 on, with every pair of free pages, for a job of each colour.
#[test]
fn every_pair_of_free_pages() {
    let mut tables = held(&[3, 300]);
    let mut by_colour = [0; 3];
    for low in 0..300 {
        for high in low..300 {
            tables.pages[3 + low] = 0;
            tables.pages[3 + high] = 0;
            tables.free[1] = 1 + u32::from(low != high);
            for job in 4..8 {
                let fits = |offset: usize| offset % 4 == job % 4;
                let wanted = if !fits(low) && fits(high) { high } else { low };
                assert_eq!(offset_granted(&mut tables, job), wanted, "free {low} and {high}, job {job}");
                by_colour[if fits(low) { 0 } else { 1 + usize::from(!fits(high)) }] += 1;
            }
            tables.pages[3 + low] = 200;
            tables.pages[3 + high] = 200;
        }
    }
    println!("{by_colour:?}: the first fits, the second alone, neither");
    assert!(by_colour.iter().all(|times| *times > 30_000), "{by_colour:?}");
}

/// Nodes of sizes about the blocks of a search, and of the most pages, with free pages here and there, some colours gone.
#[test]
fn large_nodes() {
    let (mut fitting, mut gone) = (0, 0);
    for seed in seeds(3_000) {
        let mut dice = Dice::new(seed ^ 0xC0105);
        let size = dice.pick(&[16, 32, 128, 144, 256, 384, 512, 1_000, 65_533]) + dice.below(4);
        let mut tables = held(&[dice.below(5) as u32, size as u32]);
        let first = tables.counts[0] as usize;
        let allowed = dice.pick(&[0b1111, 0b1111, 0b0001, 0b0110, 0b1011, 0b1000]);
        for _ in 0..dice.pick(&[1, 1, 2, 5, 40]) {
            let offset = dice.below(size);
            if allowed >> (offset % 4) & 1 == 1 || dice.chance(5) {
                tables.pages[first + offset] = 0;
            }
        }
        tables = tables.counted();
        for job in 0..8 {
            let Some(page) = named(&tables.counts, &tables.pages, 1, job) else { break };
            let wanted = page - first;
            assert_eq!(offset_granted(&mut tables, job), wanted, "seed {seed}: {size} pages, job {job}");
            fitting += u64::from(wanted % 4 == job % 4);
            gone += u64::from(wanted % 4 != job % 4);
        }
    }
    println!("{fitting} of the colour, {gone} with the colour gone");
    assert!(fitting > 4_000 && gone > 4_000, "{fitting} {gone}");
}

/// Requests of eight jobs and releases, in nodes of many pages: now filled, now drained, at times all free.
fn busy_list(dice: &mut Dice, start: &Tables, how_many: usize) -> Vec<Call> {
    let (mut tables, mut calls, mut releases) = (start.clone(), Vec::new(), 30);
    let some_jobs: Vec<usize> = (0..dice.between(1, 8)).map(|_| dice.below(8)).collect();
    for turn in 0..how_many {
        if turn % 50 == 0 {
            releases = dice.pick(&[0, 10, 30, 50, 50, 70]);
        }
        let page = dice.below(tables.pages.len());
        let holder = usize::from(tables.pages[page]);
        let call = match (1..=8).contains(&holder) && dice.chance(releases) {
            true => Call::Release { job: holder - 1, page },
            false if dice.chance(1) && dice.chance(30) => Call::Fresh,
            false => Call::Request { job: dice.pick(&some_jobs), cpu: dice.below(2) },
        };
        apply(&mut tables, &call);
        calls.push(call);
    }
    calls
}

/// Lists of many calls, in which the library may remember from call to call where to search: answers and tables are those of
/// the calls one by one, and each granted page is the one named, by a ledger that is fed with the answers alone.
#[test]
fn long_lists_in_large_nodes() {
    let mut shown = Colours::default();
    for seed in seeds(400) {
        let mut dice = Dice::new(seed ^ 0x11575);
        let sizes = [dice.between(1, 9), dice.pick(&[7, 30, 65, 140, 300]) + dice.below(4)];
        let mut start = held(&sizes.map(|size| size as u32));
        let percent = dice.pick(&[0, 30, 90, 100]);
        for page in start.pages.iter_mut().filter(|_| dice.chance(percent)) {
            *page = 0;
        }
        let start = start.counted();
        let calls = busy_list(&mut dice, &start, 500);
        let list: Vec<u64> = calls.iter().flat_map(words).collect();
        let (mut lent, mut answers) = (LentTables::new(&start), vec![0; calls.len()]);
        assert_eq!(library_replay(&mut lent, &list, &mut answers), Ok(calls.len()), "seed {seed}");
        let (mut tables, mut ledger) = (start.clone(), start.pages.clone());
        for (turn, (call, found)) in calls.iter().zip(&answers).enumerate() {
            let told = format!("seed {seed} call {turn}: {call:?}");
            let kept = tables.clone();
            let answer = apply(&mut tables, call);
            assert_eq!(*found, answer_word(answer), "{told}");
            shown.enter(&kept, call, answer);
            let page = (*found >> 32) as usize;
            match call {
                Call::Request { job, .. } if *found as u8 == 0 => {
                    let node = node_of_page(&start.counts, page).expect("a page of the machine");
                    assert_eq!(Some(page), named(&start.counts, &ledger, node, *job), "{told}");
                    ledger[page] = *job as u8 + 1;
                }
                Call::Release { .. } => ledger[page] = 0,
                Call::Fresh => ledger.fill(0),
                _ => {}
            }
        }
        assert_eq!(lent.difference(&Tables { pages: ledger, ..tables }), None, "seed {seed}");
    }
    println!("{shown:?}");
    assert!(shown.each_at_least(1_000), "{shown:?}");
}

/// 64 jobs on one node of 256 pages: each has four pages of its own colour, whatever the order in which they ask.
#[test]
fn all_jobs_share_a_node_by_their_colours() {
    for seed in seeds(50) {
        let mut dice = Dice::new(seed);
        let mut start = held(&[1, 256]);
        start.jobs = [0, 0, 0b10, 0, 0, 0].repeat(64);
        start.pages.fill(0);
        let start = start.counted().numbered_as_the_machine();
        let mut requests: Vec<usize> = (0..256).map(|turn| turn % 64).collect();
        for turn in 1..256 {
            requests.swap(turn, dice.below(turn + 1));
        }
        let mut lent = LentTables::new(&start);
        for job in requests {
            let answer = library_call(2, &mut lent, &Call::Request { job, cpu: 0 });
            assert!(matches!(answer, Answer::Granted { page, .. } if (page - 1) % 4 == job as u32 % 4), "{answer:?}");
        }
        let full = library_call(2, &mut lent, &Call::Request { job: 63, cpu: 0 });
        assert_eq!(full, Answer::Refused(8), "seed {seed}");
        assert_eq!(lent.jobs.now().len(), 64 * WORDS);
    }
}
