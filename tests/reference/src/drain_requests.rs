//! M-107's drain from outside: each move as a request and a release that other calls make, and what the page bytes alone say.

use crate::calls::{apply, Answer, Call, Tables};
use crate::machine::{all_pages, first_page};
use crate::masks::without;
use crate::record::{fresh, read, well_formed, write, Record, WORDS};

/// The bytes of a node's pages.
fn bytes_of<'a>(counts: &[u32], pages: &'a [u8], node: usize) -> &'a [u8] {
    &pages[first_page(counts, node)..][..counts[node] as usize]
}

/// The page that a job of default mode would get on a CPU of node x, were it allowed what the record allows, but not x.
fn requested(now: &mut Tables, job: usize, x: usize) -> Option<u32> {
    let record = read(&now.jobs, job);
    if !well_formed(now.counts.len(), &record) {
        return None;
    }
    let mut asked = Tables { cpus: vec![x as u8], ..now.clone() };
    write(&mut asked.jobs, job, &Record { allowed: without(record.allowed, x), ..fresh() });
    let answer = apply(&mut asked, &Call::Request { job, cpu: 0 });
    (now.pages, now.free) = (asked.pages, asked.free);
    match answer {
        Answer::Granted { page, .. } => Some(page),
        _ => None,
    }
}

/// The pairs of a drain of node x, on good tables with counts that match: for each held page, from the lowest up, its job
/// makes such a request and then gives the page back. None where one of these is refused: 17.
pub fn by_requests(tables: &Tables, x: usize) -> Option<Vec<u32>> {
    let (mut now, mut pairs) = (tables.clone(), Vec::new());
    let first = first_page(&tables.counts, x);
    for (offset, byte) in bytes_of(&tables.counts, &tables.pages, x).iter().enumerate().filter(|(_, byte)| **byte != 0)
    {
        let (page, job) = (first + offset, usize::from(*byte) - 1);
        if job >= tables.jobs.len() / WORDS {
            return None;
        }
        let new = requested(&mut now, job, x)?;
        let answer = apply(&mut now, &Call::Release { job, page });
        assert!(matches!(answer, Answer::Released { .. }), "page {page}: {answer:?}");
        pairs.extend([page as u32, new]);
    }
    Some(pairs)
}

/// How many pages each byte has.
fn totals(pages: &[u8]) -> [usize; 256] {
    let mut totals = [0; 256];
    pages.iter().for_each(|byte| totals[usize::from(*byte)] += 1);
    totals
}

/// "The total held by each job stays the same, and x ends empty"; the counts match; no page outside x is lost, and nothing
/// else is changed. What is wrong, if anything is.
pub fn wrong_after(before: &Tables, after: &Tables, x: usize) -> Option<&'static str> {
    let (counts, all) = (&before.counts, all_pages(&before.counts) as usize);
    let ((old, old_past), (new, new_past)) = (before.pages.split_at(all), after.pages.split_at(all));
    let nodes_kept = (0..counts.len()).filter(|node| *node != x).all(|node| {
        let bytes = bytes_of(counts, old, node).iter().zip(bytes_of(counts, new, node));
        bytes.into_iter().all(|(old, new)| *old == 0 || old == new)
    });
    let (pages, free) = (before.pages.clone(), before.free.clone());
    let rest_stays = Tables { pages, free, ..after.clone() } == *before;
    let holds = [
        ("a job holds more or less than before", totals(old) == totals(new)),
        ("the node is not empty", bytes_of(counts, new, x).iter().all(|byte| *byte == 0)),
        ("the counts do not match", after.counts_match()),
        ("a held page of another node was changed", nodes_kept),
        ("a byte past the last page was changed", old_past == new_past),
        ("another table was changed", rest_stays),
    ];
    holds.into_iter().find(|(_, holds)| !holds).map(|(wrong, _)| wrong)
}
