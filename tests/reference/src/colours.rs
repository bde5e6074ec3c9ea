//! M-105's colours, seen from outside: how often grants go by them, and wrong programs that they are told apart from.

use crate::calls::{apply_each, apply_finding, find_without_colours, Answer, Call, Find, Tables};
use crate::machine::{byte_of_job, first_page, lowest_free_page, node_of_page, COLOURS, FREE};
use crate::order::Try;

/// Ways to find a page that M-105 rules out.
pub const OTHER_WAYS: [(&str, Find); 5] = [
    ("as before M-105", find_without_colours),
    ("colour by the page's number", by_page_number),
    ("colour by the byte j + 1", by_byte),
    ("colour preferred across nodes", across_nodes),
    ("highest page of the colour", highest),
];

/// The free pages of a node that have a colour, counted from some page on.
fn pages_of_colour(counts: &[u32], pages: &[u8], node: usize, from: usize, colour: usize) -> Vec<usize> {
    let first = first_page(counts, node);
    let has_it = |page: &usize| pages[*page] == FREE && (*page - from) % COLOURS == colour % COLOURS;
    (first..first + counts[node] as usize).filter(has_it).collect()
}

/// What the first node that is counted grants if these are the pages to prefer.
fn preferring(
    counts: &[u32],
    pages: &[u8],
    free: &[u32],
    order: &[Try],
    preferred: impl Fn(usize) -> Option<usize>,
) -> Result<(Try, usize), u8> {
    let (counted, lowest) = find_without_colours(counts, pages, free, order, 0)?;
    Ok((counted, preferred(counted.node).unwrap_or(lowest)))
}

fn by_page_number(counts: &[u32], pages: &[u8], free: &[u32], order: &[Try], job: usize) -> Result<(Try, usize), u8> {
    let preferred = |node| pages_of_colour(counts, pages, node, 0, job).first().copied();
    preferring(counts, pages, free, order, preferred)
}

fn by_byte(counts: &[u32], pages: &[u8], free: &[u32], order: &[Try], job: usize) -> Result<(Try, usize), u8> {
    let colour = usize::from(byte_of_job(job));
    let preferred = |node| pages_of_colour(counts, pages, node, first_page(counts, node), colour).first().copied();
    preferring(counts, pages, free, order, preferred)
}

fn highest(counts: &[u32], pages: &[u8], free: &[u32], order: &[Try], job: usize) -> Result<(Try, usize), u8> {
    let preferred = |node| pages_of_colour(counts, pages, node, first_page(counts, node), job).last().copied();
    preferring(counts, pages, free, order, preferred)
}

fn across_nodes(counts: &[u32], pages: &[u8], free: &[u32], order: &[Try], job: usize) -> Result<(Try, usize), u8> {
    for one in order.iter().filter(|one| free[one.node] > 0) {
        let of_colour = pages_of_colour(counts, pages, one.node, first_page(counts, one.node), job);
        if let Some(page) = of_colour.first() {
            return Ok((*one, *page));
        }
    }
    find_without_colours(counts, pages, free, order, job)
}

/// What granted requests showed, by the job's colour, and how often another way would have answered otherwise (M-105).
#[derive(Clone, Copy, Debug, Default, PartialEq, Eq)]
pub struct Colours {
    /// A page of the colour, free pages below it being passed over.
    pub passed_over: [u64; COLOURS],
    /// The lowest free page, which has the colour.
    pub lowest: [u64; COLOURS],
    /// The lowest free page, no page of the colour being free.
    pub gone: [u64; COLOURS],
    pub told_apart: [u64; OTHER_WAYS.len()],
}

impl Colours {
    /// Enters a call, with the tables before it, and its answer.
    pub fn enter(&mut self, before: &Tables, call: &Call, answer: Answer) {
        let (Call::Request { job, .. }, Answer::Granted { page, .. }) = (call, answer) else { return };
        let Tables { counts, pages, .. } = before;
        let (page, colour) = (page as usize, job % COLOURS);
        let node = node_of_page(counts, page).expect("a page of the machine");
        let is_lowest = lowest_free_page(counts, pages, node) == Some(page);
        match (page - first_page(counts, node)) % COLOURS == colour {
            true if is_lowest => self.lowest[colour] += 1,
            true => self.passed_over[colour] += 1,
            false => self.gone[colour] += 1,
        }
        for (apart, (_, find)) in self.told_apart.iter_mut().zip(OTHER_WAYS) {
            *apart += u64::from(apply_finding(counts.len(), &mut before.clone(), call, find) != answer);
        }
    }

    /// Makes the calls one by one, from a start, and enters them.
    pub fn enter_list(&mut self, start: &Tables, calls: &[Call]) {
        apply_each(start, calls, |before, call, answer| self.enter(before, call, answer));
    }

    /// Each came at least so often, but for a lowest page that has the colour: that came at all, for each colour.
    pub fn each_at_least(&self, times: u64) -> bool {
        let Colours { passed_over, lowest, gone, told_apart } = *self;
        let often = |counts: &[u64]| counts.iter().all(|count| *count >= times);
        often(&passed_over) && often(&gone) && often(&told_apart) && lowest.iter().all(|count| *count > 0)
    }
}

#[cfg(test)]
mod tests {
    use super::*;
    use crate::examples::{all, Example};
    use crate::generate::{case, journal_parts, list, Case};

    /// Does an example get the same answers where its pages are found in this way?
    fn stays_true(example: &Example, find: Find) -> bool {
        let mut tables = example.start.clone();
        let nodes = tables.counts.len();
        example.calls().into_iter().all(|(call, answer)| apply_finding(nodes, &mut tables, call, find) == answer)
    }

    /// "The page numbers in 01's examples stay true for job 0": those before M-105 are the same by the rule before it; of
    /// M-105's own, each other way gets some wrong.
    #[test]
    fn examples_tell_the_other_ways_apart() {
        let (colours, before): (Vec<Example>, _) = all().into_iter().partition(|one| one.name.starts_with("M-105"));
        assert!(colours.len() > 45 && before.len() > 80, "{} {}", colours.len(), before.len());
        assert!(before.iter().all(|example| stays_true(example, find_without_colours)));
        for (name, find) in OTHER_WAYS {
            let wrong = colours.iter().filter(|example| !stays_true(example, find)).count();
            println!("{name}: {wrong} of {} examples are wrong", colours.len());
            assert!(wrong >= 5, "{name}: {wrong}");
        }
    }

    #[test]
    fn what_is_counted() {
        let example = all().into_iter().find(|one| one.name.starts_with("M-105: pages 7 and 6, job 3")).unwrap();
        let calls: Vec<Call> = example.calls().into_iter().map(|(call, _)| call.clone()).collect();
        let mut shown = Colours::default();
        shown.enter_list(&example.start, &calls);
        let Colours { passed_over, lowest, gone, told_apart } = shown;
        // Pages 10 and 3 have the colour; the other eleven come when it is gone.
        assert_eq!((passed_over, lowest, gone), ([0, 0, 0, 2], [0; 4], [0, 0, 0, 11]));
        assert_eq!(told_apart[0], 2);
    }

    #[test]
    fn generators_meet_them_often() {
        let (mut journals, mut lists, mut cases) = (Colours::default(), Colours::default(), Colours::default());
        for seed in 0..200 {
            for ((start, calls), shown) in [(journal_parts(seed, 150), &mut journals), (list(seed, 150), &mut lists)] {
                shown.enter_list(&start, &calls);
            }
        }
        for seed in (0..20_000).filter(|seed| seed % 97 != 96) {
            let Case { tables, call, .. } = case(seed);
            cases.enter_list(&tables, &[call]);
        }
        println!("journals {journals:?}\nlists {lists:?}\ncases {cases:?}");
        assert!(journals.each_at_least(200) && lists.each_at_least(100) && cases.each_at_least(40));
    }
}
