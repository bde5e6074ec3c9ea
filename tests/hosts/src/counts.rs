//! What calls on free counts of some sort showed (M-100).

use reference::calls::{apply_without_counts, Answer, Call, Tables};
use reference::generate::Counts;
use reference::machine::{free_counts, free_fits, node_of_page};

/// How often each came, so that a test can say it was not empty.
#[derive(Clone, Copy, Debug, Default, PartialEq, Eq)]
pub struct Shown {
    pub calls: u64,
    /// Calls refused 1 on free counts not of N entries: of request, release and fresh table.
    pub lengths: [u64; 3],
    pub request_14: u64,
    pub release_14: u64,
    /// Refused 8 with room on a node counted 0.
    pub room_counted_0: u64,
    /// Granted, but not as without counts: a node counted 0 was passed over.
    pub passed_over: u64,
    /// Granted by a node whose count was wrong.
    pub wrong_granted: u64,
    pub fresh: u64,
}

impl Shown {
    /// Enters a call, with the tables before it, and its answer.
    pub fn enter(&mut self, before: &Tables, call: &Call, answer: Answer) {
        self.calls += 1;
        let Tables { counts, pages, free, .. } = before;
        let without_counts = || apply_without_counts(counts.len(), &mut before.clone(), call);
        match (call, answer) {
            (Call::Request { .. }, Answer::Refused(1)) => self.lengths[0] += u64::from(!free_fits(counts, free)),
            (Call::Release { .. }, Answer::Refused(1)) => self.lengths[1] += u64::from(!free_fits(counts, free)),
            (Call::Fresh, Answer::Refused(1)) => self.lengths[2] += u64::from(!free_fits(counts, free)),
            (Call::Request { .. }, Answer::Refused(14)) => self.request_14 += 1,
            (Call::Release { .. }, Answer::Refused(14)) => self.release_14 += 1,
            (Call::Request { .. }, Answer::Refused(8)) => self.room_counted_0 += u64::from(without_counts() != answer),
            (Call::Request { .. }, Answer::Granted { page, .. }) => {
                let node = node_of_page(counts, page as usize).expect("a page of the machine");
                self.passed_over += u64::from(without_counts() != answer);
                self.wrong_granted += u64::from(free[node] != free_counts(counts, pages)[node]);
            }
            (Call::Fresh, Answer::Done) => self.fresh += 1,
            _ => {}
        }
    }

    /// Each thing that counts of this sort lead to came often; with matching counts none did.
    pub fn is_enough(&self, sort: Counts) -> bool {
        let often = |times: u64| times > 50;
        let Shown { lengths, request_14, release_14, room_counted_0, passed_over, wrong_granted, .. } = *self;
        match sort {
            Counts::Matching => *self == Shown { calls: self.calls, fresh: self.fresh, ..Shown::default() },
            Counts::TooFew | Counts::TooMany => lengths.into_iter().all(often),
            Counts::AbovePages | Counts::TooHigh | Counts::AllMost => {
                often(request_14) && often(release_14) && often(wrong_granted)
            }
            Counts::TooLow | Counts::AllZero => often(room_counted_0) && often(passed_over) && often(wrong_granted),
            Counts::Mixed => {
                [request_14, release_14, room_counted_0, passed_over, wrong_granted].into_iter().all(often)
            }
        }
    }

    /// Adds up.
    pub fn add(&mut self, other: Shown) {
        self.calls += other.calls;
        for kind in 0..3 {
            self.lengths[kind] += other.lengths[kind];
        }
        self.request_14 += other.request_14;
        self.release_14 += other.release_14;
        self.room_counted_0 += other.room_counted_0;
        self.passed_over += other.passed_over;
        self.wrong_granted += other.wrong_granted;
        self.fresh += other.fresh;
    }
}
