//! What a call gives: its answer or one numbered refusal.

use std::fmt;

use crate::node::AppNode;

/// The answer of a call. A node is told by the job's own number; a page that is given back may lie outside the job's map. A
/// drain in a list of calls tells how many pages moved.
#[derive(Clone, Copy, Debug, PartialEq, Eq)]
pub enum Answer {
    Granted { node: AppNode, page: u32 },
    Released { node: Option<AppNode>, page: u32 },
    Drained { moves: u32 },
    Done,
    Refused(Refusal),
}

/// near(x) as `near` has written it: how many nodes, and in how many rounds of its loops.
#[derive(Clone, Copy, Debug, PartialEq, Eq)]
pub struct Order {
    pub nodes: usize,
    pub rounds: u32,
}

/// Document 01's refusals, as amended to date, in the order of their numbers.
#[derive(Clone, Copy, Debug, PartialEq, Eq, PartialOrd, Ord, Hash)]
#[repr(u8)]
pub enum Refusal {
    BadTables = 1,
    NoSuchJob,
    NoSuchCpu,
    MalformedRecord,
    UnknownPolicy,
    DoesNotFit,
    NothingAllowed,
    NoRoom,
    NothingEffective,
    NotHeld,
    OutputTooShort,
    BadText,
    DamagedJournal,
    /// A free count disagrees with the page table: a node counted above 0 has no free page, or a release would count more
    /// free pages than its node has; a drain looks at every count. Count the free pages of each node anew, or call `fresh` when
    /// no page is in use.
    WrongCount,
    /// The job's map is none: empty, with a node twice or one that the machine does not have, or with a node after its end.
    /// The administrator sets it anew by `set_map`. Or the list of `keep_nodes` or `set_map` is no good one.
    BadMap,
    /// The note is none: its counts and sizes do not fit its bytes, or one of its lists is bad: over 16 names, a name of no
    /// byte or of over 15, one of text, data and any, or ANY before the last. Or a list of `write_note` is such a one.
    BadNote,
    /// A page of the node that is drained has nowhere to go: its job may use no other node that can be reached and has room, or
    /// its byte names no job, or the job's record or map is none. Let the job use more nodes (`rebind`, `set_map`), make room,
    /// or release the page; then drain again.
    NowhereToGo,
}

impl Refusal {
    /// Every refusal there is.
    pub const ALL: [Refusal; 17] = [
        Refusal::BadTables,
        Refusal::NoSuchJob,
        Refusal::NoSuchCpu,
        Refusal::MalformedRecord,
        Refusal::UnknownPolicy,
        Refusal::DoesNotFit,
        Refusal::NothingAllowed,
        Refusal::NoRoom,
        Refusal::NothingEffective,
        Refusal::NotHeld,
        Refusal::OutputTooShort,
        Refusal::BadText,
        Refusal::DamagedJournal,
        Refusal::WrongCount,
        Refusal::BadMap,
        Refusal::BadNote,
        Refusal::NowhereToGo,
    ];

    /// Its number in the papers.
    pub fn number(self) -> u8 {
        self as u8
    }

    /// The refusal of a number.
    pub fn of_number(number: u8) -> Option<Refusal> {
        Refusal::ALL.into_iter().find(|refusal| refusal.number() == number)
    }
}

impl fmt::Display for Refusal {
    fn fmt(&self, to: &mut fmt::Formatter) -> fmt::Result {
        write!(to, "refusal {} ({self:?})", self.number())
    }
}

#[cfg(test)]
mod tests {
    use super::*;

    #[test]
    fn numbers_go_from_1_to_17() {
        for (index, refusal) in Refusal::ALL.into_iter().enumerate() {
            assert_eq!(usize::from(refusal.number()), index + 1);
            assert_eq!(Refusal::of_number(refusal.number()), Some(refusal));
        }
        assert_eq!(Refusal::of_number(0), None);
        assert_eq!(Refusal::of_number(18), None);
    }
}
