//! Why a node would serve a request, or not.

use std::fmt;

/// The reasons that `reasons` writes, in the order of their numbers: of each node the first that fits.
#[derive(Clone, Copy, Debug, PartialEq, Eq, PartialOrd, Ord, Hash)]
#[repr(u8)]
pub enum Reason {
    /// To the job; or it is outside the job's map.
    NotAllowed = 1,
    /// Of a bind mask. A static one of which nothing is left is none.
    OutsideBind,
    /// In modes 0 to 3: from the node that the search begins at.
    Unreachable,
    /// In modes 4 to 6: by any place; where a closing `AppNode::ANY` stands, nor reachable from the CPU's node.
    NotNamed,
    /// Counted 0.
    Full,
    /// The page would come from here.
    Chosen,
    /// It had room, but its turn came after the chosen one's.
    Later,
}

impl Reason {
    /// Every reason there is.
    pub const ALL: [Reason; 7] = [
        Reason::NotAllowed,
        Reason::OutsideBind,
        Reason::Unreachable,
        Reason::NotNamed,
        Reason::Full,
        Reason::Chosen,
        Reason::Later,
    ];

    /// Its number, as `reasons` writes it.
    pub fn number(self) -> u8 {
        self as u8
    }

    /// The reason of a number.
    pub fn of_number(number: u8) -> Option<Reason> {
        Reason::ALL.into_iter().find(|reason| reason.number() == number)
    }

    /// In words.
    pub fn words(self) -> &'static str {
        match self {
            Reason::NotAllowed => "not allowed",
            Reason::OutsideBind => "outside the bind set",
            Reason::Unreachable => "unreachable",
            Reason::NotNamed => "named by no place",
            Reason::Full => "full",
            Reason::Chosen => "chosen",
            Reason::Later => "had room but came later",
        }
    }
}

impl fmt::Display for Reason {
    fn fmt(&self, to: &mut fmt::Formatter) -> fmt::Result {
        self.words().fmt(to)
    }
}

#[cfg(test)]
mod tests {
    use super::*;

    #[test]
    fn numbers_go_from_1_to_7() {
        for (index, reason) in Reason::ALL.into_iter().enumerate() {
            assert_eq!(usize::from(reason.number()), index + 1);
            assert_eq!(Reason::of_number(reason.number()), Some(reason));
        }
        assert_eq!((Reason::of_number(0), Reason::of_number(8)), (None, None));
        assert_eq!(format!("{:>8}|{}", Reason::Full, Reason::Later), "    full|had room but came later");
    }
}
