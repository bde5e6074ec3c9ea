//! The search for a free page of a node, by the job's colour (M-105), and where it begins.

use crate::machine::Starts;
use crate::search::lowest_for;

/// What is known of each node's pages from the calls before.
pub trait Hints {
    fn of(starts: &Starts) -> Self;
    /// The lowest free page of a node that has the colour, else the lowest.
    fn page(&self, starts: &Starts, pages: &[u8], node: usize, colour: usize) -> Option<usize>;
    /// That page is granted.
    fn take(&mut self, starts: &Starts, node: usize, colour: usize, page: usize);
    /// A page of a node is released.
    fn give(&mut self, starts: &Starts, node: usize, page: usize);
    /// Every page is free.
    fn give_all(&mut self, starts: &Starts);
}

/// A node's pages: where they begin, and they.
pub fn pages_of<'a>(starts: &Starts, pages: &'a [u8], node: usize) -> (usize, &'a [u8]) {
    let (start, end) = (starts[node] as usize, starts[node + 1] as usize);
    (start, &pages[start..end])
}

/// Nothing: each search begins at the node's first page.
pub struct First;

impl Hints for First {
    fn of(_: &Starts) -> First {
        First
    }
    fn page(&self, starts: &Starts, pages: &[u8], node: usize, colour: usize) -> Option<usize> {
        let (start, pages) = pages_of(starts, pages, node);
        lowest_for(pages, colour).map(|offset| start + offset)
    }
    fn take(&mut self, _: &Starts, _: usize, _: usize, _: usize) {}
    fn give(&mut self, _: &Starts, _: usize, _: usize) {}
    fn give_all(&mut self, _: &Starts) {}
}

#[cfg(any(feature = "hints", test))]
pub use hinted::Hinted;

#[cfg(any(feature = "hints", test))]
mod hinted {
    use super::{pages_of, Hints};
    use crate::machine::Starts;
    use crate::search::{lowest_for_from, COLOURS};

    /// Kept from call to call of a list, as the proved code does: for each node a page before which all its pages are held,
    /// and for each colour one before which those of the colour are.
    pub struct Hinted {
        low: Starts,
        of_colour: [[u32; COLOURS]; 64],
    }

    impl Hinted {
        /// Where the search for any page begins, and where that for one of the colour does.
        pub fn hints(&self, node: usize, colour: usize) -> (usize, usize) {
            let low = self.low[node];
            (low as usize, low.max(self.of_colour[node][colour]) as usize)
        }
    }

    impl Hints for Hinted {
        fn of(starts: &Starts) -> Hinted {
            Hinted { low: *starts, of_colour: [[0; COLOURS]; 64] }
        }
        fn page(&self, starts: &Starts, pages: &[u8], node: usize, colour: usize) -> Option<usize> {
            let ((start, pages), (low, from)) = (pages_of(starts, pages, node), self.hints(node, colour));
            lowest_for_from(pages, colour, low - start, from - start).map(|offset| start + offset)
        }
        fn take(&mut self, starts: &Starts, node: usize, colour: usize, page: usize) {
            if (page - starts[node] as usize) % COLOURS == colour {
                self.of_colour[node][colour] = page as u32 + 1;
            } else {
                // None of the colour is free, and this was the lowest.
                self.of_colour[node][colour] = starts[node + 1];
                self.low[node] = page as u32 + 1;
            }
        }
        fn give(&mut self, starts: &Starts, node: usize, page: usize) {
            let of_colour = &mut self.of_colour[node][(page - starts[node] as usize) % COLOURS];
            *of_colour = (*of_colour).min(page as u32);
            self.low[node] = self.low[node].min(page as u32);
        }
        fn give_all(&mut self, starts: &Starts) {
            *self = Hinted::of(starts);
        }
    }
}

// What the careful Rust keeps in a list.
#[cfg(feature = "hints")]
pub type InList = Hinted;
#[cfg(not(feature = "hints"))]
pub type InList = First;

#[cfg(test)]
mod tests {
    use super::*;

    #[test]
    fn no_page_before_a_hint_is_free() {
        let mut starts = [0; 65];
        starts[1..3].copy_from_slice(&[5, 13]);
        let mut hints = Hinted::of(&starts);
        let all = |hints: &Hinted| [0, 1, 2, 3].map(|colour| hints.hints(1, colour));
        // Page 7 has colour 2 in node 1, page 6 colour 1.
        hints.take(&starts, 1, 2, 7);
        assert_eq!(all(&hints), [(5, 5), (5, 5), (5, 8), (5, 5)]);
        hints.take(&starts, 1, 3, 6);
        assert_eq!(all(&hints), [(7, 7), (7, 7), (7, 8), (7, 13)]);
        hints.give(&starts, 1, 8);
        assert_eq!(all(&hints), [(7, 7), (7, 7), (7, 8), (7, 8)]);
        hints.give(&starts, 1, 5);
        assert_eq!(all(&hints), [(5, 5), (5, 5), (5, 8), (5, 8)]);
        assert_eq!(hints.hints(0, 3), (0, 0));
        hints.give_all(&starts);
        assert_eq!(all(&hints), [(5, 5); 4]);
    }
}
