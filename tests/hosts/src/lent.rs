//! Lent memory with marked cells on both sides, so that a write beside it shows.

use reference::calls::Tables;

/// The marked cells on each side.
const BESIDE: usize = 24;

/// A table in the middle of a longer one.
#[derive(Clone, Debug, PartialEq, Eq)]
pub struct Lent<T> {
    cells: Vec<T>,
    mark: T,
}

impl<T: Copy + PartialEq> Lent<T> {
    /// The values between marks.
    pub fn new(values: &[T], mark: T) -> Lent<T> {
        let mut cells = vec![mark; BESIDE];
        cells.extend_from_slice(values);
        cells.extend_from_slice(&[mark; BESIDE]);
        Lent { cells, mark }
    }

    /// The part that is lent.
    pub fn now(&self) -> &[T] {
        &self.cells[BESIDE..self.cells.len() - BESIDE]
    }

    /// The part that is lent, to be written.
    pub fn now_mut(&mut self) -> &mut [T] {
        let end = self.cells.len() - BESIDE;
        &mut self.cells[BESIDE..end]
    }

    /// Nothing beside the lent part was written.
    pub fn marks_stand(&self) -> bool {
        let end = self.cells.len() - BESIDE;
        self.cells[..BESIDE].iter().chain(&self.cells[end..]).all(|cell| *cell == self.mark)
    }

    /// Exactly these values, and nothing written beside them.
    pub fn is(&self, values: &[T]) -> bool {
        self.now() == values && self.marks_stand()
    }
}

/// All tables as they are lent to the library.
#[derive(Clone, Debug, PartialEq, Eq)]
pub struct LentTables {
    pub counts: Lent<u32>,
    pub cpus: Lent<u8>,
    pub distances: Lent<u8>,
    pub pages: Lent<u8>,
    pub jobs: Lent<u64>,
    pub free: Lent<u32>,
    pub maps: Lent<u8>,
}

impl LentTables {
    /// The tables; marks are free pages, good nodes, fresh words, counts above 0 and ends of maps, so that a read beside them
    /// shows too.
    pub fn new(tables: &Tables) -> LentTables {
        LentTables {
            counts: Lent::new(&tables.counts, 1),
            cpus: Lent::new(&tables.cpus, 0),
            distances: Lent::new(&tables.distances, 10),
            pages: Lent::new(&tables.pages, 0),
            jobs: Lent::new(&tables.jobs, 0),
            free: Lent::new(&tables.free, 1),
            maps: Lent::new(&tables.maps, 0xFF),
        }
    }

    /// The name of a table that differs or was written beside, if there is one.
    pub fn difference(&self, tables: &Tables) -> Option<&'static str> {
        let same = [
            ("page counts", self.counts.is(&tables.counts)),
            ("cpus", self.cpus.is(&tables.cpus)),
            ("distances", self.distances.is(&tables.distances)),
            ("pages", self.pages.is(&tables.pages)),
            ("jobs", self.jobs.is(&tables.jobs)),
            ("free counts", self.free.is(&tables.free)),
            ("maps", self.maps.is(&tables.maps)),
        ];
        same.into_iter().find(|(_, same)| !same).map(|(name, _)| name)
    }
}
