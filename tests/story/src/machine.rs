//! The first lines of a script: `machine`, `pages`, `cpus` and a `distance` line for each node.

use reference::calls::Tables;
use reference::journal::{JOBS, MOST_CPUS, MOST_NODES, MOST_PAGES};
use reference::maps::identity_maps;
use reference::record::WORDS;

use crate::call::number;
use crate::script::{Fault, Words};

/// The lines still to be read, and the fault if there are no more.
pub struct Reader<'a, I: Iterator<Item = Words<'a>>> {
    pub lines: I,
    pub end: Fault,
}

impl<'a, I: Iterator<Item = Words<'a>>> Reader<'a, I> {
    /// The next line, which begins with a word.
    fn line(&mut self, word: &str, expected: &str) -> Result<Words<'a>, Fault> {
        match self.lines.next() {
            None => Err(Fault { expected: expected.to_string(), ..self.end.clone() }),
            Some(line) if line.words[0] == word => Ok(line),
            Some(line) => Err(line.fault(expected)),
        }
    }

    /// The next line: a word, then numbers that please.
    fn numbers(
        &mut self,
        word: &str,
        expected: String,
        most: u64,
        good: impl Fn(&[u64]) -> bool,
    ) -> Result<Vec<u64>, Fault> {
        let line = self.line(word, &expected)?;
        let numbers: Option<Vec<u64>> = line.words[1..].iter().map(|word| number(word, most)).collect();
        match numbers {
            Some(numbers) if good(&numbers) => Ok(numbers),
            _ => Err(line.fault(expected)),
        }
    }

    /// The machine: its name and its tables, all pages free and counted, all jobs fresh and numbering nodes as it does.
    pub fn machine(&mut self) -> Result<(String, Tables), Fault> {
        let name = self.line("machine", "`machine` and a name or nothing")?.words[1..].join(" ");
        let expected = format!("`pages` and the pages of 1 to {MOST_NODES} nodes, at most {MOST_PAGES} together");
        let counts = self.numbers("pages", expected, MOST_PAGES, |counts| {
            (1..=MOST_NODES).contains(&counts.len()) && counts.iter().sum::<u64>() <= MOST_PAGES
        })?;
        let nodes = counts.len();
        let expected = format!("`cpus` and the node (0 to {}) of 1 to {MOST_CPUS} CPUs", nodes - 1);
        let cpus = self.numbers("cpus", expected, nodes as u64 - 1, |cpus| (1..=MOST_CPUS).contains(&cpus.len()))?;
        let mut distances = Vec::new();
        for node in 0..nodes {
            distances.extend(self.distances(nodes, node)?);
        }
        let pages = vec![0; counts.iter().sum::<u64>() as usize];
        let counts: Vec<u32> = counts.into_iter().map(|count| count as u32).collect();
        let cpus = cpus.into_iter().map(|node| node as u8).collect();
        let (free, maps) = (counts.clone(), identity_maps(nodes, JOBS));
        Ok((name, Tables { counts, cpus, distances, pages, jobs: vec![0; JOBS * WORDS], free, maps }))
    }

    /// The distances from one node.
    fn distances(&mut self, nodes: usize, node: usize) -> Result<Vec<u8>, Fault> {
        let expected = format!("`distance` and {nodes} distances from node {node}: 10 to itself, else 10 to 255");
        let row = self.numbers("distance", expected, 255, |row| {
            row.len() == nodes && row[node] == 10 && row.iter().all(|distance| *distance >= 10)
        })?;
        Ok(row.into_iter().map(|distance| distance as u8).collect())
    }
}
