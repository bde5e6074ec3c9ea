//! The machine: nodes, pages, CPUs, distances, and the lengths of the tables.

use crate::record::WORDS;

/// "N nodes, 1 to 64" (The machine).
pub const MOST_NODES: usize = 64;
/// "Each has 0 to 65,536 pages" (The machine).
pub const MOST_PAGES_OF_A_NODE: u32 = 65_536;
/// "at most 1,048,576 together" (The machine).
pub const MOST_PAGES: u64 = 1_048_576;
/// "The CPU table has 1 to 256 bytes" (The machine).
pub const MOST_CPUS: usize = 256;
/// "six to a job, 1 to 64 jobs" (A job's record).
pub const MOST_JOBS: usize = 64;
/// The distance of a node to itself, and the smallest there is (The machine).
pub const NEAREST: u8 = 10;
/// "255 for unreachable" (The machine).
pub const UNREACHABLE: u8 = 255;
/// "0 is free" (The machine).
pub const FREE: u8 = 0;
/// How many colours of pages there are: "mod 4" (M-105).
pub const COLOURS: usize = 4;

/// N lies in 1 to 64 (The machine; refusal 1).
pub fn nodes_fit(nodes: usize) -> bool {
    nodes >= 1 && nodes <= MOST_NODES
}

/// All pages of all nodes together (The machine).
pub fn all_pages(counts: &[u32]) -> u64 {
    let mut total: u64 = 0;
    for count in counts {
        total = total.saturating_add(u64::from(*count));
    }
    total
}

/// The page counts keep the rules (The machine; refusal 1).
pub fn counts_fit(counts: &[u32]) -> bool {
    if !nodes_fit(counts.len()) {
        return false;
    }
    for count in counts {
        if *count > MOST_PAGES_OF_A_NODE {
            return false;
        }
    }
    all_pages(counts) <= MOST_PAGES
}

/// The CPU table has 1 to 256 bytes, each a node below N (The machine; refusal 1).
pub fn cpus_fit(nodes: usize, cpus: &[u8]) -> bool {
    if cpus.is_empty() || cpus.len() > MOST_CPUS {
        return false;
    }
    for node in cpus {
        if usize::from(*node) >= nodes {
            return false;
        }
    }
    true
}

/// N x N bytes, 10 on the diagonal, 10 to 255 elsewhere (The machine; refusal 1).
pub fn distances_fit(nodes: usize, distances: &[u8]) -> bool {
    if !nodes_fit(nodes) || distances.len() != nodes * nodes {
        return false;
    }
    for from in 0..nodes {
        for to in 0..nodes {
            let distance = distances[from * nodes + to];
            if from == to && distance != NEAREST {
                return false;
            }
            if distance < NEAREST {
                return false;
            }
        }
    }
    true
}

/// At least as many bytes as there are pages (The machine; refusal 1).
pub fn pages_fit(counts: &[u32], pages: &[u8]) -> bool {
    (pages.len() as u64) >= all_pages(counts)
}

/// The job table has six words to a job, 1 to 64 jobs (A job's record; refusal 1).
pub fn jobs_fit(jobs: &[u64]) -> bool {
    if jobs.len() % WORDS != 0 {
        return false;
    }
    let how_many = jobs.len() / WORDS;
    how_many >= 1 && how_many <= MOST_JOBS
}

/// "one 32-bit free count per node"; "A table not of N entries is refusal 1" (M-100).
pub fn free_fits(counts: &[u32], free: &[u32]) -> bool {
    free.len() == counts.len()
}

/// What refusal 1 looks at in a request: all tables (Refusal numbers); the free counts apart.
pub fn request_tables_fit(counts: &[u32], cpus: &[u8], distances: &[u8], pages: &[u8], jobs: &[u64]) -> bool {
    counts_fit(counts)
        && cpus_fit(counts.len(), cpus)
        && distances_fit(counts.len(), distances)
        && pages_fit(counts, pages)
        && jobs_fit(jobs)
}

/// What refusal 1 looks at in a release: page counts, page and job table (Refusal numbers); the free counts apart.
pub fn release_tables_fit(counts: &[u32], pages: &[u8], jobs: &[u64]) -> bool {
    counts_fit(counts) && pages_fit(counts, pages) && jobs_fit(jobs)
}

/// What refusal 1 looks at where a fresh table is made: page counts, page table and free counts (M-100).
pub fn fresh_tables_fit(counts: &[u32], pages: &[u8], free: &[u32]) -> bool {
    counts_fit(counts) && pages_fit(counts, pages) && free_fits(counts, free)
}

/// What refusal 1 looks at elsewhere: N and the job table (Refusal numbers).
pub fn policy_tables_fit(nodes: usize, jobs: &[u64]) -> bool {
    nodes_fit(nodes) && jobs_fit(jobs)
}

/// "Pages are numbered through: node 0 first, then node 1" (The machine).
pub fn first_page(counts: &[u32], node: usize) -> usize {
    let mut first = 0;
    for earlier in 0..node {
        first += counts[earlier] as usize;
    }
    first
}

/// The lowest free page of a node, if it has one (Search order).
pub fn lowest_free_page(counts: &[u32], pages: &[u8], node: usize) -> Option<usize> {
    let first = first_page(counts, node);
    let past = first + counts[node] as usize;
    for page in first..past {
        if pages[page] == FREE {
            return Some(page);
        }
    }
    None
}

/// "the lowest free page whose offset in its node, mod 4, equals the job number mod 4; failing that, the lowest free page"
/// (M-105). The offset is the page's number less its node's first page.
pub fn page_for_job(counts: &[u32], pages: &[u8], node: usize, job: usize) -> Option<usize> {
    let first = first_page(counts, node);
    for offset in 0..counts[node] as usize {
        let page = first + offset;
        if pages[page] == FREE && offset % COLOURS == job % COLOURS {
            return Some(page);
        }
    }
    lowest_free_page(counts, pages, node)
}

/// The number of free pages of each node, which matching counts are (M-100). Pages that a short table lacks are not free.
pub fn free_counts(counts: &[u32], pages: &[u8]) -> Vec<u32> {
    let mut free = Vec::new();
    let mut first = 0;
    for count in counts {
        let of_node = pages.iter().skip(first).take(*count as usize);
        free.push(of_node.filter(|byte| **byte == FREE).count() as u32);
        first += *count as usize;
    }
    free
}

/// The node a page lies in; none if the page is out of range (The machine).
pub fn node_of_page(counts: &[u32], page: usize) -> Option<usize> {
    for node in 0..counts.len() {
        let first = first_page(counts, node);
        let past = first + counts[node] as usize;
        if page >= first && page < past {
            return Some(node);
        }
    }
    None
}

/// "j + 1 is held by job j" (The machine).
pub fn byte_of_job(job: usize) -> u8 {
    (job + 1) as u8
}

#[cfg(test)]
mod tests {
    use super::*;

    #[test]
    fn counts_at_the_limits() {
        assert!(counts_fit(&[65_536; 16]));
        assert!(!counts_fit(&[65_537]));
        assert!(!counts_fit(&[]));
        assert!(counts_fit(&[0; 64]));
        assert!(!counts_fit(&[0; 65]));
        let mut one_too_many = vec![65_536; 16];
        one_too_many.push(1);
        assert!(!counts_fit(&one_too_many));
        assert!(!counts_fit(&[u32::MAX; 64]));
    }

    #[test]
    fn cpus_at_the_limits() {
        assert!(cpus_fit(1, &[0; 256]));
        assert!(!cpus_fit(1, &[0; 257]));
        assert!(!cpus_fit(1, &[]));
        assert!(!cpus_fit(4, &[0, 4]));
        assert!(cpus_fit(4, &[0, 3]));
    }

    #[test]
    fn distances_at_the_limits() {
        assert!(distances_fit(1, &[10]));
        assert!(!distances_fit(1, &[11]));
        assert!(!distances_fit(1, &[10, 10]));
        assert!(distances_fit(2, &[10, 255, 10, 10]));
        assert!(!distances_fit(2, &[10, 9, 10, 10]));
        assert!(!distances_fit(2, &[10, 10, 10]));
    }

    #[test]
    fn job_table_lengths() {
        assert!(!jobs_fit(&[]));
        assert!(!jobs_fit(&[0; 5]));
        assert!(jobs_fit(&[0; 6]));
        assert!(!jobs_fit(&[0; 7]));
        assert!(jobs_fit(&[0; 384]));
        assert!(!jobs_fit(&[0; 390]));
    }

    #[test]
    fn pages_are_numbered_through() {
        let counts = [2, 0, 3];
        assert_eq!(node_of_page(&counts, 0), Some(0));
        assert_eq!(node_of_page(&counts, 1), Some(0));
        assert_eq!(node_of_page(&counts, 2), Some(2));
        assert_eq!(node_of_page(&counts, 4), Some(2));
        assert_eq!(node_of_page(&counts, 5), None);
        assert_eq!(lowest_free_page(&counts, &[1, 0, 9, 255, 0], 2), Some(4));
        assert_eq!(lowest_free_page(&counts, &[1, 0, 9, 255, 0], 1), None);
    }

    #[test]
    fn a_page_of_the_jobs_colour_by_its_offset() {
        let counts = [3, 0, 6];
        let all_free = [0; 9];
        for (job, page) in [(0, 3), (1, 4), (2, 5), (3, 6), (4, 3), (5, 4), (63, 6)] {
            assert_eq!(page_for_job(&counts, &all_free, 2, job), Some(page), "job {job}");
        }
        // The lowest of the colour; with the colour gone, the lowest of all.
        assert_eq!(page_for_job(&counts, &[0, 0, 0, 9, 0, 0, 0, 0, 0], 2, 4), Some(7));
        assert_eq!(page_for_job(&counts, &[0, 0, 0, 9, 0, 0, 0, 9, 0], 2, 4), Some(4));
        assert_eq!(page_for_job(&counts, &all_free, 0, 3), Some(0));
        assert_eq!(page_for_job(&counts, &all_free, 1, 0), None);
        assert_eq!(page_for_job(&counts, &[0, 0, 0, 1, 2, 3, 4, 5, 255], 2, 1), None);
    }

    #[test]
    fn free_pages_are_counted_node_by_node() {
        assert_eq!(free_counts(&[2, 0, 3], &[1, 0, 9, 255, 0]), [1, 0, 1]);
        assert_eq!(free_counts(&[2, 0, 3], &[0; 9]), [2, 0, 3]);
        assert_eq!(free_counts(&[2, 0, 3], &[0; 4]), [2, 0, 2]);
        assert_eq!(free_counts(&[u32::MAX; 3], &[0; 4]), [4, 0, 0]);
        assert_eq!(free_counts(&[], &[0; 4]), Vec::<u32>::new());
    }
}
