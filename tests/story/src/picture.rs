//! The nodes in plain text: a mark for each page, or for a few where a node is long.

/// A page that is free, and one held by no job there may be.
const FREE: char = '.';
const NOBODY: char = '#';
/// A mark that stands for pages of different holders.
const MIXED: char = '+';
/// The marks of jobs 0 to 63.
const JOBS: &[u8; 64] = b"0123456789ABCDEFGHIJKLMNOPQRSTUVWXYZabcdefghijklmnopqrstuvwxyz@&";
/// The marks in a row of the picture.
const ROW: usize = 64;
/// The marks in a strip.
const STRIP: usize = 48;

/// The mark of one page byte.
fn mark(byte: u8) -> char {
    match byte {
        0 => FREE,
        1..=64 => char::from(JOBS[usize::from(byte) - 1]),
        _ => NOBODY,
    }
}

/// A node's pages in at most so many marks.
fn marks(pages: &[u8], most: usize) -> String {
    let together = pages.len().div_ceil(most.max(1)).max(1);
    pages
        .chunks(together)
        .map(|some| {
            let first = mark(some[0]);
            if some.iter().all(|byte| mark(*byte) == first) {
                first
            } else {
                MIXED
            }
        })
        .collect()
}

/// The pages of each node.
fn nodes<'a>(counts: &[u32], pages: &'a [u8]) -> Vec<&'a [u8]> {
    let mut rest = pages;
    let mut nodes = Vec::new();
    for count in counts {
        let (node, others) = rest.split_at((*count as usize).min(rest.len()));
        nodes.push(node);
        rest = others;
    }
    nodes
}

/// All nodes in one line.
pub fn strip(counts: &[u32], pages: &[u8]) -> String {
    let most = STRIP / counts.len().max(1);
    let mut line = String::from("|");
    for node in nodes(counts, pages) {
        line.push_str(&marks(node, most));
        line.push('|');
    }
    line
}

/// A line for each node.
fn rows(counts: &[u32], pages: &[u8]) -> Vec<String> {
    let wide = counts.iter().max().map_or(1, |most| most.to_string().len());
    let row = |(node, pages): (usize, &[u8])| {
        let held = pages.iter().filter(|byte| **byte != 0).count();
        let all = pages.len();
        format!("node {node:2}  {held:wide$} of {all:wide$} held  |{}|", marks(pages, ROW))
    };
    nodes(counts, pages).into_iter().enumerate().map(row).collect()
}

/// The nodes, a line each.
pub fn picture(counts: &[u32], pages: &[u8]) -> String {
    rows(counts, pages).into_iter().map(|row| row + "\n").collect()
}

/// The nodes likewise, each with words.
pub fn picture_with(counts: &[u32], pages: &[u8], words: &[&str]) -> String {
    let rows = rows(counts, pages);
    let wide = rows.iter().map(String::len).max().unwrap_or(0);
    rows.iter().zip(words).map(|(row, words)| format!("      {row:wide$}  {words}\n")).collect()
}

#[cfg(test)]
mod tests {
    use super::*;

    #[test]
    fn one_mark_a_page() {
        assert_eq!(strip(&[2, 2, 0, 2], &[1, 0, 2, 11, 64, 200]), "|0.|1A||&#|");
        let lines = "node  0  1 of 2 held  |0.|\nnode  1  0 of 1 held  |.|\n";
        assert_eq!(picture(&[2, 1], &[1, 0, 0]), lines);
        let lines = "      node  0  1 of 2 held  |0.|  full\n      node  1  0 of 1 held  |.|   chosen\n";
        assert_eq!(picture_with(&[2, 1], &[1, 0, 0], &["full", "chosen"]), lines);
    }

    #[test]
    fn one_mark_for_many_pages() {
        let mut pages = vec![3; 100];
        pages.extend(vec![0; 100]);
        pages[0] = 4;
        assert_eq!(strip(&[200], &pages), format!("|+{}{}|", "2".repeat(19), ".".repeat(20)));
        let row = format!("|+{}{}|", "2".repeat(24), ".".repeat(25));
        assert_eq!(picture(&[200], &pages), format!("node  0  100 of 200 held  {row}\n"));
    }
}
