//! Node-list text: the reader and the writer.

use crate::machine::nodes_fit;
use crate::masks::{all_below, has, lies_below, node_of_rank, size, with};

/// "Up to 255 bytes, longer is 12" (Node-list text).
pub const LONGEST_TEXT: usize = 255;

/// How the items of a text are meant (Node-list text).
#[derive(Clone, Copy, PartialEq, Eq)]
enum Sign {
    Plain,
    Not,
    Rank,
}

/// "an optional `!` or `+`" (Node-list text).
fn split_sign(text: &[u8]) -> (Sign, &[u8]) {
    match text.first() {
        Some(b'!') => (Sign::Not, &text[1..]),
        Some(b'+') => (Sign::Rank, &text[1..]),
        _ => (Sign::Plain, text),
    }
}

/// "Numbers have no leading zero (0 itself is fine) and lie below N" (Node-list text).
fn number(digits: &[u8], limit: usize) -> Option<usize> {
    if digits.is_empty() {
        return None;
    }
    if digits.len() > 1 && digits[0] == b'0' {
        return None;
    }
    let mut value: usize = 0;
    for digit in digits {
        if !digit.is_ascii_digit() {
            return None;
        }
        value = value * 10 + usize::from(*digit - b'0');
        if value >= limit {
            return None;
        }
    }
    Some(value)
}

/// "a number or a-b with a at most b" (Node-list text).
fn item(bytes: &[u8], limit: usize) -> Option<(usize, usize)> {
    let parts: Vec<&[u8]> = bytes.split(|byte| *byte == b'-').collect();
    if parts.len() == 1 {
        let only = number(parts[0], limit)?;
        return Some((only, only));
    }
    if parts.len() == 2 {
        let a = number(parts[0], limit)?;
        let b = number(parts[1], limit)?;
        if a <= b {
            return Some((a, b));
        }
    }
    None
}

/// "one or more items split by single commas" (Node-list text).
fn items(bytes: &[u8], limit: usize) -> Option<u64> {
    let mut named = 0;
    for one in bytes.split(|byte| *byte == b',') {
        let (a, b) = item(one, limit)?;
        for value in a..=b {
            named = with(named, value);
        }
    }
    Some(named)
}

/// "`!` takes all nodes below N not named" (Node-list text).
fn all_not_named(nodes: usize, named: u64) -> u64 {
    all_below(nodes) & !named
}

/// "after `+` they are ranks in the allowed set" (Node-list text).
fn nodes_of_ranks(allowed: u64, ranks: u64) -> u64 {
    let mut mask = 0;
    for rank in 0..64 {
        if has(ranks, rank) {
            if let Some(node) = node_of_rank(allowed, rank) {
                mask = with(mask, node);
            }
        }
    }
    mask
}

/// The mask a text stands for, or nothing if the text is bad (Node-list text).
fn meaning(nodes: usize, allowed: u64, text: &[u8]) -> Option<u64> {
    if text.len() > LONGEST_TEXT {
        return None;
    }
    if text.is_empty() {
        return Some(0);
    }
    if text == b"all" {
        return Some(allowed);
    }
    let (sign, rest) = split_sign(text);
    match sign {
        Sign::Plain => items(rest, nodes),
        Sign::Not => Some(all_not_named(nodes, items(rest, nodes)?)),
        Sign::Rank => Some(nodes_of_ranks(allowed, items(rest, size(allowed))?)),
    }
}

/// Reads a node list: refusals in the order 1, 6, 12 (Node-list text).
pub fn read_nodes(nodes: usize, allowed: u64, text: &[u8]) -> Result<u64, u8> {
    if !nodes_fit(nodes) {
        return Err(1);
    }
    if !lies_below(allowed, nodes) {
        return Err(6);
    }
    match meaning(nodes, allowed, text) {
        Some(mask) => Ok(mask),
        None => Err(12),
    }
}

/// "ascending maximal runs" (Node-list text).
fn maximal_runs(mask: u64) -> Vec<(usize, usize)> {
    let mut runs: Vec<(usize, usize)> = Vec::new();
    for node in 0..64 {
        if !has(mask, node) {
            continue;
        }
        match runs.last_mut() {
            Some(run) if run.1 + 1 == node => run.1 = node,
            _ => runs.push((node, node)),
        }
    }
    runs
}

/// The text of a mask, "`4-5` for two neighbours" (Node-list text).
fn text_of(mask: u64) -> Vec<u8> {
    let mut parts: Vec<String> = Vec::new();
    for (a, b) in maximal_runs(mask) {
        if a == b {
            parts.push(format!("{a}"));
        } else {
            parts.push(format!("{a}-{b}"));
        }
    }
    parts.join(",").into_bytes()
}

/// Writes a node list: refusals in the order 1, 6, 11; "changes no output byte past the text" (Node-list text).
pub fn write_nodes(nodes: usize, mask: u64, out: &mut [u8]) -> Result<usize, u8> {
    if !nodes_fit(nodes) {
        return Err(1);
    }
    if !lies_below(mask, nodes) {
        return Err(6);
    }
    let text = text_of(mask);
    if out.len() < text.len() {
        return Err(11);
    }
    for index in 0..text.len() {
        out[index] = text[index];
    }
    Ok(text.len())
}

#[cfg(test)]
mod tests {
    use super::*;
    use crate::generate::Dice;

    /// Reads with N 8 and nodes 2-5 allowed.
    fn read_8(text: &str) -> Result<u64, u8> {
        read_nodes(8, 0b0011_1100, text.as_bytes())
    }

    #[test]
    fn accepted_texts() {
        assert_eq!(read_8(""), Ok(0));
        assert_eq!(read_8("all"), Ok(0b0011_1100));
        assert_eq!(read_8("0"), Ok(1));
        assert_eq!(read_8("7"), Ok(0b1000_0000));
        assert_eq!(read_8("1-1"), Ok(0b10));
        assert_eq!(read_8("5,3,3-5"), Ok(0b0011_1000));
        assert_eq!(read_8("!0-7"), Ok(0));
        assert_eq!(read_8("!0"), Ok(0b1111_1110));
        assert_eq!(read_8("+0,3"), Ok(0b0010_0100));
    }

    #[test]
    fn bad_texts() {
        for bad in [
            "8",
            "!8",
            "+4",
            "+0-4",
            ",",
            ",1",
            "1,,2",
            "-",
            "1-",
            "-1",
            "1-2-3",
            "--",
            "!",
            "+",
            "!!1",
            "+!1",
            "!+1",
            "++1",
            "+all",
            "all,1",
            "1,all",
            "ALL",
            "All",
            "al",
            "alll",
            " 1",
            "1 ",
            "1, 2",
            "00",
            "0-01",
            "1\0",
            "1\n",
            "a",
            "0x1",
            "1.",
            "18446744073709551616",
            "18446744073709551617",
            "4294967296",
            "256",
            "264",
            "1!",
            "1+2",
        ] {
            assert_eq!(read_8(bad), Err(12), "{bad:?}");
        }
        assert_eq!(read_nodes(8, 0b0011_1100, &[0xFF]), Err(12));
        assert_eq!(read_nodes(8, 0b0011_1100, &[b'1', 0x80]), Err(12));
    }

    #[test]
    fn with_nothing_allowed() {
        assert_eq!(read_nodes(8, 0, b"all"), Ok(0));
        assert_eq!(read_nodes(8, 0, b"+0"), Err(12));
        assert_eq!(read_nodes(8, 0, b"!1"), Ok(0b1111_1101));
    }

    #[test]
    fn refusals_1_and_6_come_first() {
        assert_eq!(read_nodes(0, u64::MAX, b"x"), Err(1));
        assert_eq!(read_nodes(65, 0, b"0"), Err(1));
        assert_eq!(read_nodes(usize::MAX, 0, b"0"), Err(1));
        assert_eq!(read_nodes(8, 0b1_0000_0000, b"x"), Err(6));
        assert_eq!(read_nodes(8, 0b1_0000_0000, b""), Err(6));
        assert_eq!(read_nodes(8, 0b1_0000_0000, &[b'0'; 256]), Err(6));
        assert_eq!(write_nodes(0, u64::MAX, &mut []), Err(1));
        assert_eq!(write_nodes(8, 0b1_0000_0000, &mut []), Err(6));
    }

    #[test]
    fn lengths_255_and_256() {
        let mut text: Vec<u8> = b"0,".repeat(127);
        text.push(b'3');
        assert_eq!(text.len(), 255);
        assert_eq!(read_nodes(64, 0, &text), Ok(0b1001));
        text.push(b'1');
        assert_eq!(read_nodes(64, 0, &text), Err(12));
        assert_eq!(read_nodes(64, 0, &vec![b'0'; 1_000_000]), Err(12));
    }

    /// Writes into 130 marked bytes and gives the text, checking the bytes past it.
    fn written(nodes: usize, mask: u64) -> String {
        let mut out = [0xA5; 130];
        let length = write_nodes(nodes, mask, &mut out).unwrap();
        assert!(out[length..].iter().all(|byte| *byte == 0xA5));
        String::from_utf8(out[..length].to_vec()).unwrap()
    }

    #[test]
    fn written_texts() {
        assert_eq!(written(8, 0), "");
        assert_eq!(written(8, 0b0011_0000), "4-5");
        assert_eq!(written(8, 0b1100_1111), "0-3,6-7");
        assert_eq!(written(8, 0b0101_0101), "0,2,4,6");
        assert_eq!(written(64, u64::MAX), "0-63");
        assert_eq!(written(64, 1 << 63), "63");
    }

    #[test]
    fn the_writer_needs_exactly_the_text() {
        let mut out = [7; 6];
        assert_eq!(write_nodes(8, 0b1100_1111, &mut out), Err(11));
        assert_eq!(out, [7; 6]);
        let mut out = [7; 7];
        assert_eq!(write_nodes(8, 0b1100_1111, &mut out), Ok(7));
        assert_eq!(&out, b"0-3,6-7");
        assert_eq!(write_nodes(8, 0, &mut []), Ok(0));
    }

    #[test]
    fn the_longest_text_has_121_bytes() {
        let mut longest = 0;
        for shape in 0..4096u64 {
            let mut mask = 0;
            for node in 0..64 {
                if (shape >> (node % 12)) & 1 == 1 {
                    mask = with(mask, node);
                }
            }
            longest = longest.max(text_of(mask).len());
        }
        assert_eq!(longest, 121);
    }

    #[test]
    fn reading_back_gives_the_same_mask() {
        let mut dice = Dice::new(7);
        for _ in 0..20_000 {
            let nodes = 1 + dice.below(64);
            let mask = dice.mask() & all_below(nodes);
            let text = written(nodes, mask);
            assert_eq!(read_nodes(nodes, 0, text.as_bytes()), Ok(mask), "{text}");
        }
    }
}
