//! The lowest zero byte, as memchr finds it: whole blocks first; and the lowest of a colour (M-105).

/// Is there a zero in the block? No early exit, so that it becomes vectors.
fn has_zero(block: &[u8]) -> bool {
    block.iter().fold(false, |found, byte| found | (*byte == 0))
}

/// The lowest zero of a block of at most 16, or its length. No early exit here either.
fn lowest_in(block: &[u8]) -> usize {
    let length = block.len() as u8;
    let places = (0..length).zip(block).map(|(place, byte)| if *byte == 0 { place } else { length });
    usize::from(places.fold(length, u8::min))
}

/// The place of the lowest zero: the first byte, then blocks of 128, then of 16, then inside one of 16.
pub fn lowest_zero(bytes: &[u8]) -> Option<usize> {
    if bytes.first() == Some(&0) {
        return Some(0);
    }
    let mut at = 0;
    for size in [128, 16] {
        for block in bytes[at..].chunks_exact(size) {
            if has_zero(block) {
                break;
            }
            at += size;
        }
    }
    let last = &bytes[at..bytes.len().min(at + 16)];
    let more = lowest_in(last);
    (more < last.len()).then_some(at + more)
}

/// How many colours there are: a page's is its offset in the node, mod 4; a job's its number, mod 4.
pub const COLOURS: usize = 4;

/// For each colour a block with 0 at its places and 255 elsewhere.
const MASKS: [[u8; 128]; COLOURS] = {
    let mut masks = [[255; 128]; COLOURS];
    let mut place = 0;
    while place < 128 {
        masks[place % COLOURS][place] = 0;
        place += 1;
    }
    masks
};

/// Is there a zero of the colour in the block? No early exit.
fn has_zero_under(block: &[u8], mask: &[u8; 128]) -> bool {
    block.iter().zip(mask).fold(false, |found, (byte, mask)| found | (byte | mask == 0))
}

/// The place of the lowest zero of a colour: blocks of 128, then of 16, then every fourth byte.
pub fn lowest_of_colour(bytes: &[u8], colour: usize) -> Option<usize> {
    let mut at = 0;
    for size in [128, 16] {
        for block in bytes[at..].chunks_exact(size) {
            if has_zero_under(block, &MASKS[colour]) {
                break;
            }
            at += size;
        }
    }
    (at + colour..bytes.len()).step_by(COLOURS).find(|place| bytes[*place] == 0)
}

/// The zero that M-105 names: the lowest of the colour, else the lowest.
pub fn lowest_for(bytes: &[u8], colour: usize) -> Option<usize> {
    let lowest = lowest_free(bytes)?;
    if lowest % COLOURS == colour {
        return Some(lowest);
    }
    // Often the next of the colour is free too. The proved code takes no such look.
    let next = lowest + colour.wrapping_sub(lowest) % COLOURS;
    if cfg!(not(feature = "blocks")) && bytes.get(next) == Some(&0) {
        return Some(next);
    }
    // All before the lowest are held.
    let from = lowest - lowest % COLOURS;
    Some(lowest_of_colour(&bytes[from..], colour).map_or(lowest, |more| from + more))
}

/// The same where all bytes before `low` are held, and those of the colour before `from`, which is not below `low`. Often the
/// next page of the colour is free: one look finds it.
#[cfg(any(feature = "hints", test))]
pub fn lowest_for_from(bytes: &[u8], colour: usize, low: usize, from: usize) -> Option<usize> {
    let next = from + colour.wrapping_sub(from) % COLOURS;
    if bytes.get(next) == Some(&0) {
        return Some(next);
    }
    let below = || lowest_free(&bytes[low..from]).map(|more| low + more);
    let Some(lowest) = lowest_free(&bytes[from..]).map(|more| from + more) else { return below() };
    if lowest % COLOURS == colour {
        return Some(lowest);
    }
    let block = lowest - lowest % COLOURS;
    match lowest_of_colour(&bytes[block..], colour) {
        Some(more) => Some(block + more),
        None => below().or(Some(lowest)),
    }
}

/// The lowest zero, byte by byte.
pub fn lowest_zero_by_bytes(bytes: &[u8]) -> Option<usize> {
    bytes.iter().position(|byte| *byte == 0)
}

/// What is not plain Rust.
#[allow(unsafe_code)]
mod c {
    extern "C" {
        fn memchr(bytes: *const u8, byte: i32, length: usize) -> *const u8;
    }

    /// The same, by the C library.
    pub fn lowest_zero_by_memchr(bytes: &[u8]) -> Option<usize> {
        // SAFETY: memchr reads no byte outside the slice.
        let found = unsafe { memchr(bytes.as_ptr(), 0, bytes.len()) };
        (!found.is_null()).then(|| found as usize - bytes.as_ptr() as usize)
    }

    /// Loads all bytes, 16 at a time, and does nothing with them: no search with such loads takes less. Blocks of 128 only.
    pub fn load_all(bytes: &[u8]) {
        for block in bytes.chunks_exact(128) {
            // SAFETY: the eight loads read the 128 bytes of the block and change no memory.
            unsafe {
                std::arch::asm!(
                    "movdqu xmm0, [{0}]",
                    "movdqu xmm1, [{0} + 16]",
                    "movdqu xmm2, [{0} + 32]",
                    "movdqu xmm3, [{0} + 48]",
                    "movdqu xmm4, [{0} + 64]",
                    "movdqu xmm5, [{0} + 80]",
                    "movdqu xmm6, [{0} + 96]",
                    "movdqu xmm7, [{0} + 112]",
                    in(reg) block.as_ptr(),
                    out("xmm0") _, out("xmm1") _, out("xmm2") _, out("xmm3") _,
                    out("xmm4") _, out("xmm5") _, out("xmm6") _, out("xmm7") _,
                    options(nostack, readonly, preserves_flags),
                );
            }
        }
    }
}
pub use c::{load_all, lowest_zero_by_memchr};

// What the careful Rust searches by.
#[cfg(feature = "blocks")]
pub use lowest_zero as lowest_free;
#[cfg(not(feature = "blocks"))]
pub use lowest_zero_by_memchr as lowest_free;

#[cfg(test)]
mod tests {
    use super::*;

    /// What M-105 names, byte by byte.
    fn named(bytes: &[u8], colour: usize) -> Option<usize> {
        let zeros = (0..bytes.len()).filter(|place| bytes[*place] == 0);
        zeros.min_by_key(|place| (place % COLOURS != colour, *place))
    }

    #[test]
    fn every_pair_of_places_for_every_colour() {
        for length in [0, 1, 2, 3, 4, 5, 7, 15, 16, 17, 127, 128, 129, 143, 144, 150, 260] {
            let mut bytes = vec![7; length];
            for (low, high) in (0..length).flat_map(|low| (low..length).map(move |high| (low, high))) {
                (bytes[low], bytes[high]) = (0, 0);
                for colour in 0..COLOURS {
                    assert_eq!(lowest_for(&bytes, colour), named(&bytes, colour), "{length}: {low} {high} {colour}");
                }
                (bytes[low], bytes[high]) = (7, 7);
            }
            assert!((0..COLOURS).all(|colour| lowest_for(&bytes, colour).is_none()));
        }
    }

    /// With any hints that are true.
    #[test]
    fn hints_change_no_answer() {
        let mut dice = reference::generate::Dice::new(105);
        let mut asked = 0;
        for _ in 0..20_000 {
            let length = dice.between(1, 200);
            let percent = dice.pick(&[1, 5, 30, 90]);
            let bytes: Vec<u8> = (0..length).map(|_| if dice.chance(percent) { 0 } else { 9 }).collect();
            let colour = dice.below(COLOURS);
            let lowest = lowest_zero_by_bytes(&bytes).unwrap_or(length);
            let of_colour = (colour..length).step_by(COLOURS).find(|place| bytes[*place] == 0).unwrap_or(length);
            let low = dice.pick(&[0, lowest, dice.clone().below(lowest + 1)]);
            let from = dice.pick(&[0, of_colour, dice.clone().below(of_colour + 1)]).max(low);
            assert_eq!(lowest_for_from(&bytes, colour, low, from), named(&bytes, colour), "{bytes:?} {low} {from}");
            asked += u32::from(of_colour < length);
        }
        assert!(asked > 5_000, "{asked}");
    }

    #[test]
    fn every_place_of_every_length() {
        for length in 0..300 {
            let mut bytes = vec![7; length];
            assert_eq!(lowest_zero(&bytes), None);
            assert_eq!(lowest_zero_by_memchr(&bytes), None);
            for place in (0..length).rev() {
                bytes[place] = 0;
                assert_eq!(lowest_zero(&bytes), Some(place));
                assert_eq!(lowest_zero_by_memchr(&bytes), Some(place));
            }
        }
    }
}
