//! Node-list text by the linked library and by the second implementation.

use hosts::{read_by_both, seeds, write_by_both, NUMBERS};
use reference::generate::{text_case, write_case, TextCase, WriteCase};

#[test]
fn texts_are_read_alike() {
    let mut read_well = 0;
    let mut refused = [0; NUMBERS];
    let mut longest = 0;
    for seed in seeds(20_000) {
        let TextCase { nodes, allowed, text } = text_case(seed);
        longest = longest.max(text.len());
        match read_by_both(&format!("text seed {seed}"), nodes, allowed, &text) {
            Ok(_) => read_well += 1,
            Err(number) => refused[usize::from(number)] += 1,
        }
    }
    println!("{read_well} read, refused {refused:?}");
    assert!(read_well > 5_000 && refused[1] > 200 && refused[6] > 200 && refused[12] > 2_000);
    assert_eq!(longest, 1_000_000);
}

#[test]
fn masks_are_written_alike_and_read_back() {
    let mut written = 0;
    let mut refused = [0; NUMBERS];
    for seed in seeds(20_000) {
        let told = format!("write seed {seed}");
        let WriteCase { nodes, mask, room } = write_case(seed);
        match write_by_both(&told, nodes, mask, room) {
            Ok(text) => {
                written += 1;
                assert_eq!(read_by_both(&told, nodes, 0, &text), Ok(mask));
            }
            Err(number) => refused[usize::from(number)] += 1,
        }
    }
    println!("{written} written, refused {refused:?}");
    assert!(written > 5_000 && refused[1] > 200 && refused[6] > 200 && refused[11] > 2_000);
}

#[test]
fn every_text_of_up_to_three_letters() {
    let letters = b"0129,-!+al ";
    let mut texts = vec![Vec::new()];
    let mut from = 0;
    for _ in 0..3 {
        let end = texts.len();
        for index in from..end {
            for letter in letters {
                let mut longer: Vec<u8> = texts[index].clone();
                longer.push(*letter);
                texts.push(longer);
            }
        }
        from = end;
    }
    for text in &texts {
        for (nodes, allowed) in [(1, 0), (3, 0b101), (12, 0xFF0), (64, u64::MAX)] {
            let _ = read_by_both(&String::from_utf8_lossy(text), nodes, allowed, text);
        }
    }
    assert_eq!(texts.len(), 1 + 11 + 121 + 1331);
}

#[test]
fn long_texts() {
    for length in [255, 256, 257, 65_535, 65_536, 65_537, 1_000_000] {
        for byte in [b'0', b'1', b',', b'!', 0, 255] {
            let _ = read_by_both("one byte over and over", 64, u64::MAX, &vec![byte; length]);
        }
        let mut pairs = b"0,".repeat(length / 2 + 1);
        pairs.truncate(length);
        let well = read_by_both("pairs", 64, 0, &pairs);
        assert_eq!(well.is_ok(), length == 255);
        let _ = write_by_both("ample room", 64, 0x5555_5555_5555_5555, length);
    }
}
