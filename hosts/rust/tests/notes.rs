//! Notes: a name is a part of the note itself; what is written is read back; a list becomes places.

use spirerivet::{name, note_places, which, write_note, AppNode, Refusal};

/// Document 004's example: "text SRAM SDRAM0 ANY data SDRAM1".
const NOTE: &[u8] = b"\x03\0\0\0\x10\0\0\0\x01\0\0\0\x07\0\0\0SRAM\0SDRAM0\0ANY\0SDRAM1\0";

#[test]
fn a_name_is_a_part_of_the_note() {
    for (k, (start, one)) in
        [(16, &b"SRAM"[..]), (21, b"SDRAM0"), (28, b"ANY"), (32, b"SDRAM1")].into_iter().enumerate()
    {
        let found = name(NOTE, k);
        assert_eq!(found, one);
        assert_eq!(found.as_ptr(), NOTE[start..].as_ptr(), "name {k}");
    }
    assert!(name(NOTE, 4).is_empty() && name(NOTE, usize::MAX).is_empty());
    assert!(name(&NOTE[1..], 0).is_empty() && name(&[], 0).is_empty());
    // The name lives as long as the note, not as long as the call.
    let first = {
        let note = NOTE;
        name(note, 0)
    };
    assert_eq!(first, b"SRAM");
}

#[test]
fn what_is_written_is_read_back() {
    let mut out = [0xA5; 50];
    assert_eq!(write_note(b"SRAM\0SDRAM0\0ANY\0", b"SDRAM1\0", &mut out), Ok(39));
    assert_eq!(&out[..39], NOTE);
    assert_eq!(out[39..], [0xA5; 11]);
    assert_eq!(write_note(b"SRAM\0SDRAM0\0ANY\0", b"SDRAM1\0", &mut out[..38]), Err(Refusal::OutputTooShort));
    assert_eq!(write_note(b"ANY\0SRAM\0", b"", &mut out), Err(Refusal::BadNote));
    assert_eq!(write_note(b"SRAM", b"", &mut out), Err(Refusal::BadNote));
}

#[test]
fn a_list_becomes_places_by_the_jobs_own_numbers() {
    let names = b"SDRAM1\0SDRAM0\0SRAM\0";
    let mut maps = spirerivet::identity_maps(3, 1);
    maps[..3].copy_from_slice(&[2, 1, spirerivet::MAP_END]);
    let places = |note: &[u8], job, list, room: usize| {
        let mut out = [AppNode(7); 4];
        note_places(3, &[0; 6], &maps, names, note, job, list, &mut out[..room]).map(|length| out[..length].to_vec())
    };
    assert_eq!(places(NOTE, 0, which::TEXT, 4), Ok(vec![AppNode(0), AppNode(1), AppNode::ANY]));
    assert_eq!(places(NOTE, 0, which::DATA, 0), Ok(vec![]), "SDRAM1 is outside the map");
    assert_eq!(places(NOTE, 0, which::TEXT, 2), Err(Refusal::OutputTooShort));
    assert_eq!(places(&NOTE[..38], 0, which::TEXT, 4), Err(Refusal::BadNote));
    assert_eq!(places(NOTE, 1, which::TEXT, 4), Err(Refusal::NoSuchJob));
}
