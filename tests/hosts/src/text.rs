//! Node-list text read and written by both, and compared.

use crate::lent::Lent;

/// Reads by both; gives the outcome.
pub fn read_by_both(told: &str, nodes: usize, allowed: u64, text: &[u8]) -> Result<u64, u8> {
    let lent = Lent::new(text, b'1');
    let expected = reference::text::read_nodes(nodes, allowed, text);
    let found = spirerivet::read_nodes(nodes, allowed, lent.now()).map_err(|refusal| refusal.number());
    assert_eq!(found, expected, "{told}: N {nodes} allowed {allowed:#x}, {} bytes", text.len());
    assert!(lent.is(text), "{told}: the text was changed");
    found
}

/// Writes by both into marked bytes; gives the text.
pub fn write_by_both(told: &str, nodes: usize, mask: u64, room: usize) -> Result<Vec<u8>, u8> {
    let mut lent = Lent::new(&vec![0xA5; room], 0x5A);
    let mut out = vec![0xA5; room];
    let expected = reference::text::write_nodes(nodes, mask, &mut out);
    let found = spirerivet::write_nodes(nodes, mask, lent.now_mut()).map_err(|refusal| refusal.number());
    assert_eq!(found, expected, "{told}: N {nodes} mask {mask:#x} room {room}");
    assert!(lent.is(&out), "{told}: N {nodes} mask {mask:#x} room {room}: the output differs");
    match found {
        Ok(length) => {
            assert!(lent.now()[length..].iter().all(|byte| *byte == 0xA5), "{told}: a byte past the text");
            Ok(lent.now()[..length].to_vec())
        }
        Err(number) => {
            assert!(lent.is(&vec![0xA5; room]), "{told}: refused {number} and changed the output");
            Err(number)
        }
    }
}
