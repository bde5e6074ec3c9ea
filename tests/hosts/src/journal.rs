//! Whole journals answered by both, and compared.

use crate::lent::Lent;

/// Runs by both, with room for so many bytes: refused 11 exactly when the answers are longer; gives the answers.
pub fn journal_by_both(told: &str, input: &[u8], room: usize) -> Result<Vec<u8>, u8> {
    let lent = Lent::new(input, 0x4E);
    let mut output = Lent::new(&vec![0xA5; room], 0x5A);
    let found = spirerivet::journal(lent.now(), output.now_mut()).map_err(|refusal| refusal.number());
    let answers = reference::journal::run(input);
    let mut left = vec![0xA5; room];
    let expected = if answers.len() > room { Err(11) } else { Ok(answers.len()) };
    if expected.is_ok() {
        left[..answers.len()].copy_from_slice(&answers);
    }
    assert_eq!(found, expected, "{told}, {room} bytes of room");
    assert!(lent.is(input), "{told}, {room} bytes of room: the journal was changed");
    assert!(output.is(&left), "{told}, {room} bytes of room: the output differs");
    found.map(|length| output.now()[..length].to_vec())
}
