//! near(x) listed by both, and compared.

use reference::near::write_near;
use reference::near_cases::NearCase;

use crate::lent::Lent;

/// Lists by both into marked bytes: same answer, same bytes, and none changed past the order; gives the order and its rounds.
pub fn near_by_both(told: &str, case: &NearCase) -> Result<(Vec<u8>, u32), u8> {
    let NearCase { nodes, distances, set, x, room } = case;
    let told = format!("{told}: N {nodes}, {} distances, set {set:#x}, x {x}, room {room}", distances.len());
    let lent = Lent::new(distances, 10);
    let mut output = Lent::new(&vec![0xA5; *room], 0x5A);
    let mut out = vec![0xA5; *room];
    let expected = write_near(*nodes, distances, *set, *x, &mut out).map(|order| (order.nodes, order.rounds));
    let found = spirerivet::near(*nodes, lent.now(), *set, *x, output.now_mut());
    let found = found.map(|order| (order.nodes, order.rounds)).map_err(|refusal| refusal.number());
    assert_eq!(found, expected, "{told}");
    assert!(lent.is(distances), "{told}: the distances were changed");
    assert!(output.is(&out), "{told}: the output differs");
    let length = found.map_or(0, |(length, _)| length);
    assert!(output.now()[length..].iter().all(|byte| *byte == 0xA5), "{told}: {found:?} changed a byte past the order");
    found.map(|(length, rounds)| (output.now()[..length].to_vec(), rounds))
}
