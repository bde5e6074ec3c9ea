//! The careful drain against the second implementation, on tables good and damaged; the library beside them.

use bench::boards::{drains, Drain, JOBS};
use bench::drain::drain;
use reference::calls::Tables;
use reference::drain_cases::{drain_case, DrainCase};
use reference::drain_examples::{drain_examples, DrainExample};
use reference::drain_requests::wrong_after;

/// Drains by all: same answer, same pairs, same tables. Gives the pairs, or the refusal.
fn same(told: &str, case: &DrainCase) -> Result<Vec<u32>, u8> {
    let DrainCase { tables, node, room } = case;
    let [mut expected, mut out, mut by_library] = [(); 3].map(|()| vec![0xA5A5_A5A5; *room]);
    let [mut after, mut careful_after, mut library_after] = [(); 3].map(|()| tables.clone());
    let moved = reference::drain::drain(&mut after, *node, &mut expected);
    let Tables { counts, distances, pages, jobs, free, maps, .. } = &mut careful_after;
    let careful = drain(counts, distances, pages, jobs, free, maps, *node, &mut out);
    let Tables { counts, distances, pages, jobs, free, maps, .. } = &mut library_after;
    let library = spirerivet::drain(counts, distances, pages, jobs, free, maps, *node, &mut by_library);
    assert_eq!((careful, &out), (moved, &expected), "{told}");
    assert_eq!((library.map_err(|refusal| refusal.number()), &by_library), (moved, &expected), "{told}");
    assert!(careful_after == after && library_after == after, "{told}: {moved:?}: tables differ");
    moved.map(|moved| out[..2 * moved].to_vec())
}

#[test]
fn drains_of_any_sort_agree() {
    let (mut moved, mut refused) = (0, [0; 18]);
    for seed in 0..20_000 {
        match same(&format!("seed {seed}"), &drain_case(seed)) {
            Ok(pairs) => moved += pairs.len() / 2,
            Err(number) => refused[usize::from(number)] += 1,
        }
    }
    println!("{moved} pages moved, refused {refused:?}");
    assert!(moved > 5_000 && [1, 6, 11, 14, 17].iter().all(|number| refused[*number] > 300), "{moved} {refused:?}");
    for DrainExample { why, tables, node, room, outcome } in drain_examples() {
        assert_eq!(same(why, &DrainCase { tables, node, room }), outcome, "{why}");
    }
}

/// The timed drains with fewer pages; the program itself compares all. Where there is just enough, each node gets some.
#[test]
fn the_timed_drains_agree_and_empty_the_node() {
    const PAGES: u32 = 2_048;
    let boards = [4, 64].into_iter().flat_map(|nodes| drains(nodes, PAGES));
    for Drain { targets, jobs, tables } in boards {
        let told = format!("{targets}, {jobs} jobs, N {}", tables.counts.len());
        let case = DrainCase { tables, node: 0, room: 2 * PAGES as usize };
        let pairs = same(&told, &case).expect("a drain that is granted");
        assert_eq!(pairs.len(), 2 * PAGES as usize, "{told}");
        let mut after = case.tables.clone();
        pairs.chunks(2).for_each(|pair| after.pages.swap(pair[0] as usize, pair[1] as usize));
        let after = after.counted();
        assert_eq!(wrong_after(&case.tables, &after, 0), None, "{told}");
        let got = (1..after.counts.len()).filter(|node| after.free[*node] < case.tables.free[*node]).count();
        assert!(got == after.counts.len() - 1 || targets == "free", "{told}: {got} nodes");
        let holders = after.pages.iter().filter(|byte| usize::from(**byte) <= jobs && **byte != 0).count();
        assert!(holders >= PAGES as usize, "{told}: {holders}");
    }
    assert_eq!(JOBS, [1, 4, 64]);
}
