//! All refusals in order: each call, each refusal, and the one before it when two fit.

use crate::calls::{apply, apply_with, Answer, Call, Tables};
use crate::examples::machine_a;
use crate::maps::{identity_maps, map_with, AppNode};
use crate::record::{read, WORDS};

/// Asserts a refusal, and that the tables stay as they are.
fn refused(tables: &Tables, nodes: usize, call: Call, number: u8) {
    let mut after = tables.clone();
    assert_eq!(apply_with(nodes, &mut after, &call), Answer::Refused(number), "{call:?}");
    assert_eq!(after, *tables);
}

/// Machine A changed by `change`, with free counts that match.
fn a_with(change: fn(&mut Tables)) -> Tables {
    let mut tables = machine_a();
    change(&mut tables);
    tables.counted()
}

/// Machine A with these page bytes and these free counts.
fn a_counted(pages: &[u8], free: &[u32]) -> Tables {
    Tables { pages: pages.to_vec(), free: free.to_vec(), ..machine_a() }
}

/// An install on job 0.
fn install(mode: u64, flag: u64, mask: u64, places: &[u8]) -> Call {
    Call::Install { job: 0, mode, flag, mask, places: places.to_vec() }
}

/// All changes of machine A that break what every call looks at in the job table.
fn bad_job_tables() -> Vec<Tables> {
    vec![
        a_with(|t| t.jobs = vec![]),
        a_with(|t| t.jobs = vec![0; 5]),
        a_with(|t| t.jobs = vec![0; 7]),
        a_with(|t| t.jobs = vec![0; 65 * WORDS]),
    ]
}

/// Changes that break the page counts or the page table.
fn bad_pages() -> Vec<Tables> {
    vec![
        a_with(|t| t.counts = vec![]),
        a_with(|t| t.counts = vec![0; 65]),
        a_with(|t| t.counts[2] = 65_537),
        a_with(|t| t.counts[2] = u32::MAX),
        a_with(|t| t.counts[2] = 1),
        a_with(|t| {
            t.pages.pop();
        }),
        a_with(|t| t.pages = vec![]),
        a_with(|t| {
            t.counts = vec![65_536; 17];
            t.pages = vec![0; 17 * 65_536];
            t.cpus = vec![0];
            t.distances = vec![10; 17 * 17];
        }),
    ]
}

/// Changes that break the CPU table or the distances.
fn bad_machines() -> Vec<Tables> {
    vec![
        a_with(|t| t.cpus = vec![]),
        a_with(|t| t.cpus = vec![0; 257]),
        a_with(|t| t.cpus[7] = 4),
        a_with(|t| t.distances = vec![]),
        a_with(|t| t.distances.push(10)),
        a_with(|t| {
            t.distances.pop();
        }),
        a_with(|t| t.distances[5] = 11),
        a_with(|t| t.distances[6] = 9),
        a_with(|t| t.distances[6] = 0),
    ]
}

/// Free counts not of N entries (M-100).
fn bad_counts() -> Vec<Tables> {
    let lengths = [0, 1, 3, 5, 8, 64, 65, 1_000];
    lengths.into_iter().map(|length| a_counted(&[1, 0, 0, 0, 0, 0], &vec![1; length])).collect()
}

#[test]
fn request_1() {
    for tables in [bad_job_tables(), bad_pages(), bad_machines(), bad_counts()].concat() {
        refused(&tables, 4, Call::Request { job: 999, cpu: 999 }, 1);
        refused(&tables, 4, Call::Request { job: 0, cpu: 0 }, 1);
    }
}

#[test]
fn request_2_3_4_8() {
    let malformed = a_with(|t| t.jobs[0] = 7);
    for job in [8, 64, 255, usize::MAX, usize::MAX / 6 + 1] {
        refused(&malformed, 4, Call::Request { job, cpu: 999 }, 2);
    }
    for cpu in [8, 256, usize::MAX] {
        refused(&malformed, 4, Call::Request { job: 0, cpu }, 3);
    }
    let malformed_and_full = a_with(|t| {
        t.jobs[0] = 7;
        t.pages = vec![9; 6];
    });
    refused(&malformed_and_full, 4, Call::Request { job: 0, cpu: 0 }, 4);
    let full = a_with(|t| t.pages = vec![9; 7]);
    refused(&full, 4, Call::Request { job: 0, cpu: 0 }, 8);
    refused(&machine_a(), 4, Call::Request { job: 1, cpu: 0 }, 8);
}

/// "In a release 14 stands last; in a request it comes before 8" (M-100).
#[test]
fn request_14_after_4_and_before_8() {
    let request = Call::Request { job: 0, cpu: 0 };
    let mut wrong = a_counted(&[9; 6], &[0, 0, 0, 1]);
    refused(&wrong, 4, request.clone(), 14);
    refused(&wrong, 4, Call::Request { job: 0, cpu: 8 }, 3);
    refused(&wrong, 4, Call::Request { job: 8, cpu: 0 }, 2);
    // An empty order, and an order of nodes counted 0, meet no such node.
    refused(&wrong, 4, Call::Request { job: 1, cpu: 0 }, 8);
    assert_eq!(apply(&mut wrong, &Call::Rebind { job: 0, allowed: 0b0111 }), Answer::Done);
    refused(&wrong, 4, request.clone(), 8);
    wrong.jobs[0] = 7;
    refused(&wrong, 4, request.clone(), 4);
    wrong.free.push(0);
    refused(&wrong, 4, request.clone(), 1);
    // A node without pages may be counted above 0.
    refused(&a_counted(&[9, 9, 0, 0, 0, 0], &[0, 0, 1, 0]), 4, request.clone(), 14);
    // Near(0) is 0, 1, 2, 3: the nodes before the wrong one are counted 0, or the page is found first.
    refused(&a_counted(&[9, 9, 0, 0, 0, 0], &[1, 2, 0, 2]), 4, request.clone(), 14);
    refused(&a_counted(&[0, 0, 9, 9, 0, 0], &[0, u32::MAX, 0, 2]), 4, request.clone(), 14);
    refused(&a_counted(&[0; 6], &[0; 4]), 4, request.clone(), 8);
    let mut found_before = a_counted(&[0, 0, 9, 9, 0, 0], &[1, 2, 0, 2]);
    assert_eq!(apply(&mut found_before, &request), Answer::Granted { node: AppNode(0), page: 0 });
    assert_eq!(found_before.free, [0, 2, 0, 2]);
    refused(&found_before, 4, request, 14);
}

#[test]
fn release_14_after_10() {
    let release = |job, page| Call::Release { job, page };
    for above in [2, 3, 65_536, u32::MAX] {
        let wrong = a_counted(&[1, 2, 0, 0, 0, 0], &[above, 2, 0, 2]);
        refused(&wrong, 4, release(0, 0), 14);
        refused(&wrong, 4, release(1, 1), 14);
        refused(&wrong, 4, release(0, 1), 10);
        refused(&wrong, 4, release(0, 6), 10);
        refused(&wrong, 4, release(8, 0), 2);
    }
    for below in [0, 1] {
        let mut tables = a_counted(&[1, 2, 0, 0, 0, 0], &[below, 9, 9, 9]);
        assert_eq!(apply(&mut tables, &release(0, 0)), Answer::Released { node: Some(AppNode(0)), page: 0 });
        assert_eq!(tables.free, [below + 1, 9, 9, 9]);
        assert_eq!(tables.pages, [0, 2, 0, 0, 0, 0]);
    }
}

/// A fresh table "can be refused only 1", and looks neither at jobs nor at CPUs and distances (M-100).
#[test]
fn fresh_1_and_nothing_else() {
    for tables in [bad_pages(), bad_counts()].concat() {
        refused(&tables, 4, Call::Fresh, 1);
    }
    for tables in [bad_job_tables(), bad_machines()].concat() {
        let mut after = tables.clone();
        assert_eq!(apply(&mut after, &Call::Fresh), Answer::Done);
        assert_eq!(after, tables);
    }
    for free in [[0; 4], [u32::MAX; 4], [2, 2, 0, 2]] {
        let mut tables = a_counted(&[1, 0, 64, 65, 255, 2, 7, 0, 9], &free);
        let jobs = tables.jobs.clone();
        assert_eq!(apply(&mut tables, &Call::Fresh), Answer::Done);
        assert_eq!(tables.pages, [0, 0, 0, 0, 0, 0, 7, 0, 9]);
        assert_eq!(tables.free, [2, 2, 0, 2]);
        assert_eq!(tables.jobs, jobs);
    }
}

/// Install, rebind and clear are not lent the free counts: a wrong length is not seen there (M-100).
#[test]
fn the_other_calls_do_not_look_at_the_counts() {
    for tables in bad_counts() {
        for call in [install(2, 0, 1, &[]), Call::Rebind { job: 0, allowed: 1 }, Call::Clear { job: 0 }] {
            let mut after = tables.clone();
            assert_eq!(apply(&mut after, &call), Answer::Done);
            assert_eq!(after.free, tables.free);
        }
    }
}

#[test]
fn release_1_2_10() {
    for tables in [bad_job_tables(), bad_pages(), bad_counts()].concat() {
        refused(&tables, 4, Call::Release { job: 999, page: 999 }, 1);
        refused(&tables, 4, Call::Release { job: 0, page: 0 }, 1);
    }
    for job in [8, 64, 255, usize::MAX] {
        refused(&machine_a(), 4, Call::Release { job, page: 999 }, 2);
    }
    let held = a_with(|t| t.pages = vec![0, 2, 99, 255, 1, 1, 1, 1]);
    for page in [0, 1, 2, 3, 6, 7, 8, 0xFFFF_FFFF, usize::MAX] {
        refused(&held, 4, Call::Release { job: 0, page }, 10);
    }
    let mut after = held.clone();
    assert_eq!(
        apply(&mut after, &Call::Release { job: 0, page: 4 }),
        Answer::Released { node: Some(AppNode(3)), page: 4 }
    );
    assert_eq!(after.pages, vec![0, 2, 99, 255, 0, 1, 1, 1]);
    for tables in bad_machines() {
        let mut tables = tables;
        tables.pages[0] = 1;
        tables.jobs[0] = 7;
        tables = tables.counted();
        assert_eq!(
            apply(&mut tables, &Call::Release { job: 0, page: 0 }),
            Answer::Released { node: Some(AppNode(0)), page: 0 }
        );
    }
}

#[test]
fn install_1_2_4() {
    for tables in bad_job_tables() {
        refused(&tables, 4, install(9, 9, 0, &[]), 1);
    }
    for nodes in [0, 65, usize::MAX] {
        refused(&machine_a(), nodes, install(9, 9, 0, &[]), 1);
    }
    for job in [8, usize::MAX] {
        let call = Call::Install { job, mode: 9, flag: 9, mask: 0, places: vec![] };
        refused(&machine_a(), 4, call, 2);
    }
    let malformed = a_with(|t| t.jobs[0] = 7);
    refused(&malformed, 4, install(9, 9, 0, &[]), 4);
    refused(&malformed, 4, install(0, 0, 0, &[]), 4);
    // Node 3 is not one of three nodes: neither in a map nor, with a map that is good, in the allowed set.
    refused(&machine_a(), 3, install(0, 0, 0, &[]), 15);
    refused(&a_with(|t| t.maps = identity_maps(3, 8)), 3, install(0, 0, 0, &[]), 4);
    for tables in [bad_pages(), bad_machines()].concat() {
        let mut tables = tables;
        assert_eq!(apply_with(4, &mut tables, &install(2, 0, 1, &[])), Answer::Done);
    }
}

#[test]
fn install_5_before_7_and_6() {
    let fresh = a_with(|t| t.jobs[2] = 0);
    for tables in [fresh, machine_a()] {
        for mode in [7, 8, 255, 256, u64::MAX] {
            refused(&tables, 4, install(mode, 0, 0, &[]), 5);
        }
        for flag in [3, 255, 256, 257, u64::MAX] {
            refused(&tables, 4, install(2, flag, 1, &[]), 5);
            refused(&tables, 4, install(0, flag, 0, &[]), 5);
        }
        for flag in [1, 2] {
            refused(&tables, 4, install(0, flag, 1, &[1]), 5);
            refused(&tables, 4, install(4, flag, 1, &[]), 5);
            refused(&tables, 4, install(5, flag, 0, &[1]), 5);
            refused(&tables, 4, install(6, flag, 0, &[1]), 5);
            refused(&tables, 4, install(1, flag, 0, &[]), 5);
            refused(&tables, 4, install(1, flag, 0, &[1]), 5);
        }
    }
}

#[test]
fn install_7_before_6() {
    let fresh = a_with(|t| t.jobs[2] = 0);
    refused(&fresh, 4, install(0, 0, 0, &[]), 7);
    refused(&fresh, 4, install(1, 0, 0, &[]), 7);
    refused(&fresh, 4, install(2, 0, 0, &[]), 7);
    refused(&fresh, 4, install(2, 0, u64::MAX, &[1; 20]), 7);
    refused(&fresh, 4, install(5, 0, 0, &[1]), 7);
    refused(&fresh, 4, install(4, 0, 0, &[1; 17]), 7);
}

#[test]
fn install_6() {
    let a = machine_a();
    for flag in [0, 1, 2] {
        refused(&a, 4, install(2, flag, 0, &[]), 6);
        refused(&a, 4, install(3, flag, 0, &[]), 6);
        for mode in [1, 2, 3] {
            refused(&a, 4, install(mode, flag, 1, &[0]), 6);
        }
    }
    refused(&a, 4, install(0, 0, 1, &[]), 6);
    refused(&a, 4, install(0, 0, 0, &[0]), 6);
    refused(&a, 4, install(1, 0, 0, &[0]), 6);
    for mode in [4, 5, 6] {
        refused(&a, 4, install(mode, 0, 1, &[1]), 6);
        refused(&a, 4, install(mode, 0, 0, &[]), 6);
        refused(&a, 4, install(mode, 0, 0, &[1; 17]), 6);
        refused(&a, 4, install(mode, 0, 0, &[1; 1000]), 6);
    }
    let only_1 = a_with(|t| t.jobs[2] = 0b0010);
    for mode in [1, 2, 3] {
        for flag in [0, 1] {
            refused(&a, 4, install(mode, flag, 0b1_0001, &[]), 6);
            refused(&a, 4, install(mode, flag, 1 << 63, &[]), 6);
            refused(&only_1, 4, install(mode, flag, 0b1101, &[]), 6);
        }
        let mut tables = only_1.clone();
        assert_eq!(apply(&mut tables, &install(mode, 2, 1 << 63, &[])), Answer::Done);
        assert_eq!(read(&tables.jobs, 0).effective, 0b0010);
    }
    for places in [&[4][..], &[255], &[0, 1, 200], &[3; 16], &[0, 4, 0]] {
        let far = places.iter().any(|place| *place > 3);
        let mut tables = machine_a();
        let answer = if far { Answer::Refused(6) } else { Answer::Done };
        assert_eq!(apply(&mut tables, &install(5, 0, 0, places)), answer, "{places:?}");
    }
}

/// "a 255 in the last place of a mode 4 list"; "elsewhere nothing changes" (M-104). The order of refusals stays.
#[test]
fn install_of_a_closing_255() {
    let closing = [1, 255];
    for mode in 0..7 {
        let mut tables = machine_a();
        let answer = if mode == 4 { Answer::Done } else { Answer::Refused(6) };
        assert_eq!(apply(&mut tables, &install(mode, 0, 0, &closing)), answer, "mode {mode}");
    }
    refused(&a_with(|t| t.jobs[2] = 0), 4, install(4, 0, 0, &closing), 7);
    refused(&a_with(|t| t.jobs[0] = 7), 4, install(4, 0, 0, &closing), 4);
    refused(&machine_a(), 4, install(4, 1, 0, &closing), 5);
    refused(&machine_a(), 4, install(4 + 256, 0, 0, &closing), 5);
    refused(&machine_a(), 4, install(4, 0, 1, &closing), 6);
    refused(&machine_a(), 4, install(4, 0, 0, &[4, 255]), 6);
    refused(&machine_a(), 4, install(4, 0, 0, &[255; 2]), 6);
    refused(&machine_a(), 4, install(4, 0, 0, &[255; 16]), 6);
    refused(&machine_a(), 4, install(4, 0, 0, &[[1; 16].to_vec(), vec![255]].concat()), 6);
    refused(&a_mapped(&[3, 3]), 4, install(4, 0, 0, &closing), 15);
    let mut tables = a_mapped(&[3, 0]);
    assert_eq!(apply(&mut tables, &install(4, 0, 0, &closing)), Answer::Done);
    assert_eq!(tables.jobs[..6], [0x2_0004, 0, 0b1111, 0, 0xFF00, 0]);
}

#[test]
fn install_leaves_exactly_the_record() {
    let mut tables = machine_a();
    tables.jobs[..6].copy_from_slice(&[0x0203_0005, 0, 0b0111, 0, 0x03_02_01, 0]);
    assert_eq!(apply(&mut tables, &install(3, 1, 0b1110, &[])), Answer::Done);
    assert_eq!(tables.jobs[..6], [0x0103, 0b1110, 0b0111, 0b0110, 0, 0]);
    let places = [1, 2, 3, 0, 3, 2, 1, 0, 0, 0, 1, 1, 2, 2, 3, 3];
    assert_eq!(apply(&mut tables, &install(6, 0, 0, &places)), Answer::Done);
    assert_eq!(tables.jobs[..6], [0x0010_0006, 0, 0b0111, 0, 0x0001_0203_0003_0201, 0x0303_0202_0101_0000]);
    assert_eq!(apply(&mut tables, &install(1, 0, 0, &[])), Answer::Done);
    assert_eq!(tables.jobs[..6], [1, 0, 0b0111, 0, 0, 0]);
    assert_eq!(tables.jobs[6..], vec![0; 42]);
}

#[test]
fn rebind_1_2_4_6_7() {
    let rebind = |allowed| Call::Rebind { job: 0, allowed };
    for tables in bad_job_tables() {
        refused(&tables, 4, rebind(u64::MAX), 1);
    }
    for nodes in [0, 65, usize::MAX] {
        refused(&machine_a(), nodes, rebind(u64::MAX), 1);
    }
    refused(&machine_a(), 4, Call::Rebind { job: 8, allowed: u64::MAX }, 2);
    let malformed = a_with(|t| t.jobs[0] = 7);
    refused(&malformed, 4, rebind(u64::MAX), 4);
    refused(&malformed, 4, rebind(0), 4);
    for allowed in [0b1_0000, 1 << 63, u64::MAX] {
        refused(&machine_a(), 4, rebind(allowed), 6);
    }
    refused(&machine_a(), 4, rebind(0), 7);
    let fresh = a_with(|t| t.jobs[2] = 0);
    refused(&fresh, 4, rebind(0), 7);
    for tables in [bad_pages(), bad_machines()].concat() {
        let mut tables = tables;
        assert_eq!(apply_with(4, &mut tables, &rebind(1)), Answer::Done);
    }
}

#[test]
fn rebind_leaves_exactly_the_record() {
    let mut tables = machine_a();
    tables.jobs[..6].copy_from_slice(&[0x0400_0003, 0b0011, 0b1111, 0b1010, 0, 0]);
    assert_eq!(apply(&mut tables, &Call::Rebind { job: 0, allowed: 0b0110 }), Answer::Done);
    assert_eq!(tables.jobs[..6], [0x0400_0003, 0b0011, 0b0110, 0b0100, 0, 0]);
    tables.jobs[..6].copy_from_slice(&[0x0202, 1 << 62 | 1, 0b1111, 0b0101, 0, 0]);
    assert_eq!(apply(&mut tables, &Call::Rebind { job: 0, allowed: 0b1110 }), Answer::Done);
    assert_eq!(tables.jobs[..6], [0x0202, 1 << 62 | 1, 0b1110, 0b1010, 0, 0]);
    tables.jobs[..6].copy_from_slice(&[1, 0, 0b1111, 0, 0, 0]);
    assert_eq!(apply(&mut tables, &Call::Rebind { job: 0, allowed: 0b1000 }), Answer::Done);
    assert_eq!(tables.jobs[..6], [1, 0, 0b1000, 0, 0, 0]);
}

#[test]
fn clear_1_2_and_nothing_else() {
    for tables in bad_job_tables() {
        refused(&tables, 4, Call::Clear { job: 0 }, 1);
    }
    for nodes in [0, 65, usize::MAX] {
        refused(&machine_a(), nodes, Call::Clear { job: 999 }, 1);
    }
    for job in [8, 64, usize::MAX] {
        refused(&machine_a(), 4, Call::Clear { job }, 2);
    }
    let mut garbage = a_with(|t| t.jobs = vec![u64::MAX; 12]);
    assert_eq!(apply(&mut garbage, &Call::Clear { job: 0 }), Answer::Done);
    assert_eq!(garbage.jobs[..6], [0; 6]);
    assert_eq!(garbage.jobs[6..], [u64::MAX; 6]);
}

/// Maps not of 64 bytes a job (M-103).
fn bad_lengths_of_maps() -> Vec<Tables> {
    let lengths = [0, 1, 63, 64, 7 * 64, 8 * 64 - 1, 8 * 64 + 1, 9 * 64, 64 * 64];
    lengths.into_iter().map(|length| Tables { maps: vec![0xFF; length], ..machine_a() }).collect()
}

/// Machine A, pages 0 and 1 held by job 0, with these bytes as job 0's map.
fn a_mapped(bytes: &[u8]) -> Tables {
    let mut tables = a_with(|t| t.pages = vec![1, 1, 0, 0, 0, 0]);
    tables.maps[..64].copy_from_slice(&map_with(bytes));
    tables
}

/// "in a further lent table of 64 bytes a job, else 1": in every call that is lent it, and in no other (M-103).
#[test]
fn maps_of_a_wrong_length_are_1() {
    for tables in bad_lengths_of_maps() {
        for job in [0, 999] {
            refused(&tables, 4, Call::Request { job, cpu: 0 }, 1);
            refused(&tables, 4, Call::Release { job, page: 0 }, 1);
            refused(&tables, 4, Call::Install { job, mode: 9, flag: 9, mask: 0, places: vec![] }, 1);
            refused(&tables, 4, Call::KeepNodes { job, kept: vec![0] }, 1);
            refused(&tables, 4, Call::SetMap { job, list: vec![0] }, 1);
        }
        let mut tables = tables;
        for call in [Call::Rebind { job: 0, allowed: 1 }, Call::Clear { job: 0 }, Call::Fresh] {
            assert_eq!(apply(&mut tables, &call), Answer::Done);
        }
    }
}

/// "refused 15, right after 2 in request, release and install" (M-103); not in rebind and clear.
#[test]
fn bad_maps_are_15_right_after_2() {
    for bytes in [&[][..], &[1, 1], &[0, 1, 0], &[4], &[0, 200], &[0, 0xFF, 1], &[0xFF, 0], &[0; 64]] {
        let mut tables = a_mapped(bytes);
        tables.jobs[0] = 7;
        tables.free = vec![9; 4];
        for cpu in [0, 999] {
            refused(&tables, 4, Call::Request { job: 0, cpu }, 15);
            refused(&tables, 4, Call::Request { job: 8, cpu }, 2);
        }
        for page in [0, 2, 999] {
            refused(&tables, 4, Call::Release { job: 0, page }, 15);
            refused(&tables, 4, Call::Release { job: 8, page }, 2);
        }
        refused(&tables, 4, install(9, 9, 0, &[]), 15);
        refused(&tables, 4, Call::Install { job: 8, mode: 9, flag: 9, mask: 0, places: vec![] }, 2);
        refused(&tables, 4, Call::KeepNodes { job: 0, kept: vec![0] }, 15);
        refused(&tables, 4, Call::Rebind { job: 0, allowed: 1 }, 4);
        assert_eq!(apply(&mut tables, &Call::Clear { job: 0 }), Answer::Done);
        assert_eq!(tables.maps[..64], map_with(bytes));
        assert_eq!(apply(&mut tables, &Call::SetMap { job: 0, list: vec![3, 0] }), Answer::Done);
        assert_eq!(tables.maps[..64], map_with(&[3, 0]));
        assert_eq!(tables.maps[64..], identity_maps(4, 7));
    }
}

/// "The tenant's call may only drop nodes"; "Both test 1, 2, 15"; neither looks at the record (M-103).
#[test]
fn keep_nodes_and_set_map() {
    let keep = |kept: &[u8]| Call::KeepNodes { job: 0, kept: kept.to_vec() };
    let set = |list: &[u8]| Call::SetMap { job: 0, list: list.to_vec() };
    let mut tables = a_mapped(&[3, 0, 2]);
    tables.jobs[0] = 7;
    for nodes in [0, 65, usize::MAX] {
        refused(&tables, nodes, keep(&[0]), 1);
        refused(&tables, nodes, set(&[0]), 1);
    }
    for tables in bad_job_tables() {
        refused(&tables, 4, keep(&[0]), 1);
        refused(&tables, 4, set(&[0]), 1);
    }
    // Node 3 of the map is unknown on a machine of three nodes.
    refused(&tables, 3, keep(&[1]), 15);
    refused(&tables, 3, set(&[3]), 15);
    assert_eq!(apply(&mut tables, &keep(&[0, 2])), Answer::Done);
    assert_eq!(tables.maps[..64], map_with(&[3, 2]));
    refused(&tables, 4, keep(&[0, 2]), 15);
    assert_eq!(apply(&mut tables, &keep(&[1])), Answer::Done);
    assert_eq!(tables.maps[..64], map_with(&[2]));
    assert_eq!(apply(&mut tables, &set(&[0, 1, 2, 3])), Answer::Done);
    assert_eq!(tables.maps, identity_maps(4, 8));
    assert_eq!(tables.jobs[0], 7);
}

#[test]
fn the_longest_tables_are_accepted() {
    let mut tables = Tables {
        counts: vec![65_536; 16],
        cpus: vec![15; 256],
        distances: vec![10; 256],
        pages: vec![64; 1_048_576 + 5],
        jobs: vec![0; 64 * WORDS],
        free: vec![0; 16],
        maps: identity_maps(16, 64),
    };
    tables.pages[1_048_575] = 0;
    tables.free[15] = 1;
    assert_eq!(apply(&mut tables, &Call::Rebind { job: 63, allowed: 0x8000 }), Answer::Done);
    let granted = Answer::Granted { node: AppNode(15), page: 1_048_575 };
    assert_eq!(apply(&mut tables, &Call::Request { job: 63, cpu: 255 }), granted);
    assert_eq!(tables.pages[1_048_575..], [64; 6]);
    let released = Answer::Released { node: Some(AppNode(15)), page: 1_048_575 };
    assert_eq!(apply(&mut tables, &Call::Release { job: 63, page: 1_048_575 }), released);
    refused(&tables, 16, Call::Release { job: 63, page: 1_048_576 }, 10);
}
