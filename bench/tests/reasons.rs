//! The careful reasons against the second implementation, on tables good and damaged; the library beside them.

use bench::questions::{questions, Questions, KINDS};
use bench::reasons::reasons;
use reference::calls::Tables;
use reference::reason_cases::{reason_case, ReasonCase};
use reference::reason_examples::{reason_examples, ReasonExample};
use reference::reason_ways::Reasons;
use reference::reasons::write_reasons;

/// Asks all: same answer, same bytes. Gives the reasons, or the refusal.
fn same(told: &str, case: &ReasonCase) -> Result<Vec<u8>, u8> {
    let ReasonCase { tables, job, cpu, room } = case;
    let Tables { counts, cpus, distances, pages, jobs, free, maps } = tables;
    let [mut expected, mut out, mut by_library] = [(); 3].map(|()| vec![0xA5; *room]);
    let length = write_reasons(tables, *job, *cpu, &mut expected);
    let careful = reasons(counts, cpus, distances, pages, jobs, free, maps, *job, *cpu, &mut out);
    let library = spirerivet::reasons(counts, cpus, distances, pages, jobs, free, maps, *job, *cpu, &mut by_library);
    assert_eq!((careful, &out), (length, &expected), "{told}");
    assert_eq!((library.map_err(|refusal| refusal.number()), &by_library), (length, &expected), "{told}");
    length.map(|length| out[..length].to_vec())
}

#[test]
fn questions_of_any_sort_agree() {
    let (mut shown, mut refused) = (Reasons::default(), [0; 17]);
    for seed in 0..20_000 {
        let case = reason_case(seed);
        match same(&format!("seed {seed}"), &case) {
            Ok(reasons) => shown.enter(&case.tables, case.job, case.cpu, &reasons),
            Err(number) => refused[usize::from(number)] += 1,
        }
    }
    assert!(shown.each_at_least(100), "{shown:?}");
    assert!([1, 2, 15, 3, 4, 11, 14].iter().all(|number| refused[*number] > 100), "{refused:?}");
    for ReasonExample { why, tables, job, cpu, room, outcome } in reason_examples() {
        assert_eq!(same(why, &ReasonCase { tables, job, cpu, room }), outcome, "{why}");
    }
}

/// Some of each kind; the program itself compares all. Each kind has the reasons that its mode may have, and no other.
#[test]
fn the_timed_questions_agree_and_are_of_their_kind() {
    for Questions { kind, nodes, tables, asked } in [4, 16, 64].into_iter().flat_map(|nodes| questions(nodes, 256)) {
        assert!(tables.counts_match(), "{kind} N {nodes}");
        let mut case = ReasonCase { tables, job: 0, cpu: 0, room: 64 };
        let mut given = [0; 8];
        for (job, cpu) in asked {
            (case.job, case.cpu) = (job, cpu);
            let reasons = same(kind, &case).expect("good tables");
            assert_eq!(reasons.len(), nodes, "{kind} N {nodes}");
            reasons.iter().for_each(|reason| given[usize::from(*reason)] += 1);
        }
        let special = match kind {
            "bind" => &[2, 3][..],
            "list" | "ring" | "closing list" => &[4],
            _ => &[3],
        };
        let expected = |reason: usize| matches!(reason, 1 | 5 | 6 | 7) || special.contains(&reason);
        let fits = (0..8).all(|reason| (given[reason] > 0) == expected(reason) || nodes == 4 && reason == 4);
        assert!(fits && given[6] > 128, "{kind} N {nodes}: {given:?}");
    }
    assert_eq!(KINDS.len(), 7);
}
