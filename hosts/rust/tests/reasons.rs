//! Reasons: a byte for each node, each a `Reason`; the request that follows gets the node that is chosen.

use spirerivet::{flag, mode, reasons, Answer, AppNode, Reason, Refusal, JOB_WORDS};

const COUNTS: [u32; 4] = [2, 2, 0, 2];
const CPUS: [u8; 4] = [0, 1, 2, 3];
const DISTANCES: [u8; 16] = [10, 20, 20, 30, 20, 10, 30, 20, 20, 30, 10, 20, 30, 20, 20, 10];

/// The tables of one job that is allowed nodes 0, 1 and 3: pages, record, free counts, map.
struct Tables {
    pages: [u8; 6],
    jobs: [u64; JOB_WORDS],
    free: [u32; 4],
    maps: Vec<u8>,
}

impl Tables {
    fn new(mode: u64, mask: u64, places: &[AppNode]) -> Tables {
        let maps = spirerivet::identity_maps(4, 1);
        let mut tables = Tables { pages: [0; 6], jobs: [0; JOB_WORDS], free: COUNTS, maps };
        assert_eq!(spirerivet::rebind(4, &mut tables.jobs, 0, 0b1011), Answer::Done);
        let Tables { jobs, maps, .. } = &mut tables;
        assert_eq!(spirerivet::install(4, jobs, maps, 0, mode, flag::NONE, mask, places), Answer::Done);
        tables
    }

    /// The reasons in so many bytes of room.
    fn why(&self, cpu: usize, room: usize) -> Result<Vec<Reason>, Refusal> {
        let mut out = [0xA5; 9];
        let Tables { pages, jobs, free, maps } = self;
        let asked = reasons(&COUNTS, &CPUS, &DISTANCES, pages, jobs, free, maps, 0, cpu, &mut out[..room]);
        let length = asked.as_ref().map_or(0, |length| *length);
        assert_eq!(out[length..], [0xA5; 9][length..]);
        asked.map(|length| out[..length].iter().map(|byte| Reason::of_number(*byte).expect("a reason")).collect())
    }

    fn request(&mut self, cpu: usize) -> Answer {
        let Tables { pages, jobs, free, maps } = self;
        spirerivet::request(&COUNTS, &CPUS, &DISTANCES, pages, jobs, free, maps, 0, cpu)
    }
}

#[test]
fn the_chosen_node_serves_the_request() {
    use Reason::{Chosen, Full, Later, NotAllowed, NotNamed, OutsideBind};
    let mut bind = Tables::new(mode::BIND, 0b1010, &[]);
    for (reasons, page) in [
        ([OutsideBind, Chosen, NotAllowed, Later], 2),
        ([OutsideBind, Chosen, NotAllowed, Later], 3),
        ([OutsideBind, Full, NotAllowed, Chosen], 4),
    ] {
        assert_eq!(bind.why(0, 4), Ok(reasons.to_vec()));
        let node = reasons.iter().position(|reason| *reason == Chosen).expect("a chosen node");
        assert_eq!(bind.request(0), Answer::Granted { node: AppNode(node as u8), page });
    }
    let mut list = Tables::new(mode::LIST, 0, &[AppNode(3), AppNode(3)]);
    assert_eq!(list.why(0, 9), Ok(vec![NotNamed, NotNamed, NotAllowed, Chosen]));
    assert!(matches!((list.request(0), list.request(0)), (Answer::Granted { .. }, Answer::Granted { .. })));
    assert_eq!(list.why(0, 4), Ok(vec![NotNamed, NotNamed, NotAllowed, Full]));
    assert_eq!(list.request(0), Answer::Refused(Refusal::NoRoom));
}

#[test]
fn refusals_write_nothing() {
    let mut tables = Tables::new(mode::DEFAULT, 0, &[]);
    assert_eq!(tables.why(0, 3), Err(Refusal::OutputTooShort));
    assert_eq!(tables.why(4, 3), Err(Refusal::NoSuchCpu));
    tables.pages = [9; 6];
    assert_eq!(tables.why(0, 4), Err(Refusal::WrongCount));
    assert_eq!(tables.why(0, 3), Err(Refusal::OutputTooShort), "11 before 14");
    tables.jobs[0] = 7;
    assert_eq!(tables.why(0, 3), Err(Refusal::MalformedRecord), "4 before 11");
}
