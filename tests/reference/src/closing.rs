//! M-104's closing 255, seen from outside: how often calls meet it, so that a test can say that it was not empty.

use crate::calls::{apply, apply_each, Answer, Call, Tables};
use crate::record::{closes, has_a_list, places_of, read, write, CLOSING, WORDS};

/// What calls with a 255 among their places showed (M-104).
#[derive(Clone, Copy, Debug, Default, PartialEq, Eq)]
pub struct Closings {
    /// Installs with a closing 255, done.
    pub installed: u64,
    /// Installs with a 255 in another place or mode, refused 6.
    pub misplaced: u64,
    /// Requests by a list with a closing 255: granted by a place before it, by near(CPU's node), refused 8.
    pub by_place: u64,
    pub by_near: u64,
    pub no_room: u64,
}

/// The tables with a place that is always passed over for the job's closing 255; none if it has no closing 255.
pub fn without_closing(tables: &Tables, job: usize) -> Option<Tables> {
    if job >= tables.jobs.len() / WORDS {
        return None;
    }
    let mut record = read(&tables.jobs, job);
    if !closes(record.mode, places_of(&record)) {
        return None;
    }
    record.places[places_of(&record).len() - 1] = CLOSING - 1;
    let mut without = tables.clone();
    write(&mut without.jobs, job, &record);
    Some(without)
}

impl Closings {
    /// Enters a call, with the tables before it, and its answer.
    pub fn enter(&mut self, before: &Tables, call: &Call, answer: Answer) {
        match (call, answer) {
            (Call::Install { mode, places, .. }, Answer::Done) => {
                self.installed += u64::from(closes(*mode as u8, places));
            }
            (Call::Install { mode, places, .. }, Answer::Refused(6)) => {
                let fits = *mode < 256 && has_a_list(*mode as u8) && places.len() <= 16;
                self.misplaced += u64::from(fits && places.contains(&CLOSING) && !closes(*mode as u8, places));
            }
            (Call::Request { job, .. }, Answer::Granted { .. } | Answer::Refused(8)) => {
                let Some(mut without) = without_closing(before, *job) else { return };
                let by_place = apply(&mut without, call) == answer;
                match answer {
                    Answer::Refused(_) => self.no_room += 1,
                    _ if by_place => self.by_place += 1,
                    _ => self.by_near += 1,
                }
            }
            _ => {}
        }
    }

    /// Makes the calls one by one, from a start, and enters them.
    pub fn enter_list(&mut self, start: &Tables, calls: &[Call]) {
        apply_each(start, calls, |before, call, answer| self.enter(before, call, answer));
    }

    /// Each came at least so often.
    pub fn each_at_least(&self, times: u64) -> bool {
        let Closings { installed, misplaced, by_place, by_near, no_room } = *self;
        [installed, misplaced, by_place, by_near, no_room].into_iter().all(|count| count >= times)
    }
}

#[cfg(test)]
mod tests {
    use super::*;
    use crate::examples::machine_a;
    use crate::generate::{case, journal_parts, list, Case};
    use crate::record::{DEFAULT, LIST};

    /// A request of job 0.
    const REQUEST: Call = Call::Request { job: 0, cpu: 4 };

    #[test]
    fn what_is_counted() {
        let install = |mode, places: &[u8]| Call::Install { job: 0, mode, flag: 0, mask: 0, places: places.to_vec() };
        let mut calls = vec![install(4, &[3, 255]), install(5, &[3, 255]), install(4, &[255, 3]), install(4, &[4])];
        calls.extend(vec![REQUEST; 7]);
        let mut shown = Closings::default();
        shown.enter_list(&machine_a(), &calls);
        assert_eq!(shown, Closings { installed: 1, misplaced: 2, by_place: 2, by_near: 4, no_room: 1 });
    }

    /// What a request by a closing 255 is: as by the places alone; where these have no room, as by default.
    #[test]
    fn first_the_places_then_as_by_default() {
        let (mut by_place, mut by_near) = (0, 0);
        for seed in (0..60_000).filter(|seed| seed % 97 != 96) {
            let Case { tables, call, .. } = case(seed);
            let Call::Request { job, .. } = call else { continue };
            let Some(mut without) = without_closing(&tables, job) else { continue };
            let mut now = tables.clone();
            let answer = apply(&mut now, &call);
            let by_places = apply(&mut without, &call);
            if by_places != Answer::Refused(8) {
                assert_eq!(answer, by_places, "case {seed}");
                assert_eq!(now.pages, without.pages, "case {seed}");
                by_place += 1;
                continue;
            }
            let mut record = read(&tables.jobs, job);
            assert_eq!(record.mode, LIST);
            (record.mode, record.length, record.places) = (DEFAULT, 0, [0; 16]);
            let mut default = tables.clone();
            write(&mut default.jobs, job, &record);
            assert_eq!(answer, apply(&mut default, &call), "case {seed}");
            assert_eq!((&now.pages, &now.free), (&default.pages, &default.free), "case {seed}");
            assert_eq!(now.jobs, tables.jobs, "case {seed}");
            by_near += 1;
        }
        println!("{by_place} by the places, {by_near} as by default");
        assert!(by_place > 200 && by_near > 100, "{by_place} {by_near}");
    }

    #[test]
    fn generators_meet_it_often() {
        let (mut journals, mut lists, mut cases) = (Closings::default(), Closings::default(), Closings::default());
        for seed in 0..200 {
            for (start, calls, shown) in [
                (journal_parts(seed, 150).0, journal_parts(seed, 150).1, &mut journals),
                (list(seed, 150).0, list(seed, 150).1, &mut lists),
            ] {
                shown.enter_list(&start, &calls);
            }
        }
        for seed in (0..20_000).filter(|seed| seed % 97 != 96) {
            let Case { tables, call, .. } = case(seed);
            cases.enter_list(&tables, &[call]);
        }
        println!("journals {journals:?}\nlists {lists:?}\ncases {cases:?}");
        for shown in [journals, lists, cases] {
            assert!(shown.each_at_least(5), "{shown:?}");
        }
    }
}
