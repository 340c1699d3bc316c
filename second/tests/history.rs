//! The two basic altruistic rules judged on the history, held against the desk's own answers.

mod rules;

use rules::Changes;
use second::desk::{has, Answer};
use second::gen::desk_file;
use second::order::{accesses, befores, list};
use second::programs::{Work, RECORDS};
use second::request::{read_request, Request};
use std::collections::{BTreeMap, BTreeSet};

/// All changes since the tables were cleared, and which of them has each seat.
#[derive(Default)]
struct History {
    changes: Changes,
    seats: BTreeMap<u32, usize>,
}

impl History {
    /// Notes what an answer did.
    fn note(&mut self, request: Request, answer: Answer) {
        let seat = request.seat();
        match (answer, request) {
            (Answer::Started(_), _) => {
                self.seats.insert(seat, self.changes.all.len());
                self.changes.start();
            }
            (Answer::Granted, Request::Lock { record, .. }) => {
                self.changes.grant(self.seats[&seat], record);
            }
            (Answer::Released, Request::Release { record, .. }) => {
                self.changes.release(self.seats[&seat], record);
            }
            (Answer::Finished, _) => {
                self.changes.finish(self.seats[&seat]);
                self.seats.remove(&seat);
            }
            _ => (),
        }
    }

    /// What the rules say of a LOCK by a live change that has not had the record.
    fn judges(&self, request: Request) -> Option<bool> {
        let Request::Lock { seat, record } = request else {
            return None;
        };
        let change = *self.seats.get(&seat)?;
        let had = self.changes.all[change].granted.contains_key(&record);
        let fresh = !had && (record as usize) < RECORDS;
        fresh.then(|| self.changes.allow_grant(change, record))
    }
}

/// The requests of a file up to its first fault.
fn requests(bytes: &[u8]) -> Vec<Request> {
    let mut found = Vec::new();
    let mut at = 0;
    while let Ok(Some((request, length))) = read_request(&bytes[at..]) {
        found.push(request);
        at += length;
    }
    found
}

/// Holds the desk against the history; gives how many LOCKs were granted and told to wait.
fn hold_against_history(requests: &[Request]) -> (usize, usize) {
    let mut work = Work::cleared(RECORDS);
    let mut history = History::default();
    let (mut granted, mut waits) = (0, 0);
    for &request in requests {
        let judged = history.judges(request);
        let answer = work.ask(request);
        match (judged, answer) {
            (Some(true), Answer::Granted) => granted += 1,
            (Some(false), Answer::Wait(_)) => waits += 1,
            (Some(_), _) => panic!("{request:?} got {answer:?}, the history says {judged:?}"),
            (None, Answer::Granted | Answer::Wait(_)) => panic!("{request:?} got {answer:?}"),
            (None, _) => (),
        }
        history.note(request, answer);
        wakes_agree(&work, &history);
    }
    (granted, waits)
}

/// A seat's wake names exactly the live changes in whose wake it is.
fn wakes_agree(work: &Work, history: &History) {
    for (&seat, &change) in &history.seats {
        for (&other, &ahead) in &history.seats {
            let wake = work.desk.seats[seat as usize].wake;
            let follows = history.changes.all[change].in_wake_of(&history.changes.all[ahead]);
            assert_eq!(has(wake, other), seat != other && follows);
        }
    }
}

#[test]
fn a_lock_is_granted_exactly_when_both_rules_hold_after_it() {
    let (mut granted, mut waits) = (0, 0);
    for index in 0..2_000 {
        let requests = requests(&desk_file(3, index));
        // Long files take long to judge on the history, and short ones reach every case.
        let some = &requests[..requests.len().min(400)];
        let counts = hold_against_history(some);
        granted += counts.0;
        waits += counts.1;
    }
    assert!(granted > 5_000 && waits > 5_000);
}

#[test]
fn no_chain_of_befores_of_a_desk_returns_to_its_start() {
    for index in 0..2_000 {
        let mut work = Work::cleared(RECORDS);
        let mut granted = BTreeSet::new();
        for request in requests(&desk_file(4, index)) {
            let begins = request.kind() == 1;
            if (work.desk.begun < 256 || !begins) && work.ask(request) == Answer::Granted {
                granted.insert(work.desk.seats[request.seat() as usize].ticket);
            }
        }
        let accesses = accesses(&work.trace).unwrap();
        let listed = list(&accesses, &befores(&accesses)).unwrap();
        // A change touches only what it was granted: whoever was granted something is listed.
        assert_eq!(listed.len(), granted.len());
        assert_eq!(listed.into_iter().collect::<BTreeSet<u32>>(), granted);
    }
}
