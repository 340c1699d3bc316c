//! The trace check held against the history: the events it allows and the tables it leaves.

mod rules;

use rules::Changes;
use second::audit::audit;
use second::event::{each_event, spell_event, Event};
use second::gen::audit_file;
use second::order::{accesses, befores, list};
use second::RefusalAt;
use std::collections::{BTreeMap, BTreeSet};

const RECORDS: usize = 4_096;

/// What has happened, by ticket, and where each live change was seated.
#[derive(Clone, Default)]
struct History {
    changes: Changes,
    seats: BTreeMap<u32, u32>,
}

impl History {
    /// A ticket's place among the changes, if it is of a live one.
    fn live(&self, ticket: u32) -> Option<usize> {
        let place = ticket as usize - 1;
        self.changes.all.get(place).filter(|change| change.live).map(|_| place)
    }

    /// Whether a live change holds a record and has not released it.
    fn has(&self, ticket: u32, record: u32) -> bool {
        let change = self.live(ticket).map(|place| &self.changes.all[place]);
        change.is_some_and(|change| {
            change.granted.contains_key(&record) && !change.released.contains_key(&record)
        })
    }

    /// Whether an event may come next.
    fn allows(&self, event: Event) -> bool {
        let begun = self.changes.all.len() as u32;
        match event {
            Event::Started { ticket } => {
                let live = self.changes.all.iter().filter(|change| change.live).count();
                ticket == begun + 1 && live < 32
            }
            Event::Granted { ticket, record } => self.live(ticket).is_some_and(|place| {
                let had = self.changes.all[place].granted.contains_key(&record);
                !had && self.changes.allow_grant(place, record)
            }),
            Event::Touched { ticket, record } => self.has(ticket, record),
            Event::Released { ticket, record } => self.has(ticket, record),
            Event::Finished { ticket } => self.live(ticket).is_some(),
        }
    }

    /// Notes an event that was allowed.
    fn note(&mut self, event: Event) {
        let place = event.ticket() as usize - 1;
        match event {
            Event::Started { ticket } => {
                let taken: BTreeSet<u32> = self.seats.values().copied().collect();
                let lowest = (0..32).find(|seat| !taken.contains(seat)).expect("a seat is free");
                self.seats.insert(ticket, lowest);
                self.changes.start();
            }
            Event::Granted { record, .. } => self.changes.grant(place, record),
            Event::Touched { .. } => (),
            Event::Released { record, .. } => self.changes.release(place, record),
            Event::Finished { ticket } => {
                self.seats.remove(&ticket);
                self.changes.finish(place);
            }
        }
    }

    /// The held and released words, by what each seated change was granted and released.
    fn tables(&self) -> (Vec<u32>, Vec<u32>) {
        let (mut held, mut released) = (vec![0; RECORDS], vec![0; RECORDS]);
        for (&ticket, &seat) in &self.seats {
            let change = &self.changes.all[ticket as usize - 1];
            change.granted.keys().for_each(|&record| held[record as usize] |= 1 << seat);
            change.released.keys().for_each(|&record| released[record as usize] |= 1 << seat);
        }
        (held, released)
    }
}

/// The check's verdict and the tables it leaves, which were full of ones.
fn audited(trace: &[u8]) -> (Result<(), RefusalAt>, (Vec<u32>, Vec<u32>)) {
    let (mut held, mut released) = (vec![u32::MAX; RECORDS], vec![u32::MAX; RECORDS]);
    let verdict = audit(trace, &mut held, &mut released);
    (verdict, (held, released))
}

/// The verdict by the history, and the history up to it.
fn judged(trace: &[u8]) -> (Result<(), RefusalAt>, History) {
    let mut history = History::default();
    let verdict = each_event(trace, |event| {
        if !history.allows(event) {
            return Err(40);
        }
        history.note(event);
        Ok(())
    });
    (verdict, history)
}

/// Generated traces that are not too long to judge on the history.
fn traces(seed: u64, count: u64, longest: usize) -> impl Iterator<Item = Vec<u8>> {
    let all = (0..count).map(move |index| audit_file(seed, index));
    all.filter(move |trace| trace.len() <= longest)
}

#[test]
fn verdict_and_tables_are_those_of_the_history() {
    let (mut accepted, mut not_allowed) = (0, BTreeMap::new());
    for trace in traces(11, 6_000, 1_000) {
        let (verdict, tables) = audited(&trace);
        let (expected, history) = judged(&trace);
        assert_eq!(verdict, expected, "{trace:?}");
        assert!(tables == history.tables(), "{trace:?}");
        match verdict {
            Ok(()) => accepted += 1,
            Err(at) if at.number == 40 => *not_allowed.entry(trace[at.offset]).or_insert(0) += 1,
            Err(_) => (),
        }
    }
    assert!(accepted > 2_000);
    // Every kind of event is refused often enough to mean something.
    assert!((1..=5).all(|kind| not_allowed.get(&kind).is_some_and(|&count| count > 60)));
}

/// Every event of the tickets and records of a history, of the ticket to come and the one after.
fn candidates(history: &History) -> Vec<Event> {
    let changes = &history.changes.all;
    let mut records: BTreeSet<u32> =
        changes.iter().flat_map(|c| c.granted.keys()).copied().collect();
    records.insert((0..).find(|record| !records.contains(record)).expect("a record is left"));
    let mut events = Vec::new();
    for ticket in 1..=changes.len() as u32 + 2 {
        events.extend([Event::Started { ticket }, Event::Finished { ticket }]);
        for &record in &records {
            events.push(Event::Granted { ticket, record });
            events.push(Event::Touched { ticket, record });
            events.push(Event::Released { ticket, record });
        }
    }
    events
}

#[test]
fn every_event_that_might_come_next() {
    let mut counts: BTreeMap<(u8, bool), u32> = BTreeMap::new();
    for trace in traces(12, 500, 120) {
        let (verdict, history) = judged(&trace);
        let end = verdict.map_or_else(|refusal| refusal.offset, |()| trace.len());
        for event in candidates(&history) {
            let allowed = history.allows(event);
            let next = [&trace[..end], &spell_event(event).unwrap()].concat();
            let expected =
                if allowed { Ok(()) } else { Err(RefusalAt { number: 40, offset: end }) };
            assert_eq!(audited(&next).0, expected, "{event:?} after {:?}", &trace[..end]);
            *counts.entry((event.kind(), allowed)).or_default() += 1;
        }
    }
    let kinds = (1..=5).flat_map(|kind| [(kind, false), (kind, true)]);
    assert!(kinds.into_iter().all(|kind| counts.get(&kind).is_some_and(|&count| count > 300)));
}

#[test]
fn an_accepted_trace_has_befores_without_a_ring() {
    let mut accepted = 0;
    for trace in traces(13, 4_000, 4_000) {
        // The order takes tickets to 256; longer traces are judged by the same rules.
        if let (Ok(()), Ok(accesses)) = (audited(&trace).0, accesses(&trace)) {
            assert!(list(&accesses, &befores(&accesses)).is_some());
            accepted += 1;
        }
    }
    assert!(accepted > 1_000);
}
