//! The desk: two tables and a desk record, judged one request at a time.

use crate::event::Event;
use crate::number::LARGEST;
use crate::request::Request;
use crate::Refusal;

/// How many seats there are.
pub const SEATS: usize = 32;
/// The most records the tables may have.
pub const MOST_RECORDS: usize = 4_096;
/// The most changes that may begin: each has a ticket of its own.
pub const MOST_BEGUN: u32 = LARGEST;

/// Word a belongs to record a, bit s to seat s.
#[derive(Clone, Debug, PartialEq, Eq)]
pub struct Tables {
    pub held: Vec<u32>,
    pub released: Vec<u32>,
}

/// One seat of the desk record.
#[derive(Clone, Copy, Debug, Default, PartialEq, Eq)]
pub struct Seat {
    pub live: bool,
    pub ticket: u32,
    pub has_lock: bool,
    pub wake: u32,
}

/// The desk record: the seats and the number of changes begun.
#[derive(Clone, Copy, Debug, Default, PartialEq, Eq)]
pub struct DeskRecord {
    pub seats: [Seat; SEATS],
    pub begun: u32,
}

/// What the desk says to a request.
#[derive(Clone, Copy, Debug, PartialEq, Eq)]
pub enum Answer {
    Started(u32),
    Granted,
    Held,
    Touched,
    Released,
    Finished,
    Wait(u32),
    Refused(Refusal),
}

/// Whether tables are equal in length, not empty and not over 4,096.
fn fit(tables: &Tables) -> bool {
    let n = tables.held.len();
    n == tables.released.len() && (1..=MOST_RECORDS).contains(&n)
}

/// Fills both tables with zeros, or gives refusal 1; the record is that of free seats either way.
pub fn clear(tables: &Tables) -> (Result<(), Refusal>, Tables, DeskRecord) {
    if !fit(tables) {
        return (Err(1), tables.clone(), DeskRecord::default());
    }
    let n = tables.held.len();
    let cleared = Tables { held: vec![0; n], released: vec![0; n] };
    (Ok(()), cleared, DeskRecord::default())
}

/// Whether a seat's bit is in a word.
pub fn has(word: u32, seat: u32) -> bool {
    (word >> seat) & 1 == 1
}

/// A word with a seat's bit set.
pub fn with(word: u32, seat: u32) -> u32 {
    word | (1 << seat)
}

/// A word with a seat's bit cleared.
pub fn without(word: u32, seat: u32) -> u32 {
    word & !(1 << seat)
}

/// The first refusal that applies, tested in the order of the table.
pub fn refusal(tables: &Tables, desk: &DeskRecord, request: Request) -> Option<Refusal> {
    if !fit(tables) {
        return Some(1);
    }
    if request.seat() as usize >= SEATS {
        return Some(2);
    }
    if request.record().is_some_and(|record| record as usize >= tables.held.len()) {
        return Some(3);
    }
    let live = desk.seats[request.seat() as usize].live;
    match request {
        Request::Begin { .. } if live => Some(4),
        Request::Begin { .. } if desk.begun >= MOST_BEGUN => Some(6),
        Request::Begin { .. } => None,
        _ if !live => Some(5),
        Request::Finish { .. } => None,
        Request::Lock { seat, record } => refusal_of_bits(tables, seat, record, false),
        Request::Touch { seat, record } => refusal_of_bits(tables, seat, record, true),
        Request::Release { seat, record } => refusal_of_bits(tables, seat, record, true),
    }
}

/// Refusals 7 and 8, by the seat's held and released bits.
fn refusal_of_bits(tables: &Tables, seat: u32, record: u32, must_hold: bool) -> Option<Refusal> {
    let held = has(tables.held[record as usize], seat);
    let released = has(tables.released[record as usize], seat);
    if must_hold && !held {
        return Some(7);
    }
    if held && released {
        return Some(8);
    }
    None
}

/// One request: the answer, and the tables and desk record after it.
pub fn step(tables: &Tables, desk: &DeskRecord, request: Request) -> (Answer, Tables, DeskRecord) {
    let (mut tables, mut desk) = (tables.clone(), *desk);
    let answer = judge(&mut tables, &mut desk, request);
    (answer, tables, desk)
}

/// One request, done in place.
pub fn judge(tables: &mut Tables, desk: &mut DeskRecord, request: Request) -> Answer {
    if let Some(number) = refusal(tables, desk, request) {
        return Answer::Refused(number);
    }
    match request {
        Request::Begin { seat } => begin(desk, seat),
        Request::Lock { seat, record } => lock(tables, desk, seat, record),
        Request::Touch { .. } => Answer::Touched,
        Request::Release { seat, record } => release(tables, seat, record),
        Request::Finish { seat } => finish(tables, desk, seat),
    }
}

fn begin(desk: &mut DeskRecord, seat: u32) -> Answer {
    desk.begun += 1;
    let ticket = desk.begun;
    desk.seats[seat as usize] = Seat { live: true, ticket, has_lock: false, wake: 0 };
    Answer::Started(ticket)
}

fn lock(tables: &mut Tables, desk: &mut DeskRecord, seat: u32, record: u32) -> Answer {
    let held = tables.held[record as usize];
    let released = tables.released[record as usize];
    let asker = &mut desk.seats[seat as usize];
    if has(held, seat) {
        return Answer::Held;
    }
    if (0..32).any(|other| has(held, other) && !has(released, other)) {
        return Answer::Wait(1);
    }
    if asker.has_lock && asker.wake != released {
        return Answer::Wait(2);
    }
    tables.held[record as usize] = with(held, seat);
    // Only the first lock sets the wake: later ones were just found to agree with it.
    if !asker.has_lock {
        asker.wake = released;
        asker.has_lock = true;
    }
    Answer::Granted
}

fn release(tables: &mut Tables, seat: u32, record: u32) -> Answer {
    let word = &mut tables.released[record as usize];
    *word = with(*word, seat);
    Answer::Released
}

fn finish(tables: &mut Tables, desk: &mut DeskRecord, seat: u32) -> Answer {
    for table in [&mut tables.held, &mut tables.released] {
        table.iter_mut().for_each(|word| *word = without(*word, seat));
    }
    // A wake left behind would be inherited by the next change in this seat.
    for other in desk.seats.iter_mut() {
        other.wake = without(other.wake, seat);
    }
    desk.seats[seat as usize] = Seat::default();
    Answer::Finished
}

/// The event an answer puts in the trace; `before` is the desk record the request met.
pub fn event_of(request: Request, answer: Answer, before: &DeskRecord) -> Option<Event> {
    // Only BEGIN alters a ticket other than by freeing it, and its answer carries the new one.
    let ticket = before.seats.get(request.seat() as usize).map_or(0, |seat| seat.ticket);
    match (answer, request.record()) {
        (Answer::Started(ticket), _) => Some(Event::Started { ticket }),
        (Answer::Finished, _) => Some(Event::Finished { ticket }),
        (Answer::Granted, Some(record)) => Some(Event::Granted { ticket, record }),
        (Answer::Touched, Some(record)) => Some(Event::Touched { ticket, record }),
        (Answer::Released, Some(record)) => Some(Event::Released { ticket, record }),
        _ => None,
    }
}
