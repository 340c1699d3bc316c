//! The desk's types by hand, and the words that spell them.

use crate::trace::LIMIT;

/// How many seats there are.
pub const SEATS: usize = 32;
/// How many words spell a desk.
pub const DESK_WORDS: usize = 67;
/// The most changes that may begin.
pub const MOST_BEGUN: u32 = LIMIT;
/// Words or answers of another length than the call asks.
pub const WRONG_LENGTH: u64 = 99 << 32;
/// A request of no such kind.
pub const UNKNOWN_KIND: u64 = 22 << 32;
/// Every request was judged.
pub const JUDGED: u64 = 204 << 32;

const LIVE: usize = 64;
const LOCKED: usize = 65;
const BEGUN: usize = 66;

/// One seat, laid out as the proved one.
#[derive(Clone, Copy, Default)]
pub struct Seat {
    pub ticket: u32,
    pub wake: u32,
    pub live: bool,
    pub locked: bool,
}

/// The desk record.
#[derive(Clone, Copy, Default)]
pub struct Desk {
    pub seats: [Seat; SEATS],
    pub begun: u32,
}

/// A request.
#[derive(Clone, Copy)]
pub enum Request {
    Begin { seat: u32 },
    Lock { seat: u32, record: u32 },
    Touch { seat: u32, record: u32 },
    Release { seat: u32, record: u32 },
    Finish { seat: u32 },
}

/// Why a request is refused, by its number.
#[derive(Clone, Copy, PartialEq, Eq)]
pub enum Refusal {
    BadTables = 1,
    NoSeat,
    NoRecord,
    SeatLive,
    SeatFree,
    TooMany,
    NotHeld,
    GivenUp,
}

/// What is said to a request.
#[derive(Clone, Copy, PartialEq, Eq)]
pub enum Answer {
    Started { ticket: u32 },
    Granted,
    Held,
    Touched,
    Released,
    Finished,
    WaitHeld,
    WaitWake,
    Refused(Refusal),
}

impl Request {
    /// The request that three words spell.
    pub fn of_words(words: &[u32]) -> Option<Request> {
        let &[kind, seat, record] = words else {
            return None;
        };
        match kind {
            1 => Some(Request::Begin { seat }),
            2 => Some(Request::Lock { seat, record }),
            3 => Some(Request::Touch { seat, record }),
            4 => Some(Request::Release { seat, record }),
            5 => Some(Request::Finish { seat }),
            _ => None,
        }
    }

    /// The seat that asks.
    pub fn seat(self) -> u32 {
        match self {
            Request::Begin { seat } | Request::Finish { seat } => seat,
            Request::Lock { seat, .. } => seat,
            Request::Touch { seat, .. } => seat,
            Request::Release { seat, .. } => seat,
        }
    }
}

impl Answer {
    /// The answer as the exported call gives it: a code above, a value below.
    pub fn word(self) -> u64 {
        let (code, value) = match self {
            Answer::Started { ticket } => (101, ticket),
            Answer::Granted => (102, 0),
            Answer::Touched => (103, 0),
            Answer::Released => (104, 0),
            Answer::Finished => (105, 0),
            Answer::Held => (201, 0),
            Answer::WaitHeld => (202, 1),
            Answer::WaitWake => (202, 2),
            Answer::Refused(why) => (why as u64, 0),
        };
        code << 32 | u64::from(value)
    }
}

impl Desk {
    /// The desk that words spell.
    pub fn of_words(words: &[u32]) -> Desk {
        let mut desk = Desk { begun: words[BEGUN], ..Desk::default() };
        for (s, seat) in desk.seats.iter_mut().enumerate() {
            *seat = Seat {
                ticket: words[2 * s],
                wake: words[2 * s + 1],
                live: words[LIVE] >> s & 1 == 1,
                locked: words[LOCKED] >> s & 1 == 1,
            };
        }
        desk
    }

    /// Spells the desk.
    pub fn write_words(&self, words: &mut [u32]) {
        words[LIVE] = 0;
        words[LOCKED] = 0;
        words[BEGUN] = self.begun;
        for (s, seat) in self.seats.iter().enumerate() {
            words[2 * s] = seat.ticket;
            words[2 * s + 1] = seat.wake;
            words[LIVE] |= u32::from(seat.live) << s;
            words[LOCKED] |= u32::from(seat.locked) << s;
        }
    }
}
