//! The trace: events written and read one at a time.

use crate::names::{code, value, END, EVENT_WORDS, FOUND, WRITTEN};
use crate::{names, raw, Fault, Refusal};

/// What the desk allowed. Ticket 1 to 2,097,151 and record 0 to 4,095 can be written.
#[derive(Clone, Copy, Debug, PartialEq, Eq, Hash)]
pub enum Event {
    Started { ticket: u32 },
    Granted { ticket: u32, record: u32 },
    Touched { ticket: u32, record: u32 },
    Released { ticket: u32, record: u32 },
    Finished { ticket: u32 },
}

/// The longest event: a kind, a ticket of three bytes and a record of two.
const LONGEST: usize = 6;

impl Event {
    fn words(self) -> [u32; EVENT_WORDS] {
        match self {
            Event::Started { ticket } => [names::BEGIN, ticket, 0],
            Event::Granted { ticket, record } => [names::LOCK, ticket, record],
            Event::Touched { ticket, record } => [names::TOUCH, ticket, record],
            Event::Released { ticket, record } => [names::RELEASE, ticket, record],
            Event::Finished { ticket } => [names::FINISH, ticket, 0],
        }
    }

    fn of([kind, ticket, record]: [u32; EVENT_WORDS]) -> Event {
        match kind {
            names::BEGIN => Event::Started { ticket },
            names::LOCK => Event::Granted { ticket, record },
            names::TOUCH => Event::Touched { ticket, record },
            names::RELEASE => Event::Released { ticket, record },
            _ => Event::Finished { ticket },
        }
    }
}

/// The event at the front of `rest` and its length, `None` at the end, or refused 20 to 23.
pub fn read_event(rest: &[u8]) -> Result<Option<(Event, usize)>, Refusal> {
    let mut words = [0; EVENT_WORDS];
    let answer = raw::read(rest, &mut words);
    match code(answer) {
        FOUND => Ok(Some((Event::of(words), value(answer) as usize))),
        END => Ok(None),
        number => Err(Refusal(number)),
    }
}

/// Puts an event at the front of `room` and gives its length, or is refused 23 or 24.
pub fn write_event(room: &mut [u8], event: Event) -> Result<usize, Refusal> {
    let [kind, ticket, record] = event.words();
    let answer = raw::write(room, kind, ticket, record);
    match code(answer) {
        WRITTEN => Ok(value(answer) as usize),
        number => Err(Refusal(number)),
    }
}

/// Puts an event at the end of a trace, or is refused 23.
pub fn append_event(trace: &mut Vec<u8>, event: Event) -> Result<(), Refusal> {
    let mut room = [0; LONGEST];
    let length = write_event(&mut room, event)?;
    trace.extend_from_slice(&room[..length]);
    Ok(())
}

/// The events of a trace from left to right; the first fault is the last item.
pub fn events(trace: &[u8]) -> Events<'_> {
    Events { trace, at: 0 }
}

/// See [`events`].
#[derive(Clone, Debug)]
pub struct Events<'a> {
    trace: &'a [u8],
    at: usize,
}

impl Iterator for Events<'_> {
    type Item = Result<Event, Fault>;

    fn next(&mut self) -> Option<Self::Item> {
        match read_event(&self.trace[self.at..]) {
            Ok(None) => None,
            Ok(Some((event, length))) => {
                self.at += length;
                Some(Ok(event))
            }
            Err(refusal) => {
                self.trace = &self.trace[..self.at];
                Some(Err(Fault { refusal, offset: self.at }))
            }
        }
    }
}

impl std::iter::FusedIterator for Events<'_> {}
