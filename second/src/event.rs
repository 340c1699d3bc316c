//! Events of the trace: reading one from the front, writing one to the front.

use crate::number::{read_number, write_number, LARGEST};
use crate::{Refusal, RefusalAt};

/// The highest record an event may name.
pub const LAST_RECORD: u32 = 4_095;

/// What the desk allowed; wide numbers, so that the writer has something to refuse.
#[derive(Clone, Copy, Debug, PartialEq, Eq)]
pub enum Event {
    Started { ticket: u32 },
    Granted { ticket: u32, record: u32 },
    Touched { ticket: u32, record: u32 },
    Released { ticket: u32, record: u32 },
    Finished { ticket: u32 },
}

impl Event {
    /// The event's kind byte.
    pub fn kind(self) -> u8 {
        match self {
            Event::Started { .. } => 1,
            Event::Granted { .. } => 2,
            Event::Touched { .. } => 3,
            Event::Released { .. } => 4,
            Event::Finished { .. } => 5,
        }
    }

    /// The ticket it names.
    pub fn ticket(self) -> u32 {
        match self {
            Event::Started { ticket } | Event::Finished { ticket } => ticket,
            Event::Granted { ticket, .. } => ticket,
            Event::Touched { ticket, .. } => ticket,
            Event::Released { ticket, .. } => ticket,
        }
    }

    /// The record it names, for kinds 2, 3 and 4.
    pub fn record(self) -> Option<u32> {
        match self {
            Event::Started { .. } | Event::Finished { .. } => None,
            Event::Granted { record, .. } => Some(record),
            Event::Touched { record, .. } => Some(record),
            Event::Released { record, .. } => Some(record),
        }
    }
}

/// The event at the front of `rest` and its length, `None` at the end, or refusal 20 to 23.
pub fn read_event(rest: &[u8]) -> Result<Option<(Event, usize)>, Refusal> {
    let Some(&kind) = rest.first() else {
        return Ok(None);
    };
    if !(1..=5).contains(&kind) {
        return Err(22);
    }
    let (ticket, ticket_length) = read_ticket(&rest[1..])?;
    let after_ticket = 1 + ticket_length;
    if kind == 1 {
        return Ok(Some((Event::Started { ticket }, after_ticket)));
    }
    if kind == 5 {
        return Ok(Some((Event::Finished { ticket }, after_ticket)));
    }
    let (record, record_length) = read_record(&rest[after_ticket..])?;
    let event = match kind {
        2 => Event::Granted { ticket, record },
        3 => Event::Touched { ticket, record },
        _ => Event::Released { ticket, record },
    };
    Ok(Some((event, after_ticket + record_length)))
}

/// Hands the events of a trace to `take` from left to right; the earliest refusal decides.
pub fn each_event(
    trace: &[u8],
    mut take: impl FnMut(Event) -> Result<(), Refusal>,
) -> Result<(), RefusalAt> {
    let mut offset = 0;
    let at = |offset| move |number| RefusalAt { number, offset };
    while let Some((event, length)) = read_event(&trace[offset..]).map_err(at(offset))? {
        take(event).map_err(at(offset))?;
        offset += length;
    }
    Ok(())
}

/// A ticket is judged as a number first, then for being 0.
fn read_ticket(rest: &[u8]) -> Result<(u32, usize), Refusal> {
    let (ticket, length) = read_number(rest)?;
    if ticket == 0 {
        Err(23)
    } else {
        Ok((ticket, length))
    }
}

/// A record is judged as a number first, then for being too high.
fn read_record(rest: &[u8]) -> Result<(u32, usize), Refusal> {
    let (record, length) = read_number(rest)?;
    if record > LAST_RECORD {
        Err(23)
    } else {
        Ok((record, length))
    }
}

/// The one spelling of an event, or refusal 23.
pub fn spell_event(event: Event) -> Result<Vec<u8>, Refusal> {
    let ticket = event.ticket();
    if ticket == 0 || ticket > LARGEST || event.record().is_some_and(|record| record > LAST_RECORD)
    {
        return Err(23);
    }
    let mut bytes = vec![event.kind()];
    bytes.extend(write_number(ticket));
    if let Some(record) = event.record() {
        bytes.extend(write_number(record));
    }
    Ok(bytes)
}

/// Puts an event at the front of `room` and gives its length, or refusal 23, then 24.
pub fn write_event(event: Event, room: &mut [u8]) -> Result<usize, Refusal> {
    let bytes = spell_event(event)?;
    if bytes.len() > room.len() {
        return Err(24);
    }
    room[..bytes.len()].copy_from_slice(&bytes);
    Ok(bytes.len())
}
