//! Requests to the desk, and how a request file spells them.

use crate::number::read_number;
use crate::Refusal;

/// The five requests; wide numbers, so that the desk has something to refuse.
#[derive(Clone, Copy, Debug, PartialEq, Eq)]
pub enum Request {
    Begin { seat: u32 },
    Lock { seat: u32, record: u32 },
    Touch { seat: u32, record: u32 },
    Release { seat: u32, record: u32 },
    Finish { seat: u32 },
}

impl Request {
    /// The request's kind byte in a file.
    pub fn kind(self) -> u8 {
        match self {
            Request::Begin { .. } => 1,
            Request::Lock { .. } => 2,
            Request::Touch { .. } => 3,
            Request::Release { .. } => 4,
            Request::Finish { .. } => 5,
        }
    }

    /// The seat that asks.
    pub fn seat(self) -> u32 {
        match self {
            Request::Begin { seat } | Request::Finish { seat } => seat,
            Request::Lock { seat, .. } => seat,
            Request::Touch { seat, .. } => seat,
            Request::Release { seat, .. } => seat,
        }
    }

    /// The record asked for, if the kind has one.
    pub fn record(self) -> Option<u32> {
        match self {
            Request::Begin { .. } | Request::Finish { .. } => None,
            Request::Lock { record, .. } => Some(record),
            Request::Touch { record, .. } => Some(record),
            Request::Release { record, .. } => Some(record),
        }
    }
}

/// The request at the front of `rest` and its length, `None` at the end, or refusal 20 to 22.
pub fn read_request(rest: &[u8]) -> Result<Option<(Request, usize)>, Refusal> {
    let Some(&kind) = rest.first() else {
        return Ok(None);
    };
    if !(1..=5).contains(&kind) {
        return Err(22);
    }
    let (seat, seat_length) = read_number(&rest[1..])?;
    let after_seat = 1 + seat_length;
    if kind == 1 {
        return Ok(Some((Request::Begin { seat }, after_seat)));
    }
    if kind == 5 {
        return Ok(Some((Request::Finish { seat }, after_seat)));
    }
    let (record, record_length) = read_number(&rest[after_seat..])?;
    let request = match kind {
        2 => Request::Lock { seat, record },
        3 => Request::Touch { seat, record },
        _ => Request::Release { seat, record },
    };
    Ok(Some((request, after_seat + record_length)))
}
