//! The trace check: whether each event is one that the desk could have written then.

use crate::desk::{event_of, judge, DeskRecord, Tables, MOST_RECORDS};
use crate::event::{each_event, Event};
use crate::request::Request;
use crate::{Refusal, RefusalAt};

/// The records of the two tables that the check is lent.
pub const TABLE_RECORDS: usize = MOST_RECORDS;

/// The refusal of an event that reads and that the desk could not have written then.
const NOT_ALLOWED: Refusal = 40;

/// The audit call: a verdict, and the tables as after the last event that is allowed.
pub fn audit(trace: &[u8], held: &mut [u32], released: &mut [u32]) -> Result<(), RefusalAt> {
    if held.len() != TABLE_RECORDS || released.len() != TABLE_RECORDS {
        return Err(RefusalAt { number: 1, offset: 0 });
    }
    let mut tables = Tables { held: vec![0; TABLE_RECORDS], released: vec![0; TABLE_RECORDS] };
    let mut desk = DeskRecord::default();
    let verdict = each_event(trace, |event| follow(&mut tables, &mut desk, event));
    held.copy_from_slice(&tables.held);
    released.copy_from_slice(&tables.released);
    verdict
}

/// Asks the desk for an event; unless it writes that very event, refusal 40 and unchanged tables.
fn follow(tables: &mut Tables, desk: &mut DeskRecord, event: Event) -> Result<(), Refusal> {
    let request = request_for(desk, event).ok_or(NOT_ALLOWED)?;
    let before = *desk;
    let answer = judge(tables, desk, request);
    // A start that gets another ticket has altered no table.
    let written = event_of(request, answer, &before);
    (written == Some(event)).then_some(()).ok_or(NOT_ALLOWED)
}

/// The request that calls for an event, unless no seat can ask it.
pub fn request_for(desk: &DeskRecord, event: Event) -> Option<Request> {
    let seat = seat_for(desk, event)?;
    Some(match event {
        Event::Started { .. } => Request::Begin { seat },
        Event::Granted { record, .. } => Request::Lock { seat, record },
        Event::Touched { record, .. } => Request::Touch { seat, record },
        Event::Released { record, .. } => Request::Release { seat, record },
        Event::Finished { .. } => Request::Finish { seat },
    })
}

/// The lowest free seat for a started change, else the seat of the live change with the ticket.
fn seat_for(desk: &DeskRecord, event: Event) -> Option<u32> {
    let seats = desk.seats.iter();
    let found = match event {
        Event::Started { .. } => seats.zip(0..).find(|(seat, _)| !seat.live),
        _ => seats.zip(0..).find(|(seat, _)| seat.live && seat.ticket == event.ticket()),
    };
    found.map(|(_, number)| number)
}
