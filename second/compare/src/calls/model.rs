//! The second program's calls on words, with answers and desk records as include/saltlicker.h numbers them.

use super::Calls;
use second::desk::{self, Answer, DeskRecord, Tables, SEATS};
use second::event::{read_event, write_event, Event};
use second::request::Request;

pub const SECOND: Calls =
    Calls { clear, judge, read, write, order, audit, desk_text, order_text, audit_text };

const DESK_WORDS: usize = 67;
const UNKNOWN_KIND: u64 = 22 << 32;
const WRONG_LENGTH: u64 = 99 << 32;

/// An answer: its code above its value.
fn numbered(code: u32, value: u32) -> u64 {
    u64::from(code) << 32 | u64::from(value)
}

/// What an answer is called in a tally, with its number if it is a wait or a refusal.
pub fn word_and_number(answer: u64) -> (&'static str, u32) {
    let (code, value) = ((answer >> 32) as u32, answer as u32);
    match code {
        0..=99 => ("refused", code),
        101 => ("started", 0),
        102 => ("granted", 0),
        103 => ("touched", 0),
        104 => ("released", 0),
        105 => ("finished", 0),
        201 => ("held", 0),
        202 => ("wait", value),
        203 => ("cleared", 0),
        204 => ("judged", 0),
        205 => ("found", 0),
        206 => ("end", 0),
        207 => ("written", 0),
        208 => ("order", 0),
        209 => ("accepted", 0),
        _ => ("unknown", 0),
    }
}

fn answer_number(answer: Answer) -> u64 {
    match answer {
        Answer::Started(ticket) => numbered(101, ticket),
        Answer::Granted => numbered(102, 0),
        Answer::Touched => numbered(103, 0),
        Answer::Released => numbered(104, 0),
        Answer::Finished => numbered(105, 0),
        Answer::Held => numbered(201, 0),
        Answer::Wait(number) => numbered(202, number),
        Answer::Refused(number) => numbered(number, 0),
    }
}

fn record_of(words: &[u32]) -> DeskRecord {
    let mut record = DeskRecord { begun: words[66], ..DeskRecord::default() };
    for (place, seat) in record.seats.iter_mut().enumerate() {
        seat.ticket = words[2 * place];
        seat.wake = words[2 * place + 1];
        seat.live = desk::has(words[64], place as u32);
        seat.has_lock = desk::has(words[65], place as u32);
    }
    record
}

fn words_of(record: &DeskRecord) -> Vec<u32> {
    let mut words = vec![0; DESK_WORDS];
    for (place, seat) in record.seats.iter().enumerate() {
        words[2 * place] = seat.ticket;
        words[2 * place + 1] = seat.wake;
        words[2 * SEATS] |= u32::from(seat.live) << place;
        words[2 * SEATS + 1] |= u32::from(seat.has_lock) << place;
    }
    words[2 * SEATS + 2] = record.begun;
    words
}

fn tables_of(held: &[u32], released: &[u32]) -> Tables {
    Tables { held: held.to_vec(), released: released.to_vec() }
}

fn clear(held: &mut [u32], released: &mut [u32], words: &mut [u32]) -> u64 {
    if words.len() != DESK_WORDS {
        return WRONG_LENGTH;
    }
    let (answer, tables, record) = desk::clear(&tables_of(held, released));
    held.copy_from_slice(&tables.held);
    released.copy_from_slice(&tables.released);
    words.copy_from_slice(&words_of(&record));
    match answer {
        Ok(()) => numbered(203, 0),
        Err(number) => numbered(number, 0),
    }
}

fn request_of(words: &[u32]) -> Option<Request> {
    let (seat, record) = (words[1], words[2]);
    match words[0] {
        1 => Some(Request::Begin { seat }),
        2 => Some(Request::Lock { seat, record }),
        3 => Some(Request::Touch { seat, record }),
        4 => Some(Request::Release { seat, record }),
        5 => Some(Request::Finish { seat }),
        _ => None,
    }
}

fn judge(
    held: &mut [u32],
    released: &mut [u32],
    words: &mut [u32],
    requests: &[u32],
    answers: &mut [u64],
) -> u64 {
    if words.len() != DESK_WORDS || requests.len() != 3 * answers.len() {
        return WRONG_LENGTH;
    }
    let (mut tables, mut record) = (tables_of(held, released), record_of(words));
    for (request, answer) in requests.chunks(3).zip(answers) {
        *answer = match request_of(request) {
            None => UNKNOWN_KIND,
            Some(request) => answer_number(desk::judge(&mut tables, &mut record, request)),
        };
    }
    held.copy_from_slice(&tables.held);
    released.copy_from_slice(&tables.released);
    words.copy_from_slice(&words_of(&record));
    numbered(204, 0)
}

fn read(rest: &[u8], words: &mut [u32]) -> u64 {
    if words.len() != 3 {
        return WRONG_LENGTH;
    }
    match read_event(rest) {
        Err(number) => numbered(number, 0),
        Ok(None) => numbered(206, 0),
        Ok(Some((event, length))) => {
            let record = event.record().unwrap_or(0);
            words.copy_from_slice(&[u32::from(event.kind()), event.ticket(), record]);
            numbered(205, length as u32)
        }
    }
}

fn write(room: &mut [u8], kind: u32, ticket: u32, record: u32) -> u64 {
    let event = match kind {
        1 => Event::Started { ticket },
        2 => Event::Granted { ticket, record },
        3 => Event::Touched { ticket, record },
        4 => Event::Released { ticket, record },
        5 => Event::Finished { ticket },
        _ => return UNKNOWN_KIND,
    };
    match write_event(event, room) {
        Ok(length) => numbered(207, length as u32),
        Err(number) => numbered(number, 0),
    }
}

fn order(trace: &[u8], table: &mut [u32], list: &mut [u16]) -> u64 {
    match second::order::order(trace, table, list) {
        Ok(count) => numbered(208, count as u32),
        Err(refusal) => numbered(refusal.number, refusal.offset as u32),
    }
}

fn audit(trace: &[u8], held: &mut [u32], released: &mut [u32], at: &mut [u64]) -> u64 {
    let [at] = at else {
        return WRONG_LENGTH;
    };
    match second::audit::audit(trace, held, released) {
        Ok(()) => numbered(209, 0),
        Err(refusal) => {
            *at = refusal.offset as u64;
            numbered(refusal.number, 0)
        }
    }
}

fn desk_text(file: &[u8], room: &mut [u8]) -> usize {
    put(&second::desk_text(file), room)
}

fn order_text(trace: &[u8], room: &mut [u8]) -> usize {
    put(&second::order_text(trace), room)
}

fn audit_text(trace: &[u8], room: &mut [u8]) -> usize {
    put(&second::audit_text(trace), room)
}

/// Puts as much of a text as there is room for, and gives how much that is.
fn put(text: &str, room: &mut [u8]) -> usize {
    let length = text.len().min(room.len());
    room[..length].copy_from_slice(&text.as_bytes()[..length]);
    length
}
