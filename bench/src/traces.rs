//! The traces that are ordered, read and written.

use second::event::read_event;
use second::gen::{order_file, pad, piece};

const FULL: usize = 65_536;

/// The names of all kinds of trace.
pub const KEYS: [&str; 6] = ["few", "down", "many", "down_many", "desk", "generated"];

/// A trace and what it is.
pub struct Trace {
    pub what: &'static str,
    pub bytes: Vec<u8>,
}

/// The trace of a name, of 65,536 bytes.
pub fn named(key: &str) -> Trace {
    let trace = |what, bytes| Trace { what, bytes };
    let up = |place: u32| place + 1;
    let down = |place: u32| 256 - place;
    match key {
        "few" => trace("256 tickets, 8 records", touches(8, up)),
        "down" => trace("256 tickets downwards, 8 records", touches(8, down)),
        "many" => trace("256 tickets, 4,096 records", touches(4_096, up)),
        "down_many" => trace("256 tickets downwards, 4,096 records", touches(4_096, down)),
        "desk" => trace("a desk's events, 4,096 records", changes()),
        "generated" => trace("the generator's", generated()),
        _ => panic!("no trace {key}"),
    }
}

/// Touches along a row of 256 tickets, ticket after ticket, as many by each, the records in turn.
fn touches(records: u32, ticket: impl Fn(u32) -> u32) -> Vec<u8> {
    let (mut trace, mut record) = (Vec::new(), 0);
    for place in 0..256 {
        while trace.len() < FULL / 256 * (place as usize + 1) - 7 {
            trace.extend(piece(3, &[ticket(place), record % records]));
            record += 1;
        }
    }
    full(trace)
}

/// Padded to its full length.
fn full(trace: Vec<u8>) -> Vec<u8> {
    let mut pieces = vec![trace];
    pad(&mut pieces, FULL);
    pieces.concat()
}

/// Changes one after the other, with all five kinds of event, each record granted and touched.
fn changes() -> Vec<u8> {
    let (mut trace, mut record) = (Vec::new(), 0);
    for ticket in 1..=256 {
        trace.extend(piece(1, &[ticket]));
        while trace.len() < FULL / 256 * ticket as usize - 20 {
            record = (record + 37) % 4_096;
            (2..=4).for_each(|kind| trace.extend(piece(kind, &[ticket, record])));
        }
        trace.extend(piece(5, &[ticket]));
    }
    full(trace)
}

/// The first full trace of the generator that has an order and is of many records.
fn generated() -> Vec<u8> {
    let fits = |bytes: &Vec<u8>| bytes.len() == FULL && distinct_records(bytes) > 200;
    let ordered = |bytes: &Vec<u8>| second::order_text(bytes).starts_with("order");
    (0..).map(|index| order_file(1, index)).find(|bytes| fits(bytes) && ordered(bytes)).unwrap()
}

fn distinct_records(trace: &[u8]) -> usize {
    let mut seen = [false; 4_096];
    let mut at = 0;
    while let Ok(Some((event, length))) = read_event(&trace[at..]) {
        event.record().into_iter().for_each(|record| seen[record as usize] = true);
        at += length;
    }
    seen.iter().filter(|&&seen| seen).count()
}

/// The whole events in the first so many bytes.
pub fn first_events(trace: &[u8], most: usize) -> &[u8] {
    let mut at = 0;
    while let Ok(Some((_, length))) = read_event(&trace[at..most]) {
        at += length;
    }
    &trace[..at]
}
