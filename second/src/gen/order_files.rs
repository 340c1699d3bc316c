//! Traces: of a desk, with and without rings, long ones, tickets and records at their limits.

use super::rng::Rng;
use super::{desk_files, events, pad, piece, Pieces};
use crate::desk_trace;
use crate::order::LONGEST_TRACE;

/// The events of one trace of some sort.
pub fn pieces(rng: &mut Rng) -> Pieces {
    match rng.below(20) {
        0..=4 => of_desk(rng),
        5..=7 => scattered(rng),
        8..=11 => ordered(rng),
        12..=15 => ring(rng),
        16 => Vec::new(),
        17..=18 => limits(rng),
        _ => long(rng),
    }
}

/// The trace of a request file.
fn of_desk(rng: &mut Rng) -> Pieces {
    events(&desk_trace(&desk_files::pieces(rng).concat()))
}

/// Few tickets and few records in any sequence: rings are common.
fn scattered(rng: &mut Rng) -> Pieces {
    let (tickets, records) = (rng.between(1, 6), rng.between(1, 8));
    let count = rng.between(1, 14);
    (0..count).map(|_| any_event(rng, tickets, records)).collect()
}

/// An event of any kind, thirteen times in sixteen a grant or a touch, one as often as the other.
fn any_event(rng: &mut Rng, tickets: u32, records: u32) -> Vec<u8> {
    let (ticket, record) = (rng.between(1, tickets), rng.below(records));
    match rng.below(16) {
        0 => piece(1, &[ticket]),
        1 => piece(4, &[ticket, record]),
        2 => piece(5, &[ticket]),
        _ => piece(rng.pick(&[2, 3]), &[ticket, record]),
    }
}

/// The kinds of a trace's accesses, to be drawn from: grants alone, touches alone, or both.
type Kinds = &'static [u8];

fn some_kinds(rng: &mut Rng) -> Kinds {
    rng.pick(&[&[2], &[3], &[2, 3], &[2, 3], &[2, 2, 2, 3], &[2, 3, 3, 3]])
}

/// Accesses that follow a hidden row of tickets in every record, so that no ring closes.
fn ordered(rng: &mut Rng) -> Pieces {
    let tickets = rng.pick(&[2, 3, 4, 8, 30, 256]);
    let records = rng.between(1, 20);
    let count = rng.between(1, 300) as usize;
    let mut row = Row::new(rng, tickets, records);
    (0..count).map(|_| row.access(rng)).collect()
}

/// A hidden row of tickets, and for each record how far along the row its accesses have come.
struct Row {
    kinds: Kinds,
    tickets: Vec<u32>,
    reached: Vec<usize>,
    first_record: u32,
}

impl Row {
    fn new(rng: &mut Rng, tickets: u32, records: u32) -> Row {
        let mut row: Vec<u32> = (1..=256).collect();
        rng.shuffle(&mut row);
        row.truncate(tickets as usize);
        let reached = (0..records).map(|_| rng.place(row.len())).collect();
        let (kinds, first_record) = (some_kinds(rng), rng.below(4_097 - records));
        Row { kinds, tickets: row, reached, first_record }
    }

    /// A grant or touch of some record, by the ticket it had reached or one further along.
    fn access(&mut self, rng: &mut Rng) -> Vec<u8> {
        let place = rng.place(self.reached.len());
        let further = self.reached[place] + rng.below(3) as usize;
        self.reached[place] = further.min(self.tickets.len() - 1);
        let ticket = self.tickets[self.reached[place]];
        piece(rng.pick(self.kinds), &[ticket, self.first_record + place as u32])
    }
}

/// A ring of befores by grants, touches or both, sometimes with one missing so that it stays open.
fn ring(rng: &mut Rng) -> Pieces {
    let size = rng.pick(&[2, 2, 3, 3, 4, 7, 40, 256]);
    let mut tickets: Vec<u32> = (1..=256).collect();
    rng.shuffle(&mut tickets);
    tickets.truncate(size);
    let kinds = some_kinds(rng);
    let mut links: Vec<Pieces> = (0..size).map(|place| link(rng, kinds, &tickets, place)).collect();
    if rng.chance(50) {
        links.remove(rng.place(size));
    }
    rng.shuffle(&mut links);
    if rng.chance(50) {
        return links.concat();
    }
    // All first accesses, then all second ones: the pairs are the same.
    let firsts = links.iter().map(|link| link[0].clone());
    let seconds = links.iter().map(|link| link[1].clone());
    firsts.chain(seconds).collect()
}

/// An access by the ticket at a place of the ring and then by the next, of a record of their own.
fn link(rng: &mut Rng, kinds: Kinds, tickets: &[u32], place: usize) -> Pieces {
    let next = tickets[(place + 1) % tickets.len()];
    let record = 300 + place as u32;
    [tickets[place], next].map(|ticket| piece(rng.pick(kinds), &[ticket, record])).to_vec()
}

/// A trace up to, at or just over 65,536 bytes.
fn long(rng: &mut Rng) -> Pieces {
    let records = rng.pick(&[1, 10, 300, 4_096]);
    let mut row = Row::new(rng, 256, records);
    let mut pieces = Pieces::new();
    // The hidden row's last ticket coming first closes a ring across the trace.
    if rng.chance(30) {
        pieces.push(piece(rng.pick(row.kinds), &[row.tickets[255], row.first_record]));
    }
    let mut used = super::length(&pieces);
    while used < LONGEST_TRACE - 7 {
        let event = row.access(rng);
        used += event.len();
        pieces.push(event);
    }
    pad(&mut pieces, LONGEST_TRACE);
    match rng.below(4) {
        0 => pieces.push(vec![rng.some_byte()]),
        1 => drop(pieces.pop()),
        _ => (),
    }
    pieces
}

/// Tickets and records at their limits, now and then past them.
fn limits(rng: &mut Rng) -> Pieces {
    const RECORDS: [u32; 6] = [0, 127, 128, 4_094, 4_095, 4_095];
    const PAST: [u32; 6] = [4_096, 4_096, 4_096, 65_535, 65_536, 2_097_151];
    let mut pieces = Pieces::new();
    for _ in 0..rng.between(1, 20) {
        let ticket = limit_ticket(rng);
        let records = if rng.chance(4) { &PAST } else { &RECORDS };
        let record = rng.pick(records);
        let kind = rng.pick(&[1, 2, 2, 3, 3, 4, 5]);
        let numbers = [ticket, record];
        let has_record = (2..=4).contains(&kind);
        pieces.push(piece(kind, if has_record { &numbers } else { &numbers[..1] }));
    }
    pieces
}

fn limit_ticket(rng: &mut Rng) -> u32 {
    if rng.chance(6) {
        return rng.pick(&[0, 257, 258, 16_383, 16_384, 65_535, 65_536, 2_097_150, 2_097_151]);
    }
    rng.pick(&[1, 2, 127, 128, 255, 256])
}
