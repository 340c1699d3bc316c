//! Desk runs whose traces the trace check takes: any seats, tables of 4,096 records and fewer.

use super::desk_files::{one_change, HABITS};
use super::rng::Rng;
use super::sweep::{one_sweep, Floor};
use super::world::World;
use super::{damage, piece};
use crate::desk::{MOST_BEGUN, MOST_RECORDS};
use crate::order::LONGEST_TRACE;

/// The tables' records; a sweep and what is beside it take up to 16 of them.
const RECORDS: [usize; 6] = [17, 40, 256, 4_095, MOST_RECORDS, MOST_RECORDS];

/// One desk run of some sort.
pub fn run(rng: &mut Rng) -> Floor {
    let mut floor = Floor::cleared(rng.pick(&RECORDS));
    match rng.below(40) {
        0..=12 => one_sweep(rng, &mut floor, &HABITS),
        13..=28 => contended(rng, &mut floor),
        29..=34 => crowded(rng, &mut floor),
        35 => (),
        36..=37 => many_changes(rng, &mut floor),
        _ => sweeps(rng, &mut floor),
    }
    floor
}

/// A few seats that ask for a few records.
fn contended(rng: &mut Rng, floor: &mut Floor) {
    let (seats, records) = (rng.between(2, 6), rng.between(1, 6));
    let requests = rng.between(5, 80);
    requests_of(rng, floor, (seats, records, 10), requests);
}

/// Every seat asks and few finish, so that all are live at times.
fn crowded(rng: &mut Rng, floor: &mut Floor) {
    let (records, finish) = (rng.between(2, 17), rng.pick(&[0, 0, 1, 2]));
    let requests = rng.between(200, 500);
    requests_of(rng, floor, (32, records, finish), requests);
}

/// So many requests of a world of so many seats and records, any of them.
fn requests_of(rng: &mut Rng, floor: &mut Floor, world: (u32, u32, u32), requests: u32) {
    let (seats, records, finish) = world;
    let mut chosen: Vec<u32> = (0..32).collect();
    rng.shuffle(&mut chosen);
    chosen.truncate(seats as usize);
    let first = rng.below(floor.records() - records + 1);
    let world = World { seats: chosen, first, records, finish };
    for _ in 0..requests {
        world.any_request(rng, floor);
    }
}

/// Changes one after another, to tickets of two bytes and now and then of three.
fn many_changes(rng: &mut Rng, floor: &mut Floor) {
    let changes = if rng.chance(3) { 16_400 } else { rng.pick(&[126, 127, 128, 129, 300]) };
    for _ in 0..changes {
        one_change(rng, floor);
    }
}

/// Sweeps one after another; editors that had not finished are in the way of the next.
fn sweeps(rng: &mut Rng, floor: &mut Floor) {
    let most = rng.between(500, 8_000) as usize;
    while floor.used() < most {
        one_sweep(rng, floor, &HABITS);
    }
}

/// A trace that ends about where a reader by the longest order's bytes would stop, once to three times, or one of many tickets.
pub fn very_long(rng: &mut Rng) -> Vec<u8> {
    if rng.chance(20) {
        return many_tickets(rng);
    }
    let mut trace = [piece(1, &[1]), piece(2, &[1, 5]), piece(2, &[1, 200])].concat();
    let end = LONGEST_TRACE * rng.between(1, 3) as usize;
    // Touches of record 5 take three bytes and those of record 200 four.
    let odd = (end - trace.len()) % 3;
    trace.extend(piece(3, &[1, 200]).repeat(odd));
    let touches = (end - trace.len()) / 3;
    trace.extend(piece(3, &[1, 5]).repeat(touches));
    match rng.below(3) {
        0 => trace.push(rng.some_byte()),
        1 => drop(trace.pop()),
        _ => (),
    }
    trace
}

/// Changes that begin and finish beside the first one, to about ticket 65,536 or past where that
/// reader would stop next. The last one locks, touches and releases, and something more may follow.
/// The largest ticket would take 32 times as many events: a test has it, no file does.
fn many_tickets(rng: &mut Rng) -> Vec<u8> {
    let last = rng.pick(&[65_534, 65_535, 65_536, 69_700]);
    let mut trace = [piece(1, &[1]), piece(2, &[1, 5])].concat();
    // Some touches of three bytes, so that the reader may stop anywhere in a later event.
    trace.extend(piece(3, &[1, 5]).repeat(rng.place(8)));
    for ticket in 2..last {
        trace.extend(piece(1, &[ticket]));
        trace.extend(piece(5, &[ticket]));
    }
    trace.extend(piece(1, &[last]));
    for kind in 2..=4 {
        trace.extend(piece(kind, &[last, 6]));
    }
    if rng.chance(70) {
        trace.push(rng.pick(&[1, 1, 5]));
        let ticket = rng.pick(&[1, last, last + 1, last + 1, MOST_BEGUN, MOST_BEGUN + 1]);
        trace.extend(damage::spell(ticket, 1));
    }
    trace
}
