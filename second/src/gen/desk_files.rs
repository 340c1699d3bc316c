//! Request files: sweeps with editors, small contended worlds, long files, limits.

use super::rng::Rng;
use super::sweep::{one_sweep, Floor, Habits};
use super::world::World;
use super::{pad, piece, Pieces};
use crate::programs::{LONGEST_FILE, RECORDS};
use crate::request::Request;

/// Sweeps of a few records.
pub const HABITS: Habits =
    Habits { editors: (1, 5), road: (2, 12), beside: 4, finish: 8, work: 60, leave: 70 };

/// The requests of one file of some sort.
pub fn pieces(rng: &mut Rng) -> Pieces {
    match rng.below(20) {
        0..=6 => sweep(rng),
        7..=13 => contended(rng),
        14 => Vec::new(),
        15..=16 => limits(rng),
        17 => many_changes(rng),
        18 => long_sweeps(rng),
        _ => long(rng),
    }
}

/// One sweep over a few records with editors in its wake and beside it.
fn sweep(rng: &mut Rng) -> Pieces {
    let mut floor = Floor::cleared(RECORDS);
    one_sweep(rng, &mut floor, &HABITS);
    floor.pieces()
}

/// Sweeps one after another, up to about the longest file.
fn long_sweeps(rng: &mut Rng) -> Pieces {
    let mut floor = Floor::cleared(RECORDS);
    let most = rng.between(500, 16_000) as usize;
    // Editors that had not finished stay and are in the way of the next sweep.
    while floor.used() < most {
        one_sweep(rng, &mut floor, &HABITS);
    }
    floor.pieces()
}

/// A small world: few seats, few records, many requests.
fn contended(rng: &mut Rng) -> Pieces {
    let mut floor = Floor::cleared(RECORDS);
    let world = World::from_zero(rng.between(2, 5), rng.between(1, 5), 10);
    for _ in 0..rng.between(5, 80) {
        world.any_request(rng, &mut floor);
    }
    floor.pieces()
}

/// A file with every request in its limits up to, at or just over 16,384 bytes.
fn long(rng: &mut Rng) -> Pieces {
    let mut floor = Floor::cleared(RECORDS);
    let (seats, records) = (rng.between(3, 32), rng.between(2, 100));
    // A slow world begins few changes, so its order is more than a refusal 27.
    let finish = rng.pick(&[3, 3, 3, 12]);
    let world = World::from_zero(seats, records, finish);
    while floor.used() < LONGEST_FILE - 6 {
        world.any_request(rng, &mut floor);
    }
    let mut pieces = floor.pieces();
    pad(&mut pieces, LONGEST_FILE);
    match rng.below(4) {
        0 => pieces.push(vec![rng.some_byte()]),
        1 => drop(pieces.pop()),
        _ => (),
    }
    pieces
}

/// About 256 changes one after another.
fn many_changes(rng: &mut Rng) -> Pieces {
    let mut floor = Floor::cleared(RECORDS);
    for _ in 0..rng.pick(&[255, 256, 257, 258, 300]) {
        one_change(rng, &mut floor);
    }
    floor.pieces()
}

/// A change that begins, has a record, and finishes; a surveyor's, one in four, only locks.
pub fn one_change(rng: &mut Rng, floor: &mut Floor) {
    let (seat, record) = (rng.below(32), rng.below(4));
    floor.ask(Request::Begin { seat });
    floor.ask(Request::Lock { seat, record });
    if !rng.chance(25) {
        floor.ask(Request::Touch { seat, record });
    }
    floor.ask(Request::Finish { seat });
}

/// Good spellings of seats and records at and past their limits.
fn limits(rng: &mut Rng) -> Pieces {
    const SEATS: [u32; 11] = [0, 30, 31, 31, 31, 32, 127, 128, 65_535, 65_536, 2_097_151];
    const PLACES: [u32; 14] = [
        0, 127, 128, 254, 255, 255, 256, 4_095, 4_096, 16_384, 65_535, 65_536, 2_097_150, 2_097_151,
    ];
    let mut pieces = vec![piece(1, &[0]), piece(1, &[31])];
    for _ in 0..rng.between(1, 40) {
        let kind = rng.pick(&[1, 2, 2, 2, 3, 3, 4, 5]);
        let (seat, record) = (rng.pick(&SEATS), rng.pick(&PLACES));
        let numbers = [seat, record];
        let has_record = (2..=4).contains(&kind);
        pieces.push(piece(kind, if has_record { &numbers } else { &numbers[..1] }));
    }
    pieces
}
