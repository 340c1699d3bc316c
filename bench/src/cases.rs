//! Each request kind alone: where it starts from, its requests, and the answer all of them get.

use crate::desk::{Desk, Request, SEATS};
use crate::in_place::judge;
use crate::mixed;
use crate::state::State;
use second::gen::rng::Rng;

/// How many records the tables have, unless a case says otherwise.
pub const RECORDS: u32 = 4_096;

const BEGIN: u32 = 1;
const LOCK: u32 = 2;
const TOUCH: u32 = 3;
const RELEASE: u32 = 4;
const FINISH: u32 = 5;

/// A script, and what the desk is when it starts.
pub struct Case {
    pub what: &'static str,
    pub start: State,
    pub requests: Vec<u32>,
    /// The codes that its answers have.
    pub codes: &'static [u32],
}

impl Case {
    /// How many requests it has.
    pub fn count(&self) -> usize {
        self.requests.len() / 3
    }
}

/// The names of all cases, the mixed script last.
pub const KEYS: [&str; 14] = [
    "pair",
    "finish",
    "finish_none",
    "finish_few",
    "finish_half",
    "finish_all",
    "grant",
    "held",
    "wait1",
    "wait2",
    "touch",
    "release",
    "refused",
    "mixed",
];

/// The case of a name.
pub fn named(key: &str) -> Case {
    let cleared = || State::cleared(RECORDS as usize);
    let case = |what, start, requests, codes| Case { what, start, requests, codes };
    match key {
        "pair" => case("BEGIN, FINISH; 1 record", State::cleared(1), pairs(4_096), &[101, 105]),
        "finish" => case("BEGIN, FINISH; 4,096 records", cleared(), pairs(256), &[101, 105]),
        "finish_none" => case("FINISH, no bits", no_bits(), seats(FINISH), &[105]),
        "finish_few" => case("FINISH, few bits", few_bits(), seats(FINISH), &[105]),
        "finish_half" => case("FINISH, half the bits", half_the_bits(), seats(FINISH), &[105]),
        "finish_all" => case("FINISH, all bits", all_bits(), seats(FINISH), &[105]),
        "grant" => case("LOCK granted", began(), each(LOCK, 0), &[102]),
        "held" => case("LOCK held", owned(), each(LOCK, 0), &[201]),
        "wait1" => case("LOCK wait 1", owned(), each(LOCK, 1), &[202]),
        "wait2" => case("LOCK wait 2", given_up(), each(LOCK, 1), &[202]),
        "touch" => case("TOUCH", owned(), each(TOUCH, 0), &[103]),
        "release" => case("RELEASE", owned(), each(RELEASE, 0), &[104]),
        "refused" => case("refused 7", owned(), each(TOUCH, 1), &[7]),
        "mixed" => case("mixed script", cleared(), mixed::script(10_000), MIXED),
        _ => panic!("no case {key}"),
    }
}

const MIXED: &[u32] = &[7, 8, 101, 102, 103, 104, 105, 201, 202];

/// A request of one kind by a seat for each record but the last.
fn each(kind: u32, seat: u32) -> Vec<u32> {
    (0..RECORDS - 1).flat_map(|record| [kind, seat, record]).collect()
}

fn pairs(count: usize) -> Vec<u32> {
    [BEGIN, 3, 0, FINISH, 3, 0].repeat(count)
}

/// BEGIN or FINISH of each seat in turn.
fn seats(kind: u32) -> Vec<u32> {
    (0..SEATS as u32).flat_map(|seat| [kind, seat, 0]).collect()
}

/// Not by a side's own batch call, so that a count of its instructions has none of the set-up.
fn after(mut state: State, requests: &[u32]) -> State {
    let mut desk = Desk::of_words(&state.desk);
    for request in requests.chunks_exact(3).filter_map(Request::of_words) {
        judge(&mut state.held, &mut state.released, &mut desk, request);
    }
    desk.write_words(&mut state.desk);
    state
}

/// Seats 0 and 1 have begun.
fn began() -> State {
    after(State::cleared(RECORDS as usize), &[BEGIN, 0, 0, BEGIN, 1, 0])
}

/// Seat 0 holds every record but the last, which seat 1 holds.
fn owned() -> State {
    after(after(began(), &each(LOCK, 0)), &[LOCK, 1, RECORDS - 1])
}

/// And has released them, so that seat 1, with a lock outside that wake, may not have them.
fn given_up() -> State {
    after(owned(), &each(RELEASE, 0))
}

/// All seats have begun. Bits are laid on this by hand, since the calls serve any tables.
fn no_bits() -> State {
    after(State::cleared(RECORDS as usize), &seats(BEGIN))
}

/// Each seat has bits in four words of held, and in two of those in released, far apart; no word has two seats' bits.
fn few_bits() -> State {
    let mut state = no_bits();
    for nth in 0..4 * SEATS {
        // An odd factor, so that no two come to the same word.
        let (record, bit) = (nth * 997 % RECORDS as usize, 1 << (nth / 4));
        state.held[record] |= bit;
        if nth % 2 == 0 {
            state.released[record] |= bit;
        }
    }
    state
}

/// Each seat has bits in about half the words of both tables, the same ones each time.
fn half_the_bits() -> State {
    let (mut state, mut rng) = (no_bits(), Rng::of_file(1, 0));
    for word in state.held.iter_mut().chain(&mut state.released) {
        *word = rng.next() as u32;
    }
    state
}

/// Each seat has bits in every word of both tables.
fn all_bits() -> State {
    let mut state = no_bits();
    state.held.fill(u32::MAX);
    state.released.fill(u32::MAX);
    state
}
