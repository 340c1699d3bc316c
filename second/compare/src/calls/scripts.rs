//! Scripts of calls: small damaged worlds and some twenty requests, wrong lengths, strange numbers.

use super::{Call, Lent};
use second::gen::damage::spell;
use second::gen::rng::Rng;
use second::gen::{audit_file, desk_file, order_file};

/// What is lent at first, and the calls one after the other.
pub struct Script {
    pub lent: Lent,
    pub calls: Vec<Call>,
}

/// Seats that turn up often, and the first that is none.
const SEATS: [u32; 8] = [0, 1, 1, 2, 2, 3, 31, 32];
const STRANGE_SEATS: [u32; 7] = [33, 63, 64, 65_536, 2_097_152, 1 << 31, u32::MAX];
const TICKETS: [u32; 9] = [0, 1, 2, 127, 128, 256, 257, 16_383, 16_384];
const LONG_TICKETS: [u32; 6] = [65_535, 65_536, 2_097_150, 2_097_151, 2_097_152, u32::MAX];
const BEGUN: [u32; 11] =
    [0, 1, 255, 65_533, 65_534, 65_535, 65_536, 2_097_150, 2_097_151, 2_097_152, u32::MAX];
const KINDS: [u32; 12] = [1, 1, 1, 2, 2, 2, 2, 3, 3, 4, 4, 5];
const STRANGE_KINDS: [u32; 6] = [0, 6, 22, 256, 258, u32::MAX];
const RECORDS: [u32; 11] =
    [0, 0, 1, 127, 128, 4_095, 4_096, 65_536, 2_097_151, 2_097_152, u32::MAX];

/// Lengths of the two tables of which most are refused.
const STRANGE_LENGTHS: [(usize, usize); 9] = [
    (0, 0),
    (1, 1),
    (4_096, 4_096),
    (4_097, 4_097),
    (4_096, 4_095),
    (4_097, 4_096),
    (0, 1),
    (1, 0),
    (2, 3),
];

/// Script number `index` of a seed.
pub fn script(seed: u64, index: u64) -> Script {
    let mut rng = Rng::of_file(seed, index);
    let lent = lent(&mut rng);
    let records = lent.held.len() as u32;
    let mut calls = Vec::new();
    // Some scripts begin at a clearing, the others in the middle of something unsound.
    if rng.chance(35) {
        calls.push(Call::Clear);
    }
    let mut asked = 0;
    while asked < 20 {
        let count = rng.place(6);
        asked += count.max(1);
        calls.push(judge(&mut rng, records, count));
    }
    calls.push(Call::Clear);
    for _ in 0..5 {
        calls.push(read(&mut rng));
        calls.push(write(&mut rng));
    }
    calls.extend(of_files(&mut rng, desk_file(seed, index), order_file(seed, index)));
    calls.extend(of_audit(&mut rng, audit_file(seed, index)));
    Script { lent, calls }
}

/// Usual things mostly, and so many times in a hundred strange ones.
fn either(rng: &mut Rng, strange: u32, usual_ones: &[u32], strange_ones: &[u32]) -> u32 {
    if rng.chance(strange) {
        rng.pick(strange_ones)
    } else {
        rng.pick(usual_ones)
    }
}

fn ticket(rng: &mut Rng) -> u32 {
    either(rng, 40, &TICKETS, &LONG_TICKETS)
}

fn lent(rng: &mut Rng) -> Lent {
    let few = rng.between(1, 4) as usize;
    let lengths = if rng.chance(20) { rng.pick(&STRANGE_LENGTHS) } else { (few, few) };
    let held: Vec<u32> = (0..lengths.0).map(|_| word(rng)).collect();
    let released: Vec<u32> = (0..lengths.1).map(|_| word(rng)).collect();
    let mut desk = desk(rng, &released);
    if rng.chance(4) {
        desk.resize(rng.pick(&[0, 1, 66, 68, 134]), 0);
    }
    Lent { held, released, desk, ..Lent::default() }
}

/// A word of no bits, a few seats' bits, or any.
fn word(rng: &mut Rng) -> u32 {
    match rng.below(10) {
        0..=4 => 0,
        5..=6 => 1 << (rng.pick(&SEATS) % 32),
        7..=8 => 1 << (rng.pick(&SEATS) % 32) | 1 << (rng.pick(&SEATS) % 32),
        _ => rng.next() as u32,
    }
}

/// Any desk record; a wake is often the released word of some record, so that locks are granted.
fn desk(rng: &mut Rng, released: &[u32]) -> Vec<u32> {
    let mut words = Vec::new();
    for _ in 0..32 {
        words.push(ticket(rng));
        let of_record = !released.is_empty() && rng.chance(50);
        words.push(if of_record { rng.pick(released) } else { word(rng) });
    }
    // Most seats are live, or most requests would be refused 5.
    words.push((rng.next() | rng.next() | rng.next()) as u32);
    words.push(rng.next() as u32);
    words.push(rng.pick(&BEGUN));
    words
}

/// Some requests at once, sometimes with a wrong number of words or of answers.
fn judge(rng: &mut Rng, records: u32, count: usize) -> Call {
    let mut requests: Vec<u32> = (0..count).flat_map(|_| request(rng, records)).collect();
    let mut answers = count;
    match rng.below(40) {
        0 => requests.push(1),
        1 => drop(requests.pop()),
        2 => answers += 1,
        3 => answers = 0,
        _ => (),
    }
    Call::Judge { requests, answers }
}

fn request(rng: &mut Rng, records: u32) -> [u32; 3] {
    let kind = either(rng, 4, &KINDS, &STRANGE_KINDS);
    let seat = either(rng, 4, &SEATS, &STRANGE_SEATS);
    let past = [records, records + 1, 4_095, 4_096, u32::MAX];
    let below = [rng.below(records.max(1))];
    [kind, seat, either(rng, 8, &below, &past)]
}

/// Any few bytes, or an event with numbers that may be badly spelled or out of their limits.
fn read(rng: &mut Rng) -> Call {
    let mut rest = rng.some_bytes(9);
    if rng.chance(50) {
        let (ticket, record) = (ticket(rng), rng.pick(&RECORDS));
        let groups = rng.pick(&[1, 1, 1, 2, 3, 4]);
        rest = [vec![rng.pick(&KINDS) as u8], spell(ticket, 1), spell(record, groups)].concat();
    }
    if rng.chance(20) {
        rest.pop();
    }
    Call::Read { rest, words: length(rng, 3) }
}

fn write(rng: &mut Rng) -> Call {
    let kind = either(rng, 10, &KINDS, &STRANGE_KINDS);
    let room = rng.place(10);
    Call::Write { room, kind, ticket: ticket(rng), record: rng.pick(&RECORDS) }
}

/// The length a call asks for, now and then another.
fn length(rng: &mut Rng, right: usize) -> usize {
    if rng.chance(95) {
        right
    } else {
        rng.pick(&[0, right - 1, right + 1])
    }
}

/// An order, and both texts into rooms that they often do not fit.
fn of_files(rng: &mut Rng, file: Vec<u8>, trace: Vec<u8>) -> [Call; 3] {
    let file = short(rng, file, 16_384);
    let trace = short(rng, trace, 65_536);
    [
        Call::DeskText { file, room: rng.place(400) },
        Call::OrderText { trace: trace.clone(), room: rng.place(40) },
        Call::Order { trace, words: length(rng, 2_048), places: length(rng, 256) },
    ]
}

/// The check of a trace, and its text into a room that it may not fit.
fn of_audit(rng: &mut Rng, trace: Vec<u8>) -> [Call; 2] {
    let trace = short(rng, trace, usize::MAX);
    let (held, released) = (length(rng, 4_096), length(rng, 4_096));
    [
        Call::AuditText { trace: trace.clone(), room: rng.place(20) },
        Call::Audit { trace, held, released, at: length(rng, 1) },
    ]
}

/// Long files are cut, so that a script takes little time, unless they are over their limit.
fn short(rng: &mut Rng, mut file: Vec<u8>, limit: usize) -> Vec<u8> {
    if file.len() <= limit {
        file.truncate(rng.between(100, 1_000) as usize);
    }
    file
}
