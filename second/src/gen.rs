//! The generator: request files and traces from a seed, each file by its own number.

pub mod audit_files;
pub mod damage;
pub mod desk_files;
pub mod mutation;
pub mod order_files;
pub mod rng;
pub mod sweep;
pub mod world;

use crate::event::read_event;
use rng::Rng;

/// A file as its requests or events, so that damage can fall between them too.
pub type Pieces = Vec<Vec<u8>>;

/// Request file number `index` of a seed.
pub fn desk_file(seed: u64, index: u64) -> Vec<u8> {
    let mut rng = Rng::of_file(seed, index);
    if rng.chance(4) {
        return rng.some_bytes(64);
    }
    let pieces = desk_files::pieces(&mut rng);
    if rng.chance(30) {
        return damage::damaged(&mut rng, pieces);
    }
    pieces.concat()
}

/// Trace number `index` of a seed.
pub fn order_file(seed: u64, index: u64) -> Vec<u8> {
    let mut rng = Rng::of_file(seed, index);
    if rng.chance(4) {
        return rng.some_bytes(64);
    }
    let pieces = order_files::pieces(&mut rng);
    if rng.chance(25) {
        return damage::damaged(&mut rng, pieces);
    }
    pieces.concat()
}

/// Trace number `index` of a seed for the trace check: a desk's own, or one that something befell.
pub fn audit_file(seed: u64, index: u64) -> Vec<u8> {
    let mut rng = Rng::of_file(seed, index);
    // Traces of many thousand events take long, and few of them say all.
    if rng.below(300) == 0 {
        return audit_files::very_long(&mut rng);
    }
    let floor = audit_files::run(&mut rng);
    let mut bytes = floor.trace().to_vec();
    match rng.below(4) {
        0 => (),
        1 => bytes = mutation::mutated(&mut rng, &floor).concat(),
        2 => bytes.truncate(rng.place(bytes.len() + 1)),
        _ => bytes = no_desks(&mut rng, events(&bytes)),
    }
    bytes
}

/// Bytes that no desk has a part in, or only a part.
fn no_desks(rng: &mut Rng, events: Pieces) -> Vec<u8> {
    match rng.below(10) {
        0 => rng.some_bytes(64),
        1 => order_files::pieces(rng).concat(),
        _ => damage::damaged(rng, events),
    }
}

/// A trace as its events, up to what does not read.
pub fn events(trace: &[u8]) -> Pieces {
    let mut pieces = Pieces::new();
    let mut rest = trace;
    while let Ok(Some((_, length))) = read_event(rest) {
        pieces.push(rest[..length].to_vec());
        rest = &rest[length..];
    }
    pieces
}

/// A trace with every event of one kind spelled as one of another; both kinds must have a record.
pub fn recast(trace: &[u8], from: u8, to: u8) -> Vec<u8> {
    let mut recast = events(trace);
    let read = length(&recast);
    recast.iter_mut().filter(|event| event[0] == from).for_each(|event| event[0] = to);
    [&recast.concat(), &trace[read..]].concat()
}

/// A request or event that has a spelling: kind, then its numbers, each at most `LARGEST`.
pub fn piece(kind: u8, numbers: &[u32]) -> Vec<u8> {
    let mut bytes = vec![kind];
    for &number in numbers {
        bytes.extend(crate::number::write_number(number));
    }
    bytes
}

/// The bytes of all pieces.
pub fn length(pieces: &Pieces) -> usize {
    pieces.iter().map(Vec::len).sum()
}

/// Pads with pieces of two and three bytes, none a grant or a touch, to exactly `limit`.
/// Room must not be 1.
pub fn pad(pieces: &mut Pieces, limit: usize) {
    let mut room = limit - length(pieces);
    while room > 3 {
        pieces.push(piece(5, &[1]));
        room -= 2;
    }
    if room == 3 {
        pieces.push(piece(4, &[1, 1]));
    } else if room == 2 {
        pieces.push(piece(5, &[1]));
    }
}
