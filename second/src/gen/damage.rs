//! Damage: flipped, cut and lengthened bytes, and pieces with strange kinds and numbers.

use super::rng::Rng;
use super::Pieces;

/// Kinds that are, and kinds that are not.
const KINDS: [u8; 10] = [0, 1, 2, 3, 4, 5, 6, 7, 128, 255];

/// Numbers on each side of every limit there is.
const EDGES: [u32; 27] = [
    0, 1, 2, 31, 32, 127, 128, 255, 256, 257, 258, 4_094, 4_095, 4_096, 4_097, 16_383, 16_384,
    65_534, 65_535, 65_536, 65_537, 131_072, 2_097_150, 2_097_151, 2_097_152, 2_097_153,
    16_777_216,
];

/// Strange pieces put between the others, or bytes altered, or both.
pub fn damaged(rng: &mut Rng, mut pieces: Pieces) -> Vec<u8> {
    let how = rng.below(3);
    if how != 0 {
        for _ in 0..rng.between(1, 2) {
            let strange = strange_piece(rng);
            let at = rng.place(pieces.len() + 1);
            pieces.insert(at, strange);
        }
    }
    let mut bytes = pieces.concat();
    if how != 1 {
        for _ in 0..rng.between(1, 3) {
            alter(rng, &mut bytes);
        }
    }
    bytes
}

/// A kind and two numbers, any of which may be out of its limits or badly spelled.
fn strange_piece(rng: &mut Rng) -> Vec<u8> {
    let kind = rng.pick(&KINDS);
    let mut bytes = vec![kind];
    let numbers = if (2..=4).contains(&kind) { 2 } else { 1 };
    for _ in 0..numbers {
        let value = if rng.chance(40) { rng.below(6) } else { rng.pick(&EDGES) };
        let groups = if rng.chance(25) { rng.between(1, 4) } else { 1 };
        bytes.extend(spell(value, groups));
    }
    bytes
}

/// A number in at least so many groups, shortest or not, in its limits or not.
pub fn spell(value: u32, at_least: u32) -> Vec<u8> {
    let mut bytes = Vec::new();
    let mut left = value;
    let mut groups = 1;
    while left > 127 || groups < at_least {
        bytes.push((left % 128) as u8 + 128);
        left /= 128;
        groups += 1;
    }
    bytes.push(left as u8);
    bytes
}

/// One alteration of the bytes.
fn alter(rng: &mut Rng, bytes: &mut Vec<u8>) {
    if bytes.is_empty() || rng.chance(15) {
        let more = rng.some_bytes(6);
        bytes.extend(more);
        return;
    }
    let at = rng.place(bytes.len());
    match rng.below(6) {
        0 => bytes.truncate(at),
        1 => bytes[at] ^= 1 << rng.below(8),
        2 => bytes[at] = rng.some_byte(),
        3 => bytes.insert(at, rng.some_byte()),
        4 => drop(bytes.remove(at)),
        // A cut near the end leaves most of the file readable.
        _ => bytes.truncate(bytes.len() - rng.place(bytes.len().min(4))),
    }
}
