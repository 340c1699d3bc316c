//! Looking for a wrong side: in the files that it prints, and in the calls.

use compare::calls::{hold, scripts::script, Calls};
use compare::shrink::shrink;
use compare::tally::Tally;
use compare::texts::{Program, ROOM};

/// The smallest file found on which a side of its own differs from the second program.
pub fn smallest(program: Program) -> Vec<u8> {
    let mut room = vec![0; ROOM];
    let mut differs = |file: &[u8]| program.agreed(file, &mut room).is_none();
    let files = (0..500).map(|index| (program.make)(3, index));
    let file = files.into_iter().find(|file| differs(file)).expect("a wrong side is found");
    shrink(file, differs)
}

/// Whether some script finds the calls different from the second program's.
pub fn found(calls: Calls) -> bool {
    (0..500).any(|index| hold(script(3, index), &calls, &mut Tally::default()).is_err())
}

/// Puts the second program's text with some words in place of others.
pub fn put(text: String, from: &str, to: &str, room: &mut [u8]) -> usize {
    let text = text.replace(from, to);
    room[..text.len()].copy_from_slice(text.as_bytes());
    text.len()
}
