//! The mixed script: sweeps that lock, touch and release as they go, editors behind and beside.

use crate::cases::RECORDS;
use second::gen::rng::Rng;
use second::gen::sweep::{one_sweep, Floor, Habits};

/// Longer sweeps than the generator's, and editors that stay longer, so that FINISH does not drown the rest.
const HABITS: Habits =
    Habits { editors: (4, 4), road: (200, 500), beside: 100, finish: 2, work: 75, leave: 100 };

/// So many requests, the same ones each time.
pub fn script(requests: usize) -> Vec<u32> {
    let mut rng = Rng::of_file(1, 0);
    let mut floor = Floor::cleared(RECORDS as usize);
    while floor.asked().len() < requests {
        one_sweep(&mut rng, &mut floor, &HABITS);
    }
    let words = |request: &second::request::Request| {
        [u32::from(request.kind()), request.seat(), request.record().unwrap_or(0)]
    };
    floor.asked()[..requests].iter().flat_map(words).collect()
}
