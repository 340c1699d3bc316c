//! A world: some seats that ask for some records, in any sequence.

use super::rng::Rng;
use super::sweep::Floor;
use crate::desk::Answer;
use crate::request::Request;

/// Who asks, for which records, and how many times in a hundred a live seat finishes.
pub struct World {
    pub seats: Vec<u32>,
    pub first: u32,
    pub records: u32,
    pub finish: u32,
}

impl World {
    /// So many seats and records, both from 0.
    pub fn from_zero(seats: u32, records: u32, finish: u32) -> World {
        World { seats: (0..seats).collect(), first: 0, records, finish }
    }

    /// A request of some seat; free seats mostly begin.
    pub fn any_request(&self, rng: &mut Rng, floor: &mut Floor) -> Answer {
        let (seat, record) = (rng.pick(&self.seats), self.first + rng.below(self.records));
        if floor.live(seat) == rng.chance(2) {
            return floor.ask(Request::Begin { seat });
        }
        if rng.chance(self.finish) {
            return floor.ask(Request::Finish { seat });
        }
        if rng.chance(45) {
            return floor.ask(Request::Lock { seat, record });
        }
        let held = if rng.chance(85) { floor.held_by(rng, seat) } else { None };
        let record = held.unwrap_or(record);
        if rng.chance(55) {
            return floor.ask(Request::Touch { seat, record });
        }
        floor.ask(Request::Release { seat, record })
    }
}
