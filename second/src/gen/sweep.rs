//! Sweeps that lock, touch and release as they go, with editors in their wake and beside them.

use super::rng::Rng;
use super::{piece, Pieces};
use crate::desk::{has, Answer};
use crate::programs::Work;
use crate::request::Request;

/// How a sweep and its editors go about it; chances are in a hundred.
pub struct Habits {
    /// Fewest and most editors.
    pub editors: (u32, u32),
    /// Fewest and most records of the sweep.
    pub road: (u32, u32),
    /// Records beside the road.
    pub beside: u32,
    /// That an editor finishes.
    pub finish: u32,
    /// That an editor that has records works on one.
    pub work: u32,
    /// That all editors finish after the sweep.
    pub leave: u32,
}

/// Requests and the desk that answers them, so that a script can ask again when told to wait.
pub struct Floor {
    work: Work,
    asked: Vec<Request>,
    used: usize,
}

impl Floor {
    /// Cleared tables of so many records.
    pub fn cleared(records: usize) -> Floor {
        Floor { work: Work::cleared(records), asked: Vec::new(), used: 0 }
    }

    /// One request more.
    pub fn ask(&mut self, request: Request) -> Answer {
        self.used += spelled(request).len();
        self.asked.push(request);
        self.work.ask(request)
    }

    /// The requests so far.
    pub fn asked(&self) -> &[Request] {
        &self.asked
    }

    /// Their bytes.
    pub fn pieces(&self) -> Pieces {
        self.asked.iter().map(|&request| spelled(request)).collect()
    }

    /// How many bytes those are.
    pub fn used(&self) -> usize {
        self.used
    }

    /// The trace of what the desk allowed of them.
    pub fn trace(&self) -> &[u8] {
        &self.work.trace
    }

    /// The records of the tables.
    pub fn records(&self) -> u32 {
        self.work.tables.held.len() as u32
    }

    /// A record that the seat holds, released or not, if it holds one.
    pub fn held_by(&self, rng: &mut Rng, seat: u32) -> Option<u32> {
        let records = 0..self.records();
        let held = |record: &u32| has(self.work.tables.held[*record as usize], seat);
        let held: Vec<u32> = records.filter(held).collect();
        if held.is_empty() {
            None
        } else {
            Some(rng.pick(&held))
        }
    }

    /// Whether a change sits there.
    pub fn live(&self, seat: u32) -> bool {
        self.work.desk.seats[seat as usize].live
    }
}

/// The bytes of a request.
fn spelled(request: Request) -> Vec<u8> {
    let mut numbers = vec![request.seat()];
    numbers.extend(request.record());
    piece(request.kind(), &numbers)
}

/// An editor: its seat, the records it has and has not released, how often it was told to wait.
struct Editor {
    seat: u32,
    records: Vec<u32>,
    waits: u32,
}

/// The records of a sweep: from `first`, `count` of them, and the one it is at.
struct Road<'a> {
    first: u32,
    count: u32,
    at: u32,
    habits: &'a Habits,
}

/// One sweep over some records with editors in its wake and beside it.
pub fn one_sweep(rng: &mut Rng, floor: &mut Floor, habits: &Habits) {
    let mut seats: Vec<u32> = (0..32).collect();
    rng.shuffle(&mut seats);
    let seat = seats[0];
    let editors = rng.between(habits.editors.0, habits.editors.1) as usize;
    let mut editors: Vec<Editor> = seats[1..=editors].iter().map(|&seat| editor(seat)).collect();
    let count = rng.between(habits.road.0, habits.road.1);
    let first = rng.below(floor.records() - count - habits.beside);
    floor.ask(Request::Begin { seat });
    for at in first..first + count {
        let road = Road { first, count, at, habits };
        sweep_record(rng, floor, seat, &mut editors, &road);
    }
    floor.ask(Request::Finish { seat });
    if rng.chance(habits.leave) {
        finish_editors(floor, &mut editors);
    }
}

fn editor(seat: u32) -> Editor {
    Editor { seat, records: Vec::new(), waits: 0 }
}

/// The sweep takes a record, asking again while told to wait, and gives it up once done.
fn sweep_record(rng: &mut Rng, floor: &mut Floor, seat: u32, editors: &mut [Editor], road: &Road) {
    let record = road.at;
    for tries in 0..6 {
        if floor.ask(Request::Lock { seat, record }) == Answer::Granted {
            break;
        }
        // The floor breaks a deadlock by sending its editors home.
        if tries == 4 {
            finish_editors(floor, editors);
        }
        editors_move(rng, floor, editors, road);
    }
    floor.ask(Request::Touch { seat, record });
    if rng.chance(50) {
        editors_move(rng, floor, editors, road);
    }
    if rng.chance(90) {
        floor.ask(Request::Release { seat, record });
    }
    editors_move(rng, floor, editors, road);
}

fn finish_editors(floor: &mut Floor, editors: &mut [Editor]) {
    for editor in editors {
        if floor.live(editor.seat) {
            floor.ask(Request::Finish { seat: editor.seat });
        }
        editor.records.clear();
        editor.waits = 0;
    }
}

fn editors_move(rng: &mut Rng, floor: &mut Floor, editors: &mut [Editor], road: &Road) {
    for editor in editors {
        if rng.chance(60) {
            editor_moves(rng, floor, editor, road);
        }
    }
}

/// One request of an editor.
fn editor_moves(rng: &mut Rng, floor: &mut Floor, editor: &mut Editor, road: &Road) {
    let seat = editor.seat;
    if !floor.live(seat) {
        floor.ask(Request::Begin { seat });
    } else if editor.waits > 3 || rng.chance(road.habits.finish) {
        floor.ask(Request::Finish { seat });
        *editor = self::editor(seat);
    } else if !editor.records.is_empty() && rng.chance(road.habits.work) {
        editor_works(rng, floor, editor);
    } else {
        let record = editor_record(rng, road);
        match floor.ask(Request::Lock { seat, record }) {
            Answer::Granted => editor.records.push(record),
            _ => editor.waits += 1,
        }
    }
}

/// An editor touches or releases a record that it has.
fn editor_works(rng: &mut Rng, floor: &mut Floor, editor: &mut Editor) {
    let seat = editor.seat;
    let place = rng.place(editor.records.len());
    if rng.chance(65) {
        floor.ask(Request::Touch { seat, record: editor.records[place] });
    } else {
        let record = editor.records.remove(place);
        floor.ask(Request::Release { seat, record });
    }
}

/// Mostly a record behind the sweep, else one ahead of it, else one beside its road.
fn editor_record(rng: &mut Rng, road: &Road) -> u32 {
    match rng.below(10) {
        0..=5 => rng.between(road.first, road.at),
        6..=7 => rng.between(road.at, road.first + road.count - 1),
        _ => road.first + road.count + rng.below(road.habits.beside),
    }
}
