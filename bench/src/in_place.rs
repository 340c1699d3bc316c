//! The desk by hand, its record altered where it stands.

use crate::desk::{Answer, Desk, Refusal, Request, Seat};
use crate::desk::{DESK_WORDS, JUDGED, MOST_BEGUN, SEATS, UNKNOWN_KIND, WRONG_LENGTH};
use crate::tables::{fit, leave, lock, release, touch};

/// Judges one request.
#[inline(never)]
pub fn judge(held: &mut [u32], released: &mut [u32], desk: &mut Desk, request: Request) -> Answer {
    if !fit(held, released) {
        return Answer::Refused(Refusal::BadTables);
    }
    if request.seat() as usize >= SEATS {
        return Answer::Refused(Refusal::NoSeat);
    }
    let seat = &mut desk.seats[request.seat() as usize];
    match request {
        Request::Begin { .. } => begin(seat, &mut desk.begun),
        Request::Lock { seat: s, record } => lock(held, released, seat, s, record),
        Request::Touch { seat: s, record } => touch(held, released, seat.live, s, record),
        Request::Release { seat: s, record } => release(held, released, seat.live, s, record),
        Request::Finish { seat } => finish(held, released, &mut desk.seats, seat),
    }
}

fn begin(seat: &mut Seat, begun: &mut u32) -> Answer {
    if seat.live {
        return Answer::Refused(Refusal::SeatLive);
    }
    if *begun >= MOST_BEGUN {
        return Answer::Refused(Refusal::TooMany);
    }
    *begun += 1;
    *seat = Seat { ticket: *begun, wake: 0, live: true, locked: false };
    Answer::Started { ticket: *begun }
}

fn finish(held: &mut [u32], released: &mut [u32], seats: &mut [Seat; SEATS], s: u32) -> Answer {
    if !seats[s as usize].live {
        return Answer::Refused(Refusal::SeatFree);
    }
    leave(held, s);
    leave(released, s);
    for seat in seats.iter_mut() {
        seat.wake &= !(1 << s);
    }
    seats[s as usize] = Seat::default();
    Answer::Finished
}

/// Judges requests of three words each, as the exported call does.
#[inline(never)]
pub fn judge_all(
    held: &mut [u32],
    released: &mut [u32],
    desk: &mut [u32],
    requests: &[u32],
    answers: &mut [u64],
) -> u64 {
    if desk.len() != DESK_WORDS || requests.len() != 3 * answers.len() {
        return WRONG_LENGTH;
    }
    let mut record = Desk::of_words(desk);
    for (words, answer) in requests.chunks_exact(3).zip(answers) {
        *answer = match Request::of_words(words) {
            Some(request) => judge(held, released, &mut record, request).word(),
            None => UNKNOWN_KIND,
        };
    }
    record.write_words(desk);
    JUDGED
}
