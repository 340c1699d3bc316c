//! The desk by hand, its record handed in and back by value.

use crate::desk::{Answer, Desk, Refusal, Request, Seat};
use crate::desk::{DESK_WORDS, JUDGED, MOST_BEGUN, SEATS, UNKNOWN_KIND, WRONG_LENGTH};
use crate::tables::{fit, leave, lock, release, touch};

/// Judges one request.
#[inline(never)]
pub fn judge(
    held: &mut [u32],
    released: &mut [u32],
    mut desk: Desk,
    request: Request,
) -> (Answer, Desk) {
    if !fit(held, released) {
        return (Answer::Refused(Refusal::BadTables), desk);
    }
    if request.seat() as usize >= SEATS {
        return (Answer::Refused(Refusal::NoSeat), desk);
    }
    let seat = &mut desk.seats[request.seat() as usize];
    let answer = match request {
        Request::Begin { seat } => return begin(desk, seat),
        Request::Finish { seat } => return finish(held, released, desk, seat),
        Request::Lock { seat: s, record } => lock(held, released, seat, s, record),
        Request::Touch { seat: s, record } => touch(held, released, seat.live, s, record),
        Request::Release { seat: s, record } => release(held, released, seat.live, s, record),
    };
    (answer, desk)
}

fn begin(mut desk: Desk, s: u32) -> (Answer, Desk) {
    if desk.seats[s as usize].live {
        return (Answer::Refused(Refusal::SeatLive), desk);
    }
    if desk.begun >= MOST_BEGUN {
        return (Answer::Refused(Refusal::TooMany), desk);
    }
    desk.begun += 1;
    let ticket = desk.begun;
    desk.seats[s as usize] = Seat { ticket, wake: 0, live: true, locked: false };
    (Answer::Started { ticket }, desk)
}

fn finish(held: &mut [u32], released: &mut [u32], mut desk: Desk, s: u32) -> (Answer, Desk) {
    if !desk.seats[s as usize].live {
        return (Answer::Refused(Refusal::SeatFree), desk);
    }
    leave(held, s);
    leave(released, s);
    for seat in &mut desk.seats {
        seat.wake &= !(1 << s);
    }
    desk.seats[s as usize] = Seat::default();
    (Answer::Finished, desk)
}

/// Judges requests of three words each, as the exported call does.
#[inline(never)]
pub fn judge_all(
    held: &mut [u32],
    released: &mut [u32],
    desk: &mut [u32],
    requests: &[u32],
    answers: &mut [u64],
) -> u64 {
    if desk.len() != DESK_WORDS || requests.len() != 3 * answers.len() {
        return WRONG_LENGTH;
    }
    let mut record = Desk::of_words(desk);
    for (words, answer) in requests.chunks_exact(3).zip(answers) {
        *answer = UNKNOWN_KIND;
        if let Some(request) = Request::of_words(words) {
            let (said, next) = judge(held, released, record, request);
            *answer = said.word();
            record = next;
        }
    }
    record.write_words(desk);
    JUDGED
}
