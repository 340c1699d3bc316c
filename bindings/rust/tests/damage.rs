//! A damaged desk is served by the same rules, and nothing past its slices is written.

use saltlicker::names::{DESK_WORDS, SEATS};
use saltlicker::Request::{Begin, Finish, Lock, Release, Touch};
use saltlicker::{raw, write_event, Answer, Desk, Event, Refusal};

const ONES: u32 = u32::MAX;

fn damaged(held: u32, released: u32) -> Desk {
    Desk::from_parts(vec![held; 256], vec![released; 256], [ONES; DESK_WORDS])
}

#[test]
fn a_record_of_ones_is_a_full_desk() {
    let refused = |number| Answer::Refused(Refusal(number));
    assert_eq!(damaged(0, 0).ask(Begin { seat: 0 }).answer, refused(4));
    assert_eq!(damaged(0, 0).ask(Lock { seat: 0, record: 255 }).answer, Answer::Wait(2));
    assert_eq!(damaged(0, ONES).ask(Lock { seat: 0, record: 0 }).answer, Answer::Granted);
    assert_eq!(damaged(ONES, 0).ask(Lock { seat: 31, record: 0 }).answer, Answer::Held);
    assert_eq!(damaged(ONES, ONES).ask(Touch { seat: 31, record: 0 }).answer, refused(8));
    assert_eq!(damaged(ONES, 0).ask(Release { seat: 31, record: 0 }).answer, Answer::Released);
}

#[test]
fn the_ticket_of_a_damaged_seat_cannot_be_written() {
    let reply = damaged(ONES, 0).ask(Touch { seat: 9, record: 3 });
    let event = Event::Touched { ticket: ONES, record: 3 };
    assert_eq!((reply.answer, reply.event), (Answer::Touched, Some(event)));
    assert_eq!(write_event(&mut [0; 8], event), Err(Refusal(23)));
}

#[test]
fn finishing_every_seat_frees_all_but_the_count() {
    let mut desk = damaged(ONES, ONES);
    for seat in 0..SEATS as u32 {
        assert_eq!(desk.ask(Finish { seat }).answer, Answer::Finished);
    }
    let (held, released, words) = desk.into_parts();
    assert!(held.iter().chain(&released).chain(&words[..66]).all(|&word| word == 0));
    assert_eq!(words[66], ONES);
    let mut desk = Desk::from_parts(held, released, words);
    assert_eq!(desk.ask(Begin { seat: 0 }).answer, Answer::Refused(Refusal(6)));
}

#[test]
fn nothing_around_the_slices_is_written() {
    const GUARD: u32 = 0xA5A5_A5A5;
    let (mut held, mut released, mut desk) = ([GUARD; 10], [GUARD; 10], [GUARD; DESK_WORDS + 2]);
    let mut answers = [u64::from(GUARD); 3];
    for kind in 0..7 {
        for seat in [0, 31, 32, ONES] {
            for record in [0, 7, 8, 4_095, ONES] {
                let request = [kind, seat, record];
                let (held, released) = (&mut held[1..9], &mut released[1..9]);
                let desk = &mut desk[1..=DESK_WORDS];
                raw::judge(held, released, desk, &request, &mut answers[1..2]);
            }
        }
    }
    for slice in [&held[..], &released, &desk] {
        assert_eq!((slice[0], slice[slice.len() - 1]), (GUARD, GUARD));
    }
    assert_eq!((answers[0], answers[2]), (u64::from(GUARD), u64::from(GUARD)));
}
