//! The desk's refusals, each once, and that they change nothing.

use saltlicker::names::DESK_WORDS;
use saltlicker::Request::{Begin, Finish, Lock, Release, Touch};
use saltlicker::{Answer, Desk, Refusal, Request};

/// Asks what prepares the desk, then what must be refused.
fn refused(prepare: &[Request], request: Request, number: u32) {
    let mut desk = Desk::new(256).unwrap();
    let _ = desk.ask_all(prepare);
    unchanged(desk, request, number);
}

fn unchanged(mut desk: Desk, request: Request, number: u32) {
    let before = desk.clone();
    let reply = desk.ask(request);
    assert_eq!(reply.answer, Answer::Refused(Refusal(number)), "{request:?}");
    assert_eq!(reply.event, None);
    assert_eq!(desk, before);
}

#[test]
fn one_for_the_tables() {
    for records in [0, 4097, usize::MAX] {
        assert_eq!(Desk::new(records).unwrap_err(), Refusal(1));
    }
    for (held, released) in [(0, 0), (4097, 4097), (2, 3), (3, 2), (0, 1)] {
        let desk = Desk::from_parts(vec![7; held], vec![7; released], [7; DESK_WORDS]);
        unchanged(desk, Begin { seat: 0 }, 1);
    }
    for records in [1, 4096] {
        let mut desk = Desk::new(records).unwrap();
        let replies =
            desk.ask_all(&[Begin { seat: 0 }, Lock { seat: 0, record: records as u32 - 1 }]);
        assert_eq!(replies[1].answer, Answer::Granted);
    }
}

#[test]
fn two_and_three_for_seat_and_record() {
    refused(&[], Begin { seat: 32 }, 2);
    refused(&[], Finish { seat: u32::MAX }, 2);
    refused(&[], Lock { seat: 32, record: 256 }, 2);
    let begun = [Begin { seat: 31 }];
    refused(&begun, Lock { seat: 31, record: 256 }, 3);
    refused(&begun, Touch { seat: 31, record: 256 }, 3);
    refused(&begun, Release { seat: 31, record: u32::MAX }, 3);
}

#[test]
fn four_and_five_for_the_seat_that_asks() {
    refused(&[Begin { seat: 3 }], Begin { seat: 3 }, 4);
    for request in [
        Lock { seat: 3, record: 0 },
        Touch { seat: 3, record: 0 },
        Release { seat: 3, record: 0 },
        Finish { seat: 3 },
    ] {
        refused(&[Begin { seat: 2 }], request, 5);
    }
}

#[test]
fn six_for_the_last_ticket() {
    let mut words = [0; DESK_WORDS];
    words[66] = 65_534;
    let mut desk = Desk::from_parts(vec![0], vec![0], words);
    assert_eq!(desk.ask(Begin { seat: 0 }).answer, Answer::Started { ticket: 65_535 });
    assert_eq!(desk.ask(Begin { seat: 1 }).answer, Answer::Started { ticket: 65_536 });
    words[66] = 2_097_150;
    let mut desk = Desk::from_parts(vec![0], vec![0], words);
    assert_eq!(desk.ask(Begin { seat: 0 }).answer, Answer::Started { ticket: 2_097_151 });
    unchanged(desk, Begin { seat: 1 }, 6);
    words[66] = 2_097_152;
    unchanged(Desk::from_parts(vec![0], vec![0], words), Begin { seat: 0 }, 6);
}

#[test]
fn seven_and_eight_for_the_bits() {
    let begun = [Begin { seat: 0 }];
    refused(&begun, Touch { seat: 0, record: 5 }, 7);
    refused(&begun, Release { seat: 0, record: 5 }, 7);
    let given_up = [Begin { seat: 0 }, Lock { seat: 0, record: 5 }, Release { seat: 0, record: 5 }];
    refused(&given_up, Lock { seat: 0, record: 5 }, 8);
    refused(&given_up, Touch { seat: 0, record: 5 }, 8);
    refused(&given_up, Release { seat: 0, record: 5 }, 8);
}

#[test]
fn held_and_the_waits_change_nothing_either() {
    let mut desk = Desk::new(256).unwrap();
    let lock = |seat, record| Lock { seat, record };
    let _ = desk.ask_all(&[Begin { seat: 0 }, Begin { seat: 1 }, lock(0, 5), lock(1, 6)]);
    let _ = desk.ask(Release { seat: 0, record: 5 });
    for (request, answer) in
        [(lock(1, 6), Answer::Held), (lock(0, 6), Answer::Wait(1)), (lock(1, 5), Answer::Wait(2))]
    {
        let before = desk.clone();
        let reply = desk.ask(request);
        assert_eq!((reply.answer, reply.event), (answer, None));
        assert_eq!(desk, before);
    }
}

#[test]
fn every_refusal_says_what_it_means() {
    for number in (1..=8).chain(20..=28).chain([40, 99]) {
        let text = Refusal(number).to_string();
        assert!(text.starts_with(&format!("refused {number}: ")));
        assert!(!text.contains("no listed"), "{text}");
    }
}
