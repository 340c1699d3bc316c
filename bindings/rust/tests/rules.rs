//! The two rules on each side of the line, as the paper lists the cases.

use saltlicker::Request::{Begin, Finish, Lock, Release};
use saltlicker::{Answer, Desk, Request};

fn begin(seat: u32) -> Request {
    Begin { seat }
}

fn lock(seat: u32, record: u32) -> Request {
    Lock { seat, record }
}

fn release(seat: u32, record: u32) -> Request {
    Release { seat, record }
}

/// The answer to the last request, and the wake of the seat that asked it.
fn last(requests: &[Request]) -> (Answer, u32) {
    let mut desk = Desk::new(256).unwrap();
    let answer = desk.ask_all(requests).last().unwrap().answer;
    let seat = requests.last().unwrap().seat() as usize;
    (answer, desk.words()[2 * seat + 1])
}

#[test]
fn no_lock_yet() {
    assert_eq!(last(&[begin(1), lock(1, 5)]), (Answer::Granted, 0));
    let behind = [begin(0), begin(1), lock(0, 5), release(0, 5), lock(1, 5)];
    assert_eq!(last(&behind), (Answer::Granted, 0b1));
}

#[test]
fn held_by_another() {
    let unreleased = [begin(0), begin(1), lock(0, 5), lock(1, 5)];
    assert_eq!(last(&unreleased).0, Answer::Wait(1));
    let wakes_differ_too =
        [begin(0), begin(1), lock(0, 5), release(0, 5), lock(1, 5), lock(0, 6), lock(1, 6)];
    assert_eq!(last(&wakes_differ_too).0, Answer::Wait(1));
}

#[test]
fn in_a_wake() {
    let behind = [begin(0), begin(1), lock(0, 5), release(0, 5), lock(1, 5)];
    let ask = |more: &[Request]| last(&[&behind, more].concat());
    assert_eq!(ask(&[lock(1, 6)]), (Answer::Wait(2), 0b1));
    assert_eq!(ask(&[Finish { seat: 0 }, lock(1, 6)]), (Answer::Granted, 0));
}

#[test]
fn into_a_wake_too_late() {
    let late = [begin(0), begin(1), lock(0, 5), release(0, 5), lock(1, 6), lock(1, 5)];
    assert_eq!(last(&late), (Answer::Wait(2), 0));
    let first = [begin(0), begin(1), begin(3), lock(0, 5), release(0, 5), lock(1, 5)];
    let second = [lock(0, 6), release(0, 6), lock(3, 6), release(3, 6), lock(1, 6)];
    assert_eq!(last(&[&first[..], &second].concat()), (Answer::Wait(2), 0b1));
}
