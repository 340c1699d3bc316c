//! The desk: each side of the line, every refusal, and what each request leaves behind.

use second::desk::{clear, step, Answer, DeskRecord, Seat, Tables};
use second::programs::Work;
use second::request::Request;

fn begin(seat: u32) -> Request {
    Request::Begin { seat }
}
fn lock(seat: u32, record: u32) -> Request {
    Request::Lock { seat, record }
}
fn touch(seat: u32, record: u32) -> Request {
    Request::Touch { seat, record }
}
fn release(seat: u32, record: u32) -> Request {
    Request::Release { seat, record }
}
fn finish(seat: u32) -> Request {
    Request::Finish { seat }
}

/// A cleared desk of eight records after some requests.
fn after(requests: &[Request]) -> Work {
    let mut work = Work::cleared(8);
    for &request in requests {
        work.ask(request);
    }
    work
}

/// The answer to a request, which must leave everything as it was.
fn unchanged(work: &Work, request: Request) -> Answer {
    let (answer, tables, desk) = step(&work.tables, &work.desk, request);
    assert_eq!((&tables, desk), (&work.tables, work.desk));
    answer
}

#[test]
fn no_lock_yet_and_a_free_record() {
    let mut work = after(&[begin(1)]);
    assert_eq!(work.ask(lock(1, 4)), Answer::Granted);
    assert_eq!(work.desk.seats[1], Seat { live: true, ticket: 1, has_lock: true, wake: 0 });
    assert_eq!(work.tables.held, [0, 0, 0, 0, 2, 0, 0, 0]);
    assert_eq!(work.tables.released, [0; 8]);
}

#[test]
fn another_holds_it_unreleased() {
    let work = after(&[begin(0), begin(1), lock(0, 4)]);
    assert_eq!(unchanged(&work, lock(1, 4)), Answer::Wait(1));
}

#[test]
fn another_holds_it_unreleased_and_the_wakes_differ() {
    // Seat 1 is in the wake of seat 0 by record 3; record 4 is held by seat 0 itself.
    let work = after(&[begin(0), begin(1), lock(0, 3), release(0, 3), lock(1, 3), lock(0, 4)]);
    assert_eq!(work.desk.seats[1].wake, 1);
    assert_eq!(unchanged(&work, lock(1, 4)), Answer::Wait(1));
}

#[test]
fn no_lock_yet_and_seat_0_released_it() {
    let mut work = after(&[begin(0), begin(1), lock(0, 4), release(0, 4)]);
    assert_eq!(work.ask(lock(1, 4)), Answer::Granted);
    assert_eq!(work.desk.seats[1].wake, 1);
    assert_eq!((work.tables.held[4], work.tables.released[4]), (3, 1));
}

#[test]
fn in_the_wake_of_seat_0_a_free_record_waits_until_it_finishes() {
    let mut work = after(&[begin(0), begin(1), lock(0, 4), release(0, 4), lock(1, 4)]);
    assert_eq!(unchanged(&work, lock(1, 5)), Answer::Wait(2));
    assert_eq!(work.ask(finish(0)), Answer::Finished);
    assert_eq!(work.ask(lock(1, 5)), Answer::Granted);
}

#[test]
fn holds_a_free_record_and_asks_for_one_seat_0_released() {
    let work = after(&[begin(0), begin(1), lock(1, 2), lock(0, 4), release(0, 4)]);
    assert_eq!(unchanged(&work, lock(1, 4)), Answer::Wait(2));
}

#[test]
fn wake_is_seat_0_and_seats_0_and_3_released_it() {
    let mut work = after(&[begin(0), begin(1), begin(3), lock(0, 4), release(0, 4), lock(1, 4)]);
    for request in [lock(0, 5), release(0, 5), lock(3, 5), release(3, 5)] {
        work.ask(request);
    }
    assert_eq!((work.desk.seats[1].wake, work.tables.released[5]), (1, 9));
    assert_eq!(unchanged(&work, lock(1, 5)), Answer::Wait(2));
}

#[test]
fn lock_of_a_record_one_has_and_of_one_one_has_released() {
    let mut work = after(&[begin(0), lock(0, 4)]);
    assert_eq!(unchanged(&work, lock(0, 4)), Answer::Held);
    assert_eq!(work.ask(release(0, 4)), Answer::Released);
    assert_eq!(unchanged(&work, lock(0, 4)), Answer::Refused(8));
    assert_eq!(unchanged(&work, touch(0, 4)), Answer::Refused(8));
    assert_eq!(unchanged(&work, release(0, 4)), Answer::Refused(8));
}

#[test]
fn tables_that_do_not_fit() {
    for (held, released) in [(0, 0), (1, 2), (2, 1), (0, 1), (4_097, 4_097), (4_096, 4_097)] {
        let tables = Tables { held: vec![7; held], released: vec![9; released] };
        let (result, left, desk) = clear(&tables);
        assert_eq!((result, &left, desk), (Err(1), &tables, DeskRecord::default()));
        let (answer, left, after) = step(&tables, &desk, begin(99));
        assert_eq!((answer, &left, after), (Answer::Refused(1), &tables, desk));
    }
}

#[test]
fn clearing_fills_with_zeros() {
    for n in [1, 4_096] {
        let tables = Tables { held: vec![7; n], released: vec![9; n] };
        let zeros = Tables { held: vec![0; n], released: vec![0; n] };
        assert_eq!(clear(&tables), (Ok(()), zeros, DeskRecord::default()));
    }
}

#[test]
fn refusals_in_the_order_of_the_table() {
    let work = after(&[begin(0)]);
    assert_eq!(unchanged(&work, lock(32, 8)), Answer::Refused(2));
    assert_eq!(unchanged(&work, finish(u32::MAX)), Answer::Refused(2));
    assert_eq!(unchanged(&work, lock(1, 8)), Answer::Refused(3));
    assert_eq!(unchanged(&work, touch(0, u32::MAX)), Answer::Refused(3));
    assert_eq!(unchanged(&work, begin(0)), Answer::Refused(4));
    for request in [lock(1, 7), touch(1, 7), release(1, 7), finish(1)] {
        assert_eq!(unchanged(&work, request), Answer::Refused(5));
    }
    assert_eq!(unchanged(&work, touch(0, 7)), Answer::Refused(7));
    assert_eq!(unchanged(&work, release(0, 7)), Answer::Refused(7));
}

#[test]
fn the_last_ticket_and_the_one_after() {
    let mut work = after(&[begin(0)]);
    work.desk.begun = 2_097_150;
    assert_eq!(work.ask(begin(1)), Answer::Started(2_097_151));
    assert_eq!(unchanged(&work, begin(2)), Answer::Refused(6));
    assert_eq!(unchanged(&work, begin(1)), Answer::Refused(4));
    for begun in [2_097_152, u32::MAX] {
        work.desk.begun = begun;
        assert_eq!(unchanged(&work, begin(2)), Answer::Refused(6));
    }
}

#[test]
fn tickets_65_535_and_65_536() {
    let mut work = after(&[begin(0)]);
    work.desk.begun = 65_534;
    assert_eq!(work.ask(begin(1)), Answer::Started(65_535));
    assert_eq!(work.ask(begin(2)), Answer::Started(65_536));
    assert_eq!(work.ask(finish(2)), Answer::Finished);
    assert_eq!(work.trace[work.trace.len() - 4..], [5, 0x80, 0x80, 4]);
}

#[test]
fn damaged_tables_with_released_and_not_held() {
    let mut work = after(&[begin(0), begin(1)]);
    work.tables.released[2] = 1;
    assert_eq!(unchanged(&work, touch(0, 2)), Answer::Refused(7));
    assert_eq!(unchanged(&work, release(0, 2)), Answer::Refused(7));
    // The asker's own stray bit goes into its wake, as the words stand.
    assert_eq!(work.ask(lock(0, 2)), Answer::Granted);
    assert_eq!((work.desk.seats[0].wake, work.tables.held[2]), (1, 1));
    assert_eq!(unchanged(&work, lock(0, 3)), Answer::Wait(2));
    assert_eq!(unchanged(&work, lock(0, 2)), Answer::Refused(8));
}

#[test]
fn finishing_clears_the_seat_everywhere() {
    let mut work = after(&[begin(0), begin(31)]);
    work.tables = Tables { held: vec![u32::MAX; 8], released: vec![u32::MAX; 8] };
    for seat in work.desk.seats.iter_mut() {
        seat.wake = u32::MAX;
    }
    assert_eq!(work.ask(finish(31)), Answer::Finished);
    assert_eq!(work.tables.held, [u32::MAX >> 1; 8]);
    assert_eq!(work.tables.released, [u32::MAX >> 1; 8]);
    assert_eq!(work.desk.seats[31], Seat::default());
    assert!(work.desk.seats[..31].iter().all(|seat| seat.wake == u32::MAX >> 1));
    assert_eq!(work.desk.begun, 2);
}

#[test]
fn a_change_still_has_a_lock_once_its_wake_empties() {
    let mut work = after(&[begin(0), begin(1), lock(0, 4), release(0, 4), lock(1, 4), finish(0)]);
    assert_eq!(work.desk.seats[1], Seat { live: true, ticket: 2, has_lock: true, wake: 0 });
    for request in [begin(0), lock(0, 5), release(0, 5)] {
        work.ask(request);
    }
    assert_eq!(unchanged(&work, lock(1, 5)), Answer::Wait(2));
}
