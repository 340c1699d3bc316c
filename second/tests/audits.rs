//! The trace check: cases worked by hand, each refusal with its offset, and the tables it leaves.

use second::audit::audit;
use second::number::write_number;
use second::programs::Work;
use second::request::Request;
use second::RefusalAt;

/// The words of a table that are not zero, by record.
type Words = Vec<(usize, u32)>;

/// The verdict (0 is accepted), its offset, and the held and released words that are not zero.
fn call(trace: &[u8]) -> (u32, usize, Words, Words) {
    // Tables full of ones: every word must be cleared or set.
    let (mut held, mut released) = (vec![u32::MAX; 4_096], vec![u32::MAX; 4_096]);
    let (number, offset) = match audit(trace, &mut held, &mut released) {
        Ok(()) => (0, 0),
        Err(RefusalAt { number, offset }) => (number, offset),
    };
    (number, offset, words(&held), words(&released))
}

fn words(table: &[u32]) -> Words {
    table.iter().copied().enumerate().filter(|&(_, word)| word != 0).collect()
}

fn accepted(trace: &[u8]) -> bool {
    let (number, offset, ..) = call(trace);
    (number, offset) == (0, 0)
}

/// The held words after a trace that must be accepted.
fn held_after(trace: &[u8]) -> Words {
    assert!(accepted(trace), "{trace:?}");
    call(trace).2
}

/// Checks that the last event of a trace, `length` bytes long, is the first not allowed.
fn last_not_allowed(trace: &[u8], length: usize) {
    let before = trace.len() - length;
    assert!(accepted(&trace[..before]), "{trace:?}");
    let (number, offset, held, released) = call(trace);
    assert_eq!((number, offset), (40, before), "{trace:?}");
    // What follows does not matter, whether it reads or not.
    assert_eq!(call(&[trace, &[1, 1, 0]].concat()), (40, before, held.clone(), released.clone()));
    let (_, _, held_before, released_before) = call(&trace[..before]);
    assert_eq!((held, released), (held_before, released_before));
}

/// Starts of tickets `first` to `last`.
fn starts(first: u32, last: u32) -> Vec<u8> {
    (first..=last).flat_map(|ticket| [vec![1], write_number(ticket)].concat()).collect()
}

#[test]
fn an_empty_trace() {
    assert_eq!(call(&[]), (0, 0, vec![], vec![]));
}

#[test]
fn the_viaduct() {
    let trace = [
        1, 1, 2, 1, 5, 3, 1, 5, 4, 1, 5, 1, 2, 2, 2, 5, 3, 2, 5, 2, 1, 6, 3, 1, 6, 4, 1, 6, 2, 2,
        6, 3, 2, 6, 5, 2, 5, 1,
    ];
    assert_eq!(call(&trace), (0, 0, vec![], vec![]));
    // Before both finish: the sweep in seat 0 has released both, the editor in seat 1 holds both.
    assert_eq!(call(&trace[..34]), (0, 0, vec![(5, 3), (6, 3)], vec![(5, 1), (6, 1)]));
    assert_eq!(call(&trace[..36]), (0, 0, vec![(5, 1), (6, 1)], vec![(5, 1), (6, 1)]));
    // The editor's grant of record 6 before the sweep has had it, where the desk said wait 2.
    last_not_allowed(&[&trace[..19], &[2, 2, 6]].concat(), 3);
}

#[test]
fn tables_of_another_length_are_unchanged() {
    for (held, released) in [(0, 0), (4_095, 4_096), (4_096, 4_095), (4_097, 4_096), (4_096, 0)] {
        for trace in [&[][..], &[1, 1], &[6], &[1, 2]] {
            let (mut one, mut other) = (vec![7; held], vec![9; released]);
            let refusal = audit(trace, &mut one, &mut other);
            assert_eq!(refusal, Err(RefusalAt { number: 1, offset: 0 }));
            assert_eq!((one, other), (vec![7; held], vec![9; released]));
        }
    }
}

#[test]
fn faults_of_reading_leave_the_tables_as_after_the_last_event() {
    let good = [1, 1, 2, 1, 5, 4, 1, 5, 2, 1, 0x80, 1];
    let faults: [(&[u8], u32); 12] = [
        (&[1], 20),
        (&[2, 1], 20),
        (&[2, 1, 0x80], 20),
        (&[1, 0x80, 0], 21),
        (&[1, 0x80, 0x80, 0x80, 1], 21),
        (&[3, 1, 0x85, 0], 21),
        (&[0], 22),
        (&[6, 1], 22),
        (&[255], 22),
        (&[5, 0], 23),
        (&[3, 1, 0x80, 0x20], 23),
        (&[3, 1, 0x80, 0x80, 4], 23),
    ];
    for (fault, number) in faults {
        assert_eq!(call(fault), (number, 0, vec![], vec![]));
        let trace = [&good[..], fault].concat();
        assert_eq!(call(&trace), (number, 12, vec![(5, 1), (128, 1)], vec![(5, 1)]));
    }
}

#[test]
fn the_earliest_faulty_event_decides() {
    // Ticket 2 does not begin first, and no kind is 6: whichever comes first.
    assert_eq!(call(&[1, 2, 6]), (40, 0, vec![], vec![]));
    assert_eq!(call(&[6, 1, 2]), (22, 0, vec![], vec![]));
    assert_eq!(call(&[1, 1, 1, 3, 1, 0]), (40, 2, vec![], vec![]));
    // An event must read before it can be not allowed.
    assert_eq!(call(&[3, 9]), (20, 0, vec![], vec![]));
    assert_eq!(call(&[3, 9, 0x80, 0x20]), (23, 0, vec![], vec![]));
    assert_eq!(call(&[3, 9, 0]), (40, 0, vec![], vec![]));
}

#[test]
fn tickets_start_at_1_and_rise_by_one() {
    last_not_allowed(&[1, 2], 2);
    last_not_allowed(&[1, 1, 1, 1], 2);
    last_not_allowed(&[1, 1, 1, 3], 2);
    last_not_allowed(&[1, 1, 1, 0x80, 0x80, 4], 4);
    last_not_allowed(&[1, 1, 1, 0xFF, 0xFF, 0x7F], 4);
    // A finished change's ticket does not come again, and does not stay the next one.
    last_not_allowed(&[1, 1, 5, 1, 1, 1], 2);
    assert!(accepted(&[1, 1, 5, 1, 1, 2]));
}

#[test]
fn each_kind_by_a_change_that_is_not_live() {
    for event in [&[2, 1, 5][..], &[3, 1, 5], &[4, 1, 5], &[5, 1]] {
        last_not_allowed(event, event.len());
        let finished = [&[1, 1, 2, 1, 5, 5, 1][..], event].concat();
        last_not_allowed(&finished, event.len());
        let another = [&[1, 1, 5, 1, 1, 2, 2, 2, 5][..], event].concat();
        last_not_allowed(&another, event.len());
    }
    for event in [&[2, 2, 5][..], &[3, 2, 5], &[4, 2, 5], &[5, 2]] {
        let to_come = [&[1, 1, 2, 1, 5][..], event].concat();
        last_not_allowed(&to_come, event.len());
    }
}

#[test]
fn touch_and_release_of_what_is_not_held_or_is_released() {
    for kind in [3, 4] {
        last_not_allowed(&[1, 1, kind, 1, 5], 3);
        last_not_allowed(&[1, 1, 2, 1, 5, kind, 1, 6], 3);
        last_not_allowed(&[1, 1, 2, 1, 5, 4, 1, 5, kind, 1, 5], 3);
        // Another holds it.
        last_not_allowed(&[1, 1, 1, 2, 2, 1, 5, kind, 2, 5], 3);
        assert!(accepted(&[1, 1, 2, 1, 5, kind, 1, 5]));
    }
    assert!(accepted(&[1, 1, 2, 1, 5, 3, 1, 5, 3, 1, 5, 4, 1, 5]));
}

#[test]
fn a_second_grant_of_a_record() {
    // The desk answers held, or refuses 8 once it is released: neither puts an event.
    last_not_allowed(&[1, 1, 2, 1, 5, 2, 1, 5], 3);
    last_not_allowed(&[1, 1, 2, 1, 5, 4, 1, 5, 2, 1, 5], 3);
}

#[test]
fn a_grant_of_what_another_holds_unreleased() {
    last_not_allowed(&[1, 1, 1, 2, 2, 1, 5, 2, 2, 5], 3);
    // Wait 1 though the wakes differ too.
    last_not_allowed(&[1, 1, 1, 2, 2, 1, 4, 4, 1, 4, 2, 2, 4, 2, 1, 5, 2, 2, 5], 3);
    // One of two holders has released it.
    last_not_allowed(&[1, 1, 1, 2, 1, 3, 2, 1, 5, 4, 1, 5, 2, 2, 5, 2, 3, 5], 3);
    assert!(accepted(&[1, 1, 1, 2, 2, 1, 5, 5, 1, 2, 2, 5]));
}

#[test]
fn a_grant_where_the_wakes_differ() {
    let follows = [1, 1, 1, 2, 2, 1, 4, 4, 1, 4, 2, 2, 4];
    // In the wake of the first, a free record: only once the first has finished.
    last_not_allowed(&[&follows[..], &[2, 2, 5]].concat(), 3);
    assert!(accepted(&[&follows[..], &[5, 1, 2, 2, 5]].concat()));
    // Holds a free record and asks for one that another released.
    last_not_allowed(&[1, 1, 1, 2, 2, 2, 3, 2, 1, 4, 4, 1, 4, 2, 2, 4], 3);
    // In the wake of the first alone, a record that the first and the third released.
    let third = [1, 3, 2, 1, 5, 4, 1, 5, 2, 3, 5, 4, 3, 5, 2, 2, 5];
    last_not_allowed(&[&follows[..], &third].concat(), 3);
    // No lock yet: both wakes at once.
    assert!(accepted(&[&follows[..], &third[..14], &[1, 4, 2, 4, 5]].concat()));
}

#[test]
fn a_finished_change_is_in_no_wake() {
    // The first finishes while followed; the third sits in its seat 0 and releases record 6.
    let trace = [1, 1, 1, 2, 2, 1, 4, 4, 1, 4, 2, 2, 4, 5, 1, 1, 3, 2, 3, 6, 4, 3, 6];
    assert_eq!(call(&trace), (0, 0, vec![(4, 2), (6, 1)], vec![(6, 1)]));
    // A wake left behind would let the second have it; a lock forgotten would too.
    last_not_allowed(&[&trace[..], &[2, 2, 6]].concat(), 3);
    assert!(accepted(&[&trace[..], &[2, 2, 7]].concat()));
}

#[test]
fn at_most_32_changes_are_live() {
    let full = starts(1, 32);
    assert!(accepted(&full));
    last_not_allowed(&[&full[..], &[1, 33]].concat(), 2);
    // One finishes, and its seat is the only one: record 9 shows which.
    let again = [&full[..], &[5, 20, 1, 33]].concat();
    assert_eq!(held_after(&[&again[..], &[2, 33, 9]].concat()), [(9, 1 << 19)]);
    last_not_allowed(&[&again[..], &[1, 34]].concat(), 2);
}

#[test]
fn a_started_change_takes_the_lowest_free_seat() {
    let each_its_record: Vec<u8> = (1..=5).flat_map(|ticket| [2, ticket, ticket]).collect();
    let five = [starts(1, 5), each_its_record].concat();
    assert_eq!(held_after(&five), [(1, 1), (2, 2), (3, 4), (4, 8), (5, 16)]);
    // Seats 3 and then 1 become free; they are taken lowest first, then seat 5.
    let three = [&five[..], &[5, 4, 5, 2], &starts(6, 8), &[2, 6, 6, 2, 7, 7, 2, 8, 8]].concat();
    assert_eq!(held_after(&three), [(1, 1), (3, 4), (5, 16), (6, 2), (7, 8), (8, 32)]);
}

#[test]
fn finishing_clears_the_seat_in_both_tables() {
    let trace = [1, 1, 1, 2, 2, 1, 5, 4, 1, 5, 2, 2, 5, 2, 1, 0xFF, 0x1F, 4, 2, 5];
    let last = 4_095;
    assert_eq!(call(&trace), (0, 0, vec![(5, 3), (last, 1)], vec![(5, 3)]));
    assert_eq!(call(&[&trace[..], &[5, 1]].concat()), (0, 0, vec![(5, 2)], vec![(5, 2)]));
    assert_eq!(
        call(&[&trace[..], &[5, 2]].concat()),
        (0, 0, vec![(5, 1), (last, 1)], vec![(5, 1)])
    );
}

#[test]
fn the_trace_of_a_desk_run_in_odd_seats() {
    for records in [6, 256, 4_096] {
        let mut work = Work::cleared(records);
        for seat in [31, 7, 19] {
            work.ask(Request::Begin { seat });
        }
        for request in [
            Request::Lock { seat: 19, record: 5 },
            Request::Release { seat: 19, record: 5 },
            Request::Lock { seat: 7, record: 5 },
            Request::Finish { seat: 31 },
            Request::Begin { seat: 2 },
            Request::Lock { seat: 2, record: 0 },
        ] {
            work.ask(request);
        }
        // Tickets 1 to 3 sat in seats 0 to 2, and ticket 4 takes seat 0 again.
        assert_eq!(call(&work.trace), (0, 0, vec![(0, 1), (5, 6)], vec![(5, 4)]));
    }
}

#[test]
fn the_last_ticket_and_none_after_it() {
    let mut trace = Vec::new();
    for ticket in 1..=2_097_151 {
        let spelled = write_number(ticket);
        trace.extend([&[1], &spelled[..], &[5], &spelled[..]].concat());
    }
    assert!(accepted(&trace));
    let end = trace.len();
    let then = |event: &[u8]| call(&[&trace[..], event].concat());
    assert_eq!(then(&[1, 0x80, 0x80, 0x80, 1]), (21, end, vec![], vec![]));
    assert_eq!(then(&[1, 0xFF, 0xFF, 0x7F]), (40, end, vec![], vec![]));
}

#[test]
fn the_call_takes_a_trace_of_any_length() {
    let mut trace = [1, 1, 2, 1, 5].to_vec();
    trace.extend([3, 1, 5].repeat(200_000));
    assert_eq!(held_after(&trace), [(5, 1)]);
    last_not_allowed(&[&trace[..], &[3, 1, 6]].concat(), 3);
}
