//! A wrong side is found, and a file it prints wrongly is made small.

mod wrong;

use compare::calls::model::SECOND;
use compare::calls::{Calls, PLACE};
use compare::run::{run, Difference, Proved};
use compare::texts::{Program, AUDIT, DESK, ORDER};
use second::gen::recast;
use wrong::{found, put, smallest};

/// The second program on both sides.
fn right() -> Proved {
    let desk = Program { proved: SECOND.desk_text, ..DESK };
    let order = Program { proved: SECOND.order_text, ..ORDER };
    let audit = Program { proved: SECOND.audit_text, ..AUDIT };
    Proved { programs: [desk, order, audit], calls: SECOND }
}

#[test]
fn the_same_on_both_sides_is_no_difference() {
    let (tally, differences) = run(&right(), 3, 300);
    assert!(differences.is_empty());
    // No file can carry tables, a record, a room, a table of befores or 2,097,151 changes.
    let files = [DESK.files, ORDER.files, AUDIT.files];
    assert_eq!(tally.never_met(&files), "refused 1, refused 6, refused 24, refused 25");
    assert_eq!(tally.never_met(&[DESK.files, ORDER.files, AUDIT.files, PLACE]), "none");
}

#[test]
fn a_run_ends_at_a_difference() {
    let mut wrong = right();
    wrong.programs[1].proved = |_, _| 0;
    let (_, differences) = run(&wrong, 3, 1_000_000_000);
    assert!(differences.iter().all(|found| matches!(found, Difference::File(..))));
    assert!(!differences.is_empty());
}

#[test]
fn a_desk_that_grants_where_wakes_differ() {
    let proved =
        |file: &[u8], room: &mut [u8]| put(second::desk_text(file), "wait 2", "granted", room);
    let file = smallest(Program { proved, ..DESK });
    // Two begin, each locks a record, one releases its own, the other asks for that.
    assert_eq!(file.len(), 16);
    assert!(second::desk_text(&file).contains("wait 2"));
}

#[test]
fn a_desk_that_takes_any_seat() {
    let proved = |file: &[u8], room: &mut [u8]| {
        put(second::desk_text(file), "refused 2\n", "started 1\n", room)
    };
    assert_eq!(smallest(Program { proved, ..DESK }), [1, 32]);
}

#[test]
fn an_order_that_sees_no_ring() {
    let proved = |trace: &[u8], room: &mut [u8]| {
        put(second::order_text(trace), "refused 28 at 0", "order 0", room)
    };
    assert_eq!(smallest(Program { proved, ..ORDER }), [2, 1, 0, 2, 2, 0, 2, 1, 0]);
}

/// Puts the order of a trace with events of one kind as of another; refusals 20 to 27 stay.
fn put_recast(trace: &[u8], from: u8, to: u8, room: &mut [u8]) -> usize {
    put(second::order_text(&recast(trace, from, to)), "", "", room)
}

#[test]
fn an_order_that_counts_touches_only_or_grants_only_or_releases_too() {
    // What is a release instead does not count, and what is a touch instead does.
    let touches = |trace: &[u8], room: &mut [u8]| put_recast(trace, 2, 4, room);
    assert_eq!(smallest(Program { proved: touches, ..ORDER }), [2, 1, 0]);
    let grants = |trace: &[u8], room: &mut [u8]| put_recast(trace, 3, 4, room);
    assert_eq!(smallest(Program { proved: grants, ..ORDER }), [3, 1, 0]);
    let releases = |trace: &[u8], room: &mut [u8]| put_recast(trace, 4, 3, room);
    assert_eq!(smallest(Program { proved: releases, ..ORDER }), [4, 1, 0]);
}

#[test]
fn an_order_in_which_grants_close_no_ring() {
    let proved = |trace: &[u8], room: &mut [u8]| {
        let of_touches = second::order_text(&recast(trace, 2, 4)).starts_with("refused 28");
        let to = if of_touches { "refused 28 at 0" } else { "order 0" };
        put(second::order_text(trace), "refused 28 at 0", to, room)
    };
    let trace = smallest(Program { proved, ..ORDER });
    assert_eq!((trace.len(), second::order_text(&trace).as_str()), (9, "refused 28 at 0\n"));
}

#[test]
fn a_text_that_goes_on_after_its_end() {
    let proved = |trace: &[u8], room: &mut [u8]| {
        let length = put(second::order_text(trace), "", "", room);
        room[length] = 0;
        length
    };
    assert!(smallest(Program { proved, ..ORDER }).is_empty());
}

#[test]
fn a_clearing_that_leaves_the_record_when_refused() {
    let clear = |held: &mut [u32], released: &mut [u32], desk: &mut [u32]| {
        let before = desk.to_vec();
        let answer = (SECOND.clear)(held, released, desk);
        if answer >> 32 == 1 {
            desk.copy_from_slice(&before);
        }
        answer
    };
    assert!(found(Calls { clear, ..SECOND }));
}

#[test]
fn a_desk_that_leaves_finished_seats_in_the_wakes() {
    let judge = |held: &mut [u32],
                 released: &mut [u32],
                 desk: &mut [u32],
                 requests: &[u32],
                 answers: &mut [u64]| {
        let before = desk.to_vec();
        let answer = (SECOND.judge)(held, released, desk, requests, answers);
        // One request alone, so that no other has altered the wakes.
        if answers.len() == 1 && answers[0] >> 32 == 105 {
            for seat in (0..32).filter(|&seat| seat != requests[1] as usize) {
                desk[2 * seat + 1] = before[2 * seat + 1];
            }
        }
        answer
    };
    assert!(found(Calls { judge, ..SECOND }));
}

#[test]
fn a_reader_that_leaves_something_when_refused() {
    let read = |rest: &[u8], event: &mut [u32]| {
        let answer = (SECOND.read)(rest, event);
        if answer >> 32 == 23 {
            event[0] = u32::from(rest[0]);
        }
        answer
    };
    assert!(found(Calls { read, ..SECOND }));
}

#[test]
fn a_writer_that_writes_a_byte_more() {
    let write = |room: &mut [u8], kind: u32, ticket: u32, record: u32| {
        let answer = (SECOND.write)(room, kind, ticket, record);
        if let (207, Some(byte)) = (answer >> 32, room.get_mut(answer as u32 as usize)) {
            *byte = 0;
        }
        answer
    };
    assert!(found(Calls { write, ..SECOND }));
}

#[test]
fn an_order_that_leaves_the_list_at_a_ring() {
    let order = |trace: &[u8], table: &mut [u32], list: &mut [u16]| {
        let before = list.to_vec();
        let answer = (SECOND.order)(trace, table, list);
        if answer >> 32 == 28 {
            list.copy_from_slice(&before);
        }
        answer
    };
    assert!(found(Calls { order, ..SECOND }));
}

#[test]
fn a_table_of_befores_by_touches_only() {
    let order = |trace: &[u8], table: &mut [u32], list: &mut [u16]| {
        let answer = (SECOND.order)(trace, table, list);
        if answer >> 32 == 208 {
            // The list stays, so only the table tells.
            let mut places = [0; 256];
            (SECOND.order)(&recast(trace, 2, 4), table, &mut places);
        }
        answer
    };
    assert!(found(Calls { order, ..SECOND }));
}

#[test]
fn texts_that_give_more_than_they_put() {
    let desk_text = |file: &[u8], room: &mut [u8]| {
        (SECOND.desk_text)(file, room);
        second::desk_text(file).len()
    };
    let order_text = |trace: &[u8], room: &mut [u8]| {
        (SECOND.order_text)(trace, room);
        second::order_text(trace).len()
    };
    assert!(found(Calls { desk_text, ..SECOND }));
    let audit_text = |trace: &[u8], room: &mut [u8]| {
        (SECOND.audit_text)(trace, room);
        second::audit_text(trace).len()
    };
    assert!(found(Calls { order_text, ..SECOND }));
    assert!(found(Calls { audit_text, ..SECOND }));
}
