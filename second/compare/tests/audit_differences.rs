//! A wrong trace check is found: by its text, its answer, the offset or the tables it leaves.

mod wrong;

use compare::calls::model::SECOND;
use compare::calls::{Audit, Calls};
use compare::texts::{Program, AUDIT};
use second::audit::request_for;
use second::desk::Seat;
use second::event::{each_event, spell_event};
use second::programs::Work;
use wrong::{found, put, smallest};

fn found_audit(audit: Audit) -> bool {
    found(Calls { audit, ..SECOND })
}

/// The check by a desk that `done` is done to after each event.
fn by_a_desk(
    trace: &[u8],
    held: &mut [u32],
    released: &mut [u32],
    at: &mut [u64],
    done: fn(&mut Work),
) -> u64 {
    let right = (SECOND.audit)(trace, held, released, at);
    if at.len() != 1 || right >> 32 == 1 {
        return right;
    }
    let mut work = Work::cleared(4_096);
    let verdict = each_event(trace, |event| {
        let before = work.trace.len();
        request_for(&work.desk, event).map(|request| work.ask(request));
        done(&mut work);
        let same = spell_event(event).is_ok_and(|spelled| spelled == work.trace[before..]);
        same.then_some(()).ok_or(40)
    });
    held.copy_from_slice(&work.tables.held);
    released.copy_from_slice(&work.tables.released);
    verdict.map_or_else(
        |refusal| {
            at[0] = refusal.offset as u64;
            u64::from(refusal.number) << 32
        },
        |()| 209 << 32,
    )
}

#[test]
fn a_desk_left_alone_is_no_difference() {
    assert!(!found_audit(|trace, held, released, at| {
        by_a_desk(trace, held, released, at, |_| ())
    }));
}

#[test]
fn a_grant_without_the_wake_test() {
    assert!(found_audit(|trace, held, released, at| {
        by_a_desk(trace, held, released, at, |work| {
            work.desk.seats.iter_mut().for_each(|seat| seat.has_lock = false);
        })
    }));
}

#[test]
fn a_lock_forgotten_once_the_wake_empties() {
    assert!(found_audit(|trace, held, released, at| {
        by_a_desk(trace, held, released, at, |work| {
            work.desk.seats.iter_mut().for_each(|seat| seat.has_lock &= seat.wake != 0);
        })
    }));
}

#[test]
fn a_finish_that_does_not_free_the_seat() {
    assert!(found_audit(|trace, held, released, at| {
        by_a_desk(trace, held, released, at, |work| {
            let begun = work.desk.begun.min(32) as usize;
            for seat in work.desk.seats[..begun].iter_mut().filter(|seat| !seat.live) {
                *seat = Seat { live: true, ..Seat::default() };
            }
        })
    }));
}

#[test]
fn a_start_that_takes_the_highest_free_seat() {
    assert!(found_audit(|trace, held, released, at| {
        let answer = (SECOND.audit)(trace, held, released, at);
        if answer >> 32 != 1 && answer >> 32 != 99 {
            // Seat 31 for seat 0, and so on: the same desk seen from the other end.
            held.iter_mut().chain(released).for_each(|word| *word = word.reverse_bits());
        }
        answer
    }));
}

#[test]
fn tables_that_are_zeros_after_a_refusal() {
    assert!(found_audit(|trace, held, released, at| {
        let answer = (SECOND.audit)(trace, held, released, at);
        if answer >> 32 == 40 {
            held.fill(0);
            released.fill(0);
        }
        answer
    }));
}

#[test]
fn tables_of_wrong_length_that_are_cleared() {
    assert!(found_audit(|trace, held, released, at| {
        let answer = (SECOND.audit)(trace, held, released, at);
        if answer >> 32 == 1 {
            released.fill(0);
        }
        answer
    }));
    assert!(found_audit(|trace, held, released, at| {
        let answer = (SECOND.audit)(trace, held, released, at);
        if answer >> 32 == 99 {
            held.fill(0);
        }
        answer
    }));
}

#[test]
fn an_offset_put_where_none_is_and_not_where_one_is() {
    assert!(found_audit(|trace, held, released, at| {
        let answer = (SECOND.audit)(trace, held, released, at);
        if answer >> 32 == 209 {
            at[0] = trace.len() as u64;
        }
        answer
    }));
    assert!(found_audit(|trace, held, released, at| {
        let before = at.to_vec();
        let answer = (SECOND.audit)(trace, held, released, at);
        if answer >> 32 == 1 {
            at.copy_from_slice(&before);
        }
        answer
    }));
}

#[test]
fn a_text_that_accepts_every_event() {
    let proved = |trace: &[u8], room: &mut [u8]| {
        let text = second::audit_text(trace);
        let text = if text.starts_with("refused 40") { "accepted\n".to_string() } else { text };
        put(text, "", "", room)
    };
    let trace = smallest(Program { proved, ..AUDIT });
    assert_eq!((trace.len(), second::audit_text(&trace).as_str()), (2, "refused 40 at 0\n"));
}

#[test]
fn a_text_that_names_another_offset() {
    let proved =
        |trace: &[u8], room: &mut [u8]| put(second::audit_text(trace), " at 2\n", " at 4\n", room);
    // One event, and then one that cannot be read.
    assert_eq!(smallest(Program { proved, ..AUDIT }), [1, 1, 0]);
}
