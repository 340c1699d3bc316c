//! The trace check: accepted, refusals 20 to 23 and 40 with their offsets, and the tables after the last event allowed.

use saltlicker::names::*;
use saltlicker::Request::{Begin, Finish, Lock, Release, Touch};
use saltlicker::{
    append_event, audit, audit_and_tables, audit_text, raw, Desk, Event, Fault, Refusal,
};

/// The sweep passes record 5 and the editor follows it; at 19 the editor is in the sweep's wake.
const WAKE: [u8; 19] = [1, 1, 2, 1, 5, 3, 1, 5, 4, 1, 5, 1, 2, 2, 2, 5, 3, 2, 5];

fn fault(number: u32, offset: usize) -> Fault {
    Fault { refusal: Refusal(number), offset }
}

/// A trace is accepted, and with one event more refused there, with the tables as before that event.
fn refused_after(trace: &[u8], event: &[u8], number: u32) {
    let (accepted, tables) = audit_and_tables(trace);
    assert_eq!(accepted, Ok(()));
    for more in [&[][..], &[0], &[1, 1]] {
        if number == 20 && !more.is_empty() {
            continue;
        }
        let whole = [trace, event, more].concat();
        let (refused, left) = audit_and_tables(&whole);
        assert_eq!(refused, Err(fault(number, trace.len())), "{whole:?}");
        assert_eq!(left, tables);
        assert_eq!(audit_text(&whole), format!("refused {number} at {}\n", trace.len()));
    }
}

#[test]
fn what_the_desk_writes_is_accepted_and_leaves_its_tables() {
    let mut desk = Desk::new(RECORDS).unwrap();
    let mut trace = Vec::new();
    let requests = [
        Begin { seat: 0 },
        Lock { seat: 0, record: 5 },
        Touch { seat: 0, record: 5 },
        Lock { seat: 0, record: 4095 },
        Release { seat: 0, record: 5 },
        Begin { seat: 1 },
        Lock { seat: 1, record: 4095 },
        Lock { seat: 1, record: 5 },
        Begin { seat: 2 },
        Finish { seat: 0 },
        Begin { seat: 0 },
        Lock { seat: 0, record: 0 },
    ];
    for request in requests {
        if let Some(event) = desk.ask(request).event {
            append_event(&mut trace, event).unwrap();
        }
        let (accepted, tables) = audit_and_tables(&trace);
        assert_eq!(accepted, Ok(()));
        assert_eq!((tables.held(), tables.released()), (desk.held(), desk.released()));
    }
    assert_eq!(audit_text(&trace), "accepted\n");
    assert_eq!((audit(&[]), audit_text(&[])), (Ok(()), "accepted\n".to_string()));
}

#[test]
fn events_that_do_not_read() {
    for (event, number) in [
        (&[2, 2][..], 20),
        (&[1, 0x80, 0], 21),
        (&[1, 0x80, 0x80, 0x80, 1], 21),
        (&[0], 22),
        (&[9], 22),
        (&[1, 0], 23),
        (&[3, 2, 0x80, 0x20], 23),
        (&[3, 2, 0x80, 0x80, 4], 23),
    ] {
        refused_after(&[], event, number);
        refused_after(&WAKE, event, number);
    }
}

#[test]
fn each_kind_where_the_desk_could_not_write_it() {
    // A ticket out of turn; a grant of what is given up, in the wake, and to nobody; what is not held, and given up; nobody.
    for event in [
        &[1, 2][..],
        &[1, 4],
        &[1, 0x80, 0x80, 4],
        &[1, 0xFF, 0xFF, 0x7F],
        &[2, 1, 5],
        &[2, 2, 6],
        &[2, 3, 7],
        &[3, 2, 7],
        &[3, 1, 5],
        &[4, 2, 7],
        &[4, 1, 5],
        &[5, 3],
    ] {
        refused_after(&WAKE, event, 40);
    }
    // A grant of what another holds; a start with no seat free.
    refused_after(&[1, 1, 2, 1, 5, 1, 2], &[2, 2, 5], 40);
    let full: Vec<u8> = (1..=32).flat_map(|ticket| [1, ticket]).collect();
    refused_after(&full, &[1, 33], 40);
    assert_eq!(audit(&[&full[..], &[5, 7, 1, 33]].concat()), Ok(()));
}

#[test]
fn the_first_faulty_event_decides() {
    assert_eq!(audit(&[3, 1, 5, 9]), Err(fault(40, 0)));
    assert_eq!(audit(&[9, 3, 1, 5]), Err(fault(22, 0)));
    let said = "refused 40 at 2: event the desk could not have written then";
    assert_eq!(audit(&[1, 1, 1, 1]).unwrap_err().to_string(), said);
}

#[test]
fn a_trace_may_have_any_length() {
    let mut trace = vec![1, 1, 2, 1, 5];
    trace.extend([3, 1, 5].repeat(TRACE_BYTES * 3));
    assert_eq!((audit(&trace), audit_text(&trace)), (Ok(()), "accepted\n".to_string()));
    let end = trace.len();
    trace.extend([3, 1, 6]);
    assert_eq!(audit(&trace), Err(fault(40, end)));
    assert_eq!(audit_text(&trace), format!("refused 40 at {end}\n"));
}

#[test]
fn the_last_ticket_and_none_after_it() {
    let mut trace = Vec::new();
    for ticket in 1..=2_097_151 {
        append_event(&mut trace, Event::Started { ticket }).unwrap();
        append_event(&mut trace, Event::Finished { ticket }).unwrap();
    }
    assert_eq!(trace[trace.len() - 4..], [5, 0xFF, 0xFF, 0x7F]);
    // Refused only there, and so accepted up to there.
    let end = trace.len();
    trace.extend([1, 0xFF, 0xFF, 0x7F]);
    assert_eq!(audit(&trace), Err(fault(40, end)));
}

#[test]
fn the_tables_are_cleared_first_and_accepted_leaves_the_offset() {
    let (mut held, mut released, mut at) = ([7; RECORDS], [7; RECORDS], [7]);
    let answer = raw::audit(&WAKE, &mut held, &mut released, &mut at);
    assert_eq!((code(answer), value(answer), at), (ACCEPTED, 0, [7]));
    assert_eq!((held[5], released[5]), (0b11, 0b01));
    assert_eq!(held.iter().chain(&released).filter(|&&word| word != 0).count(), 2);
    let answer = raw::audit(&[&WAKE[..], &[2, 2, 6]].concat(), &mut held, &mut released, &mut at);
    assert_eq!((code(answer), value(answer), at), (40, 0, [19]));
    assert_eq!((held[5], held[6], released[5]), (0b11, 0, 0b01));
}
