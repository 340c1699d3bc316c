//! Events: spellings on each side of a length, refusals 20 to 24, and that a refused write leaves the room.

use saltlicker::names::*;
use saltlicker::{append_event, events, raw, read_event, write_event, Event, Fault, Refusal};

#[test]
fn tickets_on_each_side_of_a_length() {
    let spellings: [(u32, &[u8]); 8] = [
        (1, &[0x01]),
        (127, &[0x7F]),
        (128, &[0x80, 0x01]),
        (16_383, &[0xFF, 0x7F]),
        (16_384, &[0x80, 0x80, 0x01]),
        (65_535, &[0xFF, 0xFF, 0x03]),
        (65_536, &[0x80, 0x80, 0x04]),
        (2_097_151, &[0xFF, 0xFF, 0x7F]),
    ];
    for (ticket, bytes) in spellings {
        let mut room = [7; 8];
        let event = Event::Started { ticket };
        let length = write_event(&mut room, event).unwrap();
        assert_eq!((room[0], &room[1..length]), (1, bytes));
        assert!(room[length..].iter().all(|&byte| byte == 7));
        assert_eq!(read_event(&room).unwrap(), Some((event, length)));
    }
}

#[test]
fn every_kind_reads_back() {
    let (ticket, record) = (2_097_151, 4_095);
    let all = [
        Event::Started { ticket },
        Event::Granted { ticket, record },
        Event::Touched { ticket, record },
        Event::Released { ticket, record },
        Event::Finished { ticket },
    ];
    let mut trace = Vec::new();
    for event in all {
        append_event(&mut trace, event).unwrap();
    }
    let kinds = [trace[0], trace[4], trace[10], trace[16], trace[22]];
    assert_eq!((kinds, trace.len()), ([1, 2, 3, 4, 5], 26));
    assert_eq!(events(&trace).collect::<Result<Vec<_>, _>>().unwrap(), all);
}

#[test]
fn reading_is_refused_by_the_first_fault() {
    let faults: [(&[u8], u32); 15] = [
        (&[1], 20),
        (&[1, 0x80], 20),
        (&[2, 1], 20),
        (&[2, 1, 0x80], 20),
        (&[1, 0x80, 0x00], 21),
        (&[1, 0x80, 0x80, 0x80], 21),
        (&[1, 0x80, 0x80, 0x80, 0x01], 21),
        (&[0], 22),
        (&[6, 1, 1], 22),
        (&[255], 22),
        (&[1, 0], 23),
        (&[2, 0], 23),
        (&[3, 1, 0x80, 0x20], 23),
        (&[3, 1, 0x80, 0x80, 0x04], 23),
        (&[3, 1, 0xFF, 0xFF, 0x7F], 23),
    ];
    for (bytes, number) in faults {
        assert_eq!(read_event(bytes), Err(Refusal(number)), "{bytes:?}");
        let mut event = [7; EVENT_WORDS];
        raw::read(bytes, &mut event);
        assert_eq!(event, [7; EVENT_WORDS]);
    }
    assert_eq!(read_event(&[]), Ok(None));
}

#[test]
fn writing_is_refused_and_leaves_the_room() {
    let (good, record) = (2_097_151, 4_095);
    let faults = [
        (Event::Started { ticket: 0 }, 8, 23),
        (Event::Started { ticket: 2_097_152 }, 8, 23),
        (Event::Finished { ticket: u32::MAX }, 8, 23),
        (Event::Granted { ticket: 1, record: 4_096 }, 8, 23),
        (Event::Released { ticket: 1, record: u32::MAX }, 0, 23),
        (Event::Started { ticket: 1 }, 0, 24),
        (Event::Finished { ticket: good }, 3, 24),
        (Event::Touched { ticket: good, record }, 5, 24),
    ];
    for (event, bytes, number) in faults {
        let mut room = vec![7; bytes];
        assert_eq!(write_event(&mut room, event), Err(Refusal(number)), "{event:?}");
        assert!(room.iter().all(|&byte| byte == 7));
    }
    assert_eq!(write_event(&mut [0; 6], Event::Touched { ticket: good, record }), Ok(6));
}

#[test]
fn the_raw_writer_knows_five_kinds_and_looks_at_the_record_of_three() {
    let mut room = [7; 8];
    for kind in [0, 6, 256, u32::MAX] {
        assert_eq!(code(raw::write(&mut room, kind, 1, 1)), UNKNOWN_KIND);
    }
    assert_eq!(room, [7; 8]);
    for (kind, answer) in
        [(BEGIN, WRITTEN), (LOCK, 23), (TOUCH, 23), (RELEASE, 23), (FINISH, WRITTEN)]
    {
        assert_eq!(code(raw::write(&mut room, kind, 1, u32::MAX)), answer);
    }
}

#[test]
fn a_trace_cut_anywhere_gives_the_events_before_the_cut() {
    let trace = [1, 1, 2, 1, 5, 3, 1, 5, 5, 1];
    let starts = [0, 2, 5, 8, 10];
    for cut in 0..trace.len() {
        let whole = starts.iter().filter(|&&start| start != 0 && start <= cut).count();
        let mut read = events(&trace[..cut]);
        assert!(read.by_ref().take(whole).all(|event| event.is_ok()));
        let fault = Fault { refusal: Refusal(20), offset: starts[whole] };
        assert_eq!(read.next(), (starts[whole] != cut).then_some(Err(fault)));
        assert_eq!(read.next(), None);
    }
}
