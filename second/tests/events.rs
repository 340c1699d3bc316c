//! Events: reading, writing, cutting, and refusals 20 to 24.

use second::event::{read_event, spell_event, write_event, Event};

fn every_kind(ticket: u32, record: u32) -> [Event; 5] {
    [
        Event::Started { ticket },
        Event::Granted { ticket, record },
        Event::Touched { ticket, record },
        Event::Released { ticket, record },
        Event::Finished { ticket },
    ]
}

#[test]
fn each_event_reads_back_as_itself() {
    for ticket in [1, 127, 128, 256, 257, 16_383, 16_384, 65_535, 65_536, 2_097_151] {
        for record in [0, 127, 128, 4_095] {
            for event in every_kind(ticket, record) {
                let bytes = spell_event(event).unwrap();
                assert_eq!(read_event(&bytes), Ok(Some((event, bytes.len()))));
            }
        }
    }
}

#[test]
fn kinds_are_one_to_five() {
    for kind in [0, 6, 7, 128, 255] {
        assert_eq!(read_event(&[kind]), Err(22));
        assert_eq!(read_event(&[kind, 1, 1]), Err(22));
    }
    for (event, kind) in every_kind(1, 2).into_iter().zip(1..) {
        assert_eq!(spell_event(event).unwrap()[0], kind);
    }
}

#[test]
fn the_first_fault_from_the_left_decides() {
    assert_eq!(read_event(&[]), Ok(None));
    assert_eq!(read_event(&[0x01]), Err(20));
    assert_eq!(read_event(&[0x01, 0x00]), Err(23));
    assert_eq!(read_event(&[0x02, 0x00]), Err(23));
    assert_eq!(read_event(&[0x02, 0x00, 0x80, 0x00]), Err(23));
    assert_eq!(read_event(&[0x02, 0x80, 0x00]), Err(21));
    assert_eq!(read_event(&[0x02, 0x01]), Err(20));
    assert_eq!(read_event(&[0x02, 0x01, 0x80]), Err(20));
    assert_eq!(read_event(&[0x02, 0x01, 0x80, 0x00]), Err(21));
    assert_eq!(read_event(&[0x03, 0x01, 0x80, 0x80, 0x80]), Err(21));
}

#[test]
fn tickets_at_their_limit() {
    let at = |ticket| Ok(Some((Event::Started { ticket }, 4)));
    assert_eq!(read_event(&[0x01, 0xFF, 0xFF, 0x03]), at(65_535));
    assert_eq!(read_event(&[0x01, 0x80, 0x80, 0x04]), at(65_536));
    assert_eq!(read_event(&[0x01, 0xFF, 0xFF, 0x7F]), at(2_097_151));
    assert_eq!(read_event(&[0x01, 0x80, 0x80, 0x80, 0x01]), Err(21));
}

#[test]
fn records_at_their_limit() {
    // 4,095 is FF 1F and 4,096 is 80 20.
    let last = Event::Touched { ticket: 1, record: 4_095 };
    assert_eq!(read_event(&[0x03, 0x01, 0xFF, 0x1F]), Ok(Some((last, 4))));
    assert_eq!(read_event(&[0x03, 0x01, 0x80, 0x20]), Err(23));
    // A higher number reads, and is no record.
    assert_eq!(read_event(&[0x03, 0x01, 0x80, 0x80, 0x04]), Err(23));
    assert_eq!(read_event(&[0x03, 0x01, 0xFF, 0xFF, 0x7F]), Err(23));
}

#[test]
fn writing_refuses_23_then_24_and_touches_nothing() {
    let wrong = [
        Event::Started { ticket: 0 },
        Event::Started { ticket: u32::MAX },
        Event::Finished { ticket: 2_097_152 },
        Event::Granted { ticket: 1, record: 4_096 },
        Event::Touched { ticket: 0, record: 0 },
        Event::Granted { ticket: 65_536, record: 65_536 },
        Event::Released { ticket: 2_097_152, record: 4_096 },
    ];
    for event in wrong {
        let mut room = [0xAA; 8];
        assert_eq!(write_event(event, &mut room), Err(23));
        assert_eq!(write_event(event, &mut []), Err(23));
        assert_eq!(room, [0xAA; 8]);
    }
    let mut room = [0xAA; 5];
    let longest = Event::Touched { ticket: 16_384, record: 128 };
    assert_eq!(write_event(longest, &mut room), Err(24));
    assert_eq!(room, [0xAA; 5]);
}

#[test]
fn writing_fills_the_front_only() {
    let event = Event::Touched { ticket: 128, record: 5 };
    let mut room = [0xAA; 6];
    assert_eq!(write_event(event, &mut room), Ok(4));
    assert_eq!(room, [0x03, 0x80, 0x01, 0x05, 0xAA, 0xAA]);
    let mut exact = [0xAA; 4];
    assert_eq!(write_event(event, &mut exact), Ok(4));
}

/// The events before the end or the refusal, and that refusal.
fn walk(trace: &[u8]) -> (Vec<Event>, Option<u32>) {
    let mut events = Vec::new();
    let mut at = 0;
    loop {
        match read_event(&trace[at..]) {
            Ok(Some((event, length))) => {
                events.push(event);
                at += length;
            }
            Ok(None) => return (events, None),
            Err(number) => return (events, Some(number)),
        }
    }
}

#[test]
fn a_cut_trace_reads_as_the_events_before_the_cut() {
    let mut events = Vec::new();
    for (ticket, record) in [(1, 0), (128, 128), (16_384, 4_095), (2_097_151, 4_095)] {
        events.extend(every_kind(ticket, record));
    }
    let mut trace = Vec::new();
    let mut ends = vec![0];
    for &event in &events {
        trace.extend(spell_event(event).unwrap());
        ends.push(trace.len());
    }
    for cut in 0..=trace.len() {
        let whole = ends.iter().filter(|&&end| end <= cut).count() - 1;
        let fault = if ends.contains(&cut) { None } else { Some(20) };
        assert_eq!(walk(&trace[..cut]), (events[..whole].to_vec(), fault));
    }
}
