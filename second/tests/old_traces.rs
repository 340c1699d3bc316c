//! Old traces, of numbers to 65,535, read as before: only what was refused for a larger number differs.

use second::desk_trace;
use second::event::{read_event, Event};
use second::gen::{audit_file, desk_file, order_file};
use std::collections::BTreeMap;

/// The largest number of old traces, and the largest now.
const OLD: u32 = 65_535;
const NEW: u32 = 2_097_151;

/// Why a reader refuses.
#[derive(Clone, Copy, Debug, PartialEq)]
enum Fault {
    /// 20, 22, 23, or 21 for a spelling.
    Number(u32),
    /// 21 for a number of three groups that is over the limit.
    Over(u32),
}

/// An event and its length, end, or a fault.
type Said = Result<Option<(Event, usize)>, Fault>;

/// Reads an event by the paper, with the largest number as a limit of its own.
fn read(rest: &[u8], limit: u32) -> Said {
    let Some((&kind, rest)) = rest.split_first() else {
        return Ok(None);
    };
    if kind == 0 || kind > 5 {
        return Err(Fault::Number(22));
    }
    let (ticket, first) = number(rest, limit)?;
    if ticket == 0 {
        return Err(Fault::Number(23));
    }
    if kind == 1 || kind == 5 {
        let event = if kind == 1 { Event::Started { ticket } } else { Event::Finished { ticket } };
        return Ok(Some((event, 1 + first)));
    }
    let (record, second) = number(&rest[first..], limit)?;
    if record > 4_095 {
        return Err(Fault::Number(23));
    }
    let event = match kind {
        2 => Event::Granted { ticket, record },
        3 => Event::Touched { ticket, record },
        _ => Event::Released { ticket, record },
    };
    Ok(Some((event, 1 + first + second)))
}

/// A number and its length: one to three groups, the last without the top bit, no zero group at the end.
fn number(rest: &[u8], limit: u32) -> Result<(u32, usize), Fault> {
    let value = match *rest {
        [a, ..] if a < 128 => return Ok((u32::from(a), 1)),
        [_, 0, ..] => return Err(Fault::Number(21)),
        [a, b, ..] if b < 128 => return Ok((u32::from(a - 128) + 128 * u32::from(b), 2)),
        [_, _, 0, ..] | [_, _, 128..=255, ..] => return Err(Fault::Number(21)),
        [a, b, c, ..] => u32::from(a - 128) + 128 * u32::from(b - 128) + 16_384 * u32::from(c),
        _ => return Err(Fault::Number(20)),
    };
    if value > limit {
        return Err(Fault::Over(value));
    }
    Ok((value, 3))
}

/// How often both readers said each thing, or the new one did where a number was over; 0 is no refusal.
#[derive(Default)]
struct Met(BTreeMap<(&'static str, u32), u64>);

impl Met {
    /// Holds both readers against each other on the front of some bytes.
    fn hold(&mut self, rest: &[u8]) {
        let new = read_event(rest);
        let said = match (read(rest, OLD), new) {
            (Ok(Some(old)), Ok(Some(new))) if old == new => ("read", 0),
            (Ok(None), Ok(None)) => ("end", 0),
            (Err(Fault::Number(old)), Err(new)) if old == new => ("refused", old),
            (Err(Fault::Over(number)), new) => {
                assert!((OLD + 1..=NEW).contains(&number));
                ("over", new.err().unwrap_or(0))
            }
            (old, new) => panic!("{old:?} and {new:?}: {:?}", &rest[..rest.len().min(8)]),
        };
        // Whatever the old one says, the paper with the new limit says what the new one does.
        assert_eq!(read(rest, NEW).map_err(refusal), new);
        *self.0.entry(said).or_default() += 1;
    }
}

fn refusal(fault: Fault) -> u32 {
    match fault {
        Fault::Number(number) => number,
        Fault::Over(_) => 21,
    }
}

/// All that can be met.
const ALL: [(&str, u32); 10] = [
    ("end", 0),
    ("over", 0),
    ("over", 20),
    ("over", 21),
    ("over", 23),
    ("read", 0),
    ("refused", 20),
    ("refused", 21),
    ("refused", 22),
    ("refused", 23),
];

#[test]
fn generated_traces_from_every_byte_on() {
    let mut met = Met::default();
    for seed in 1..=8 {
        for index in 0..400 {
            let file = desk_file(seed, index);
            let traces =
                [order_file(seed, index), audit_file(seed, index), desk_trace(&file), file];
            for trace in traces {
                (0..=trace.len()).for_each(|at| met.hold(&trace[at..]));
            }
        }
    }
    assert!(met.0.keys().eq(&ALL), "{:?}", met.0);
}

/// The events of a trace, by one of the readers, and the refusal that ends it.
fn walk<F>(
    trace: &[u8],
    read: impl Fn(&[u8]) -> Result<Option<(Event, usize)>, F>,
) -> (Vec<Event>, Option<F>) {
    let mut events = Vec::new();
    let mut at = 0;
    loop {
        match read(&trace[at..]) {
            Ok(None) => return (events, None),
            Err(fault) => return (events, Some(fault)),
            Ok(Some((event, length))) => {
                events.push(event);
                at += length;
            }
        }
    }
}

#[test]
fn generated_traces_from_end_to_end() {
    let (mut whole, mut refused, mut longer) = (0, 0, 0);
    for index in 0..4_000 {
        for trace in [order_file(9, index), audit_file(9, index)] {
            let (old, fault) = walk(&trace, |rest| read(rest, OLD));
            let (new, other) = walk(&trace, read_event);
            assert_eq!(new[..old.len()], old);
            match fault {
                Some(Fault::Over(_)) => longer += 1,
                Some(Fault::Number(number)) => {
                    refused += 1;
                    assert_eq!((new.len(), other), (old.len(), Some(number)));
                }
                None => {
                    whole += 1;
                    assert_eq!((new.len(), other), (old.len(), None));
                }
            }
        }
    }
    assert!(whole > 1_000 && refused > 1_000 && longer > 10, "{whole} {refused} {longer}");
}

#[test]
fn every_number_as_a_ticket_and_as_a_record() {
    let mut met = Met::default();
    for word in 0..1u32 << 24 {
        let [a, b, c, _] = word.to_le_bytes();
        met.hold(&[5, a, b, c]);
        met.hold(&[2, 1, a, b, c]);
    }
    let over = u64::from(NEW - OLD);
    assert_eq!((met.0[&("over", 0)], met.0[&("over", 23)]), (over, over));
    assert_eq!(met.0.len(), 5, "{:?}", met.0);
}
