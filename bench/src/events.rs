//! Reading and writing a trace event by event: the exported calls beside the same by hand.

use bench::measure::{row, time, Unit};
use bench::trace;
use bench::traces::named;
use bench::walks::{read_all, write_all};
use saltlicker::raw;
use std::hint::black_box;
use std::time::Duration;

trait Read: Fn(&[u8], &mut [u32]) -> u64 + Copy {}

impl<F: Fn(&[u8], &mut [u32]) -> u64 + Copy> Read for F {}

trait Write: Fn(&mut [u8], u32, u32, u32) -> u64 + Copy {}

impl<F: Fn(&mut [u8], u32, u32, u32) -> u64 + Copy> Write for F {}

/// Rows for reading and for writing the traces of touches and of a desk.
pub fn rows() {
    for trace in ["few", "desk"].map(named) {
        let events = events(&trace.bytes, raw::read);
        check(&trace.bytes, &events);
        reading(&format!("read: {}", trace.what), &trace.bytes);
        writing(&format!("write: {}", trace.what), trace.bytes.len(), &events);
    }
}

fn reading(what: &str, bytes: &[u8]) {
    let unit = (Unit::Megabytes, bytes.len());
    let proved = || reads(bytes, raw::read);
    row(what, "by hand, called", unit, proved(), reads(bytes, trace::read));
    row(what, "by hand, inlined", unit, proved(), reads(bytes, trace::read_here));
}

fn writing(what: &str, bytes: usize, events: &[[u32; 3]]) {
    let unit = (Unit::Megabytes, bytes);
    let proved = || writes(bytes, events, raw::write);
    row(what, "by hand, called", unit, proved(), writes(bytes, events, trace::write));
    row(what, "by hand, inlined", unit, proved(), writes(bytes, events, trace::write_here));
}

/// Every side reads the same events, and writes them as they stood.
fn check(bytes: &[u8], found: &[[u32; 3]]) {
    assert!(found == events(bytes, trace::read), "the sides read differently");
    assert!(
        bytes == written(bytes.len(), found, raw::write),
        "the proved side writes another trace"
    );
    assert!(
        bytes == written(bytes.len(), found, trace::write),
        "the other side writes another trace"
    );
}

fn events(bytes: &[u8], read: impl Read) -> Vec<[u32; 3]> {
    let mut events = Vec::new();
    read_all(bytes, read, |event| events.push(*event));
    events
}

fn written(bytes: usize, events: &[[u32; 3]], write: impl Write) -> Vec<u8> {
    let mut room = vec![0; bytes];
    write_all(&mut room, events, write);
    room
}

/// A sum of all numbers stands for what a caller does with an event.
fn reads<'a>(bytes: &'a [u8], read: impl Read + 'a) -> impl FnMut() -> Duration + 'a {
    let sum = move || {
        let mut sum = 0u32;
        read_all(bytes, read, |event| sum = sum.wrapping_add(event.iter().sum()));
        sum
    };
    move || time(sum)
}

fn writes<'a>(
    bytes: usize,
    events: &'a [[u32; 3]],
    write: impl Write + 'a,
) -> impl FnMut() -> Duration + 'a {
    let mut room = vec![0; bytes];
    move || time(|| write_all(black_box(&mut room), events, write))
}
