//! The order of a trace: the proved call beside the same passes by hand.

use bench::measure::{row, time, Unit};
use bench::order::{self, TABLE, TICKETS};
use bench::traces::{first_events, named, KEYS};
use saltlicker::raw;
use std::time::Duration;

/// A row for each kind of trace and each length.
pub fn rows() {
    for trace in KEYS.map(named) {
        for most in [4_096, 16_384, 65_536] {
            let bytes = first_events(&trace.bytes, most);
            check(bytes);
            let what = format!("order, {} KiB: {}", most / 1_024, trace.what);
            let unit = (Unit::NsByte, bytes.len());
            row(&what, "by hand", unit, rounds(bytes, raw::order), rounds(bytes, order::order));
        }
    }
}

trait Order: Fn(&[u8], &mut [u32], &mut [u16]) -> u64 + Copy {}

impl<F: Fn(&[u8], &mut [u32], &mut [u16]) -> u64 + Copy> Order for F {}

fn rounds<'a>(trace: &'a [u8], side: impl Order + 'a) -> impl FnMut() -> Duration + 'a {
    let (mut table, mut list) = (vec![0; TABLE], vec![0; TICKETS]);
    move || time(|| side(trace, &mut table, &mut list))
}

fn outcome(trace: &[u8], side: impl Order) -> (u64, Vec<u32>, Vec<u16>) {
    let (mut table, mut list) = (vec![1; TABLE], vec![1; TICKETS]);
    let answer = side(trace, &mut table, &mut list);
    (answer, table, list)
}

/// Both sides give the same, and it is an order.
fn check(trace: &[u8]) {
    let proved = outcome(trace, raw::order);
    assert!(proved == outcome(trace, order::order), "the sides differ in an order");
    assert!(proved.0 >> 32 == 208, "a trace has no order");
}
