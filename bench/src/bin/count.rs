//! One fixed input through one side, so many times, to be counted from outside.

use bench::order::{self, TABLE, TICKETS};
use bench::state::Judge;
use bench::walks::{read_all, write_all};
use bench::{by_value, cases, in_place, trace, traces};
use saltlicker::raw;
use std::hint::black_box;

const USAGE: &str = "count judge proved|by_value|in_place CASE TIMES
count order|read|write proved|by_hand TRACE TIMES";

/// Prints how many requests or bytes the input has.
fn main() {
    let words: Vec<String> = std::env::args().skip(1).collect();
    let words: Vec<&str> = words.iter().map(String::as_str).collect();
    let [call, side, key, times] = words[..] else { panic!("{USAGE}") };
    let times = times.parse().expect(USAGE);
    let units = match (call, side) {
        ("judge", "proved") => judged(key, times, raw::judge),
        ("judge", "by_value") => judged(key, times, by_value::judge_all),
        ("judge", "in_place") => judged(key, times, in_place::judge_all),
        ("order", "proved") => ordered(key, times, raw::order),
        ("order", "by_hand") => ordered(key, times, order::order),
        ("read", "proved") => read(key, times, raw::read),
        ("read", "by_hand") => read(key, times, trace::read),
        ("write", "proved") => written(key, times, raw::write),
        ("write", "by_hand") => written(key, times, trace::write),
        _ => panic!("{USAGE}"),
    };
    println!("{units}");
}

fn judged(key: &str, times: usize, side: impl Judge) -> usize {
    let case = cases::named(key);
    let (mut state, mut answers) = (case.start.clone(), vec![0; case.count()]);
    for _ in 0..times {
        state.copy_from(&case.start);
        state.judge(side, &case.requests, &mut answers);
    }
    case.count()
}

fn ordered(key: &str, times: usize, side: impl Fn(&[u8], &mut [u32], &mut [u16]) -> u64) -> usize {
    let trace = traces::named(key).bytes;
    let (mut table, mut list) = (vec![0; TABLE], vec![0; TICKETS]);
    for _ in 0..times {
        side(&trace, &mut table, &mut list);
    }
    trace.len()
}

fn read(key: &str, times: usize, side: impl Fn(&[u8], &mut [u32]) -> u64) -> usize {
    let trace = traces::named(key).bytes;
    for _ in 0..times {
        read_all(&trace, &side, |event| {
            black_box(event);
        });
    }
    trace.len()
}

fn written(key: &str, times: usize, side: impl Fn(&mut [u8], u32, u32, u32) -> u64) -> usize {
    let trace = traces::named(key).bytes;
    let (mut room, mut events) = (vec![0; trace.len()], Vec::new());
    // Read by other code than either side's own calls, which may be the ones counted.
    read_all(&trace, trace::read_here, |event| events.push(*event));
    for _ in 0..times {
        write_all(black_box(&mut room), &events, &side);
    }
    trace.len()
}
