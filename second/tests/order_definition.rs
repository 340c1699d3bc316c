//! The order of generated traces, checked word by word against its definition.

use second::gen::{events, order_file, recast};
use second::number::read_number;
use second::order::{accesses, order};
use second::order_text;
use std::collections::BTreeSet;

/// The accesses straight from the definition: ticket and record of each event of kind 2 or 3.
fn accesses_by_definition(trace: &[u8]) -> Vec<(u32, u32)> {
    let counts = |event: &Vec<u8>| event[0] == 2 || event[0] == 3;
    let numbers = |event: Vec<u8>| {
        let (ticket, length) = read_number(&event[1..]).unwrap();
        (ticket, read_number(&event[1 + length..]).unwrap().0)
    };
    events(trace).into_iter().filter(counts).map(numbers).collect()
}

/// The pairs straight from the definition: every two accesses, the earlier and the later.
fn pairs_by_definition(accesses: &[(u32, u32)]) -> BTreeSet<(u32, u32)> {
    let mut pairs = BTreeSet::new();
    for (later, &(j, record)) in accesses.iter().enumerate() {
        for &(i, other) in &accesses[..later] {
            if i != j && other == record {
                pairs.insert((i, j));
            }
        }
    }
    pairs
}

/// Whether some ticket comes before itself along a chain of pairs.
fn has_ring(pairs: &BTreeSet<(u32, u32)>) -> bool {
    // Pairs that start where no pair ends lie on no ring; what cannot be struck out has one.
    let mut left = pairs.clone();
    loop {
        let ends: BTreeSet<u32> = left.iter().map(|&(_, j)| j).collect();
        let kept: BTreeSet<(u32, u32)> =
            left.iter().copied().filter(|(i, _)| ends.contains(i)).collect();
        if kept.len() == left.len() {
            return !kept.is_empty();
        }
        left = kept;
    }
}

fn table_says(table: &[u32], i: u32, j: u32) -> bool {
    let word = table[(8 * (i - 1) + (j - 1) / 32) as usize];
    (word >> ((j - 1) % 32)) & 1 == 1
}

/// At each place the lowest unlisted ticket all of whose befores are listed.
fn check_list(list: &[u32], tickets: &BTreeSet<u32>, pairs: &BTreeSet<(u32, u32)>) {
    assert_eq!(list.len(), tickets.len());
    assert_eq!(&list.iter().copied().collect::<BTreeSet<u32>>(), tickets);
    for (place, &stands) in list.iter().enumerate() {
        let listed = &list[..place];
        let may = |ticket: u32| pairs.iter().all(|(i, j)| *j != ticket || listed.contains(i));
        assert!(may(stands));
        let lower = tickets.iter().copied().filter(|ticket| *ticket < stands);
        assert!(lower.filter(|ticket| !listed.contains(ticket)).all(|ticket| !may(ticket)));
    }
}

/// Checks one trace that reads; gives whether it had a ring.
fn check(trace: &[u8], accesses: &[(u32, u32)]) -> bool {
    let mut table = [u32::MAX; 2_048];
    let mut places = [u16::MAX; 256];
    let outcome = order(trace, &mut table, &mut places);
    let pairs = pairs_by_definition(accesses);
    for i in 1..=256 {
        for j in 1..=256 {
            assert_eq!(table_says(&table, i, j), pairs.contains(&(i, j)));
        }
    }
    let ring = has_ring(&pairs);
    let count = match outcome {
        Ok(count) => count,
        Err(refusal) => {
            assert_eq!((refusal.number, refusal.offset), (28, 0));
            0
        }
    };
    assert_eq!(ring, outcome.is_err());
    assert!(places[count..].iter().all(|&place| place == 0));
    if !ring {
        let list: Vec<u32> = places[..count].iter().map(|&place| u32::from(place)).collect();
        check_list(&list, &accesses.iter().map(|&(ticket, _)| ticket).collect(), &pairs);
    }
    ring
}

#[test]
fn generated_traces() {
    let (mut rings, mut orders) = (0, 0);
    for index in 0..3_000 {
        let trace = order_file(9, index);
        // Long traces take long by definition, and short ones reach every case.
        let short = trace.len() < 1_500;
        if let (true, Ok(accesses)) = (short, accesses(&trace)) {
            assert_eq!(accesses, accesses_by_definition(&trace));
            if check(&trace, &accesses) {
                rings += 1
            } else {
                orders += 1
            }
        }
    }
    assert!(rings > 200 && orders > 500);
}

#[test]
fn a_grant_counts_as_a_touch_does() {
    for index in 0..3_000 {
        let trace = order_file(10, index);
        let text = order_text(&trace);
        assert_eq!(order_text(&recast(&trace, 2, 3)), text);
        assert_eq!(order_text(&recast(&trace, 3, 2)), text);
    }
}
