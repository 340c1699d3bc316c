//! The order: befores as a set of pairs, and the list of changes that they allow.

use crate::event::{each_event, Event};
use crate::RefusalAt;
use std::collections::{BTreeMap, BTreeSet};

/// The longest trace that is ordered.
pub const LONGEST_TRACE: usize = 65_536;
/// The highest ticket that is ordered, and the places in the list.
pub const MOST_CHANGES: u32 = 256;
/// The words in the table of befores.
pub const TABLE_WORDS: usize = 2_048;

/// Pairs (i, j): ticket i comes before ticket j.
pub type Befores = BTreeSet<(u32, u32)>;

/// What tickets touched or were granted, from left to right, each access a ticket and a record.
pub fn accesses(trace: &[u8]) -> Result<Vec<(u32, u32)>, RefusalAt> {
    let mut found = Vec::new();
    each_event(trace, |event| {
        if event.ticket() > MOST_CHANGES {
            return Err(27);
        }
        if let Event::Granted { ticket, record } | Event::Touched { ticket, record } = event {
            found.push((ticket, record));
        }
        Ok(())
    })?;
    Ok(found)
}

/// Every pair with an access by the first earlier than one by the second of the same record.
pub fn befores(accesses: &[(u32, u32)]) -> Befores {
    // Some access by i is earlier than some by j if the first by i is earlier than the last by j.
    let mut spans: BTreeMap<u32, BTreeMap<u32, (usize, usize)>> = BTreeMap::new();
    for (place, &(ticket, record)) in accesses.iter().enumerate() {
        let of_record = spans.entry(record).or_default();
        of_record.entry(ticket).or_insert((place, place)).1 = place;
    }
    let mut pairs = Befores::new();
    for of_record in spans.values() {
        for (&i, &(first, _)) in of_record {
            for (&j, &(_, last)) in of_record {
                if i != j && first < last {
                    pairs.insert((i, j));
                }
            }
        }
    }
    pairs
}

/// The tickets with an access in order, or `None` if the befores close a ring.
pub fn list(accesses: &[(u32, u32)], befores: &Befores) -> Option<Vec<u32>> {
    let mut unlisted: BTreeSet<u32> = accesses.iter().map(|&(ticket, _)| ticket).collect();
    let mut listed = Vec::new();
    while !unlisted.is_empty() {
        // If none may stand, each has an unlisted one before it, and so there is a ring.
        let lowest = lowest_that_may_stand(&unlisted, befores)?;
        unlisted.remove(&lowest);
        listed.push(lowest);
    }
    Some(listed)
}

/// The lowest unlisted ticket with no unlisted ticket before it.
fn lowest_that_may_stand(unlisted: &BTreeSet<u32>, befores: &Befores) -> Option<u32> {
    let free = |ticket: u32| !unlisted.iter().any(|&other| befores.contains(&(other, ticket)));
    unlisted.iter().copied().find(|&ticket| free(ticket))
}

/// The order call: fills table and list and gives K, or a refusal.
pub fn order(trace: &[u8], table: &mut [u32], places: &mut [u16]) -> Result<usize, RefusalAt> {
    if table.len() != TABLE_WORDS || places.len() != MOST_CHANGES as usize {
        return Err(RefusalAt { number: 25, offset: 0 });
    }
    if trace.len() > LONGEST_TRACE {
        return Err(RefusalAt { number: 26, offset: 0 });
    }
    let accesses = accesses(trace)?;
    let befores = befores(&accesses);
    write_table(&befores, table);
    places.fill(0);
    let Some(tickets) = list(&accesses, &befores) else {
        return Err(RefusalAt { number: 28, offset: 0 });
    };
    for (place, &ticket) in places.iter_mut().zip(&tickets) {
        *place = ticket as u16;
    }
    Ok(tickets.len())
}

/// Sets exactly the bits of the pairs.
fn write_table(befores: &Befores, table: &mut [u32]) {
    table.fill(0);
    for &(i, j) in befores {
        let word = 8 * (i - 1) + (j - 1) / 32;
        table[word as usize] |= 1 << ((j - 1) % 32);
    }
}
