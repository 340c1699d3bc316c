//! The order by hand: the same passes over the same rows.

use crate::trace::{read_event, Event, Fault, RECORDS};

/// How many tickets the order takes.
pub const TICKETS: usize = 256;
/// How many words the table has.
pub const TABLE: usize = 2_048;
/// How many bytes the trace may have.
pub const LONGEST: usize = 65_536;

/// A bit for each ticket.
type Row = [u32; 8];

struct Rows {
    accessors: [Row; RECORDS as usize],
    befores: [Row; TICKETS],
    due: Row,
}

fn has(row: &Row, t: usize) -> bool {
    row[t / 32] >> (t % 32) & 1 == 1
}

fn set(row: &mut Row, t: usize) {
    row[t / 32] |= 1 << (t % 32);
}

fn within(row: &Row, listed: &Row) -> bool {
    row.iter().zip(listed).all(|(a, b)| a & !b == 0)
}

enum Refusal {
    Unread(Fault, usize),
    FarTicket(usize),
}

/// Works out table and list, as the exported call does.
#[inline(never)]
pub fn order(trace: &[u8], table: &mut [u32], list: &mut [u16]) -> u64 {
    if table.len() != TABLE || list.len() != TICKETS {
        return 25 << 32;
    }
    if trace.len() > LONGEST {
        return 26 << 32;
    }
    let mut rows = Rows::EMPTY;
    match rows.walk(trace) {
        Ok(()) => rows.settle(table, list),
        Err(Refusal::Unread(fault, at)) => (fault as u64) << 32 | at as u64,
        Err(Refusal::FarTicket(at)) => 27 << 32 | at as u64,
    }
}

impl Rows {
    // A constant is zeroed where it stands; built on the spot, its rows are copied there once more.
    const EMPTY: Rows = Rows {
        accessors: [[0; 8]; RECORDS as usize],
        befores: [[0; 8]; TICKETS],
        due: [0; 8],
    };

    fn walk(&mut self, trace: &[u8]) -> Result<(), Refusal> {
        let mut at = 0;
        loop {
            let read = read_event(&trace[at..]).map_err(|fault| Refusal::Unread(fault, at))?;
            let Some((event, length)) = read else {
                return Ok(());
            };
            if event.ticket() as usize > TICKETS {
                return Err(Refusal::FarTicket(at));
            }
            if let Event::Granted { ticket, record } | Event::Touched { ticket, record } = event {
                self.access((ticket - 1) as usize, record as usize);
            }
            at += length;
        }
    }

    fn access(&mut self, t: usize, record: usize) {
        let accessors = &mut self.accessors[record];
        let befores = &mut self.befores[t];
        for (word, earlier) in befores.iter_mut().zip(accessors.iter()) {
            *word |= earlier;
        }
        befores[t / 32] &= !(1 << (t % 32));
        set(accessors, t);
        set(&mut self.due, t);
    }

    fn settle(&self, table: &mut [u32], list: &mut [u16]) -> u64 {
        self.fill_table(table);
        let listed = self.fill_places(list);
        if within(&self.due, &listed) {
            let count = (0..TICKETS).filter(|&t| has(&self.due, t)).count();
            return 208 << 32 | count as u64;
        }
        list.fill(0);
        28 << 32
    }

    fn fill_table(&self, table: &mut [u32]) {
        table.fill(0);
        for (later, row) in self.befores.iter().enumerate() {
            for (w, &word) in row.iter().enumerate().filter(|(_, &word)| word != 0) {
                for s in (0..32).filter(|s| word >> s & 1 == 1) {
                    table[8 * (32 * w + s) + later / 32] |= 1 << (later % 32);
                }
            }
        }
    }

    fn fill_places(&self, list: &mut [u16]) -> Row {
        let mut listed = [0; 8];
        list.fill(0);
        for place in list {
            let Some(t) = (0..TICKETS).find(|&t| self.is_ready(&listed, t)) else {
                break;
            };
            *place = t as u16 + 1;
            set(&mut listed, t);
        }
        listed
    }

    fn is_ready(&self, listed: &Row, t: usize) -> bool {
        has(&self.due, t) && !has(listed, t) && within(&self.befores[t], listed)
    }
}
