//! The event reader and writer by hand.

/// The largest number, and so the largest ticket.
pub const LIMIT: u32 = 2_097_151;
/// How many records there may be.
pub const RECORDS: u32 = 4_096;

/// One event of a trace.
#[derive(Clone, Copy)]
pub enum Event {
    Started { ticket: u32 },
    Granted { ticket: u32, record: u32 },
    Touched { ticket: u32, record: u32 },
    Released { ticket: u32, record: u32 },
    Finished { ticket: u32 },
}

/// Why a read or a write is refused, by its number.
#[derive(Clone, Copy)]
pub enum Fault {
    Cut = 20,
    Spelling,
    Kind,
    Range,
    Room,
}

impl Event {
    /// Its ticket.
    pub fn ticket(self) -> u32 {
        match self {
            Event::Started { ticket } | Event::Finished { ticket } => ticket,
            Event::Granted { ticket, .. } => ticket,
            Event::Touched { ticket, .. } => ticket,
            Event::Released { ticket, .. } => ticket,
        }
    }

    fn words(self) -> [u32; 3] {
        match self {
            Event::Started { ticket } => [1, ticket, 0],
            Event::Granted { ticket, record } => [2, ticket, record],
            Event::Touched { ticket, record } => [3, ticket, record],
            Event::Released { ticket, record } => [4, ticket, record],
            Event::Finished { ticket } => [5, ticket, 0],
        }
    }
}

/// The event at the front of `rest` and its length, `None` at the end.
// Always, as whether it is inlined would else hang on how many users the bench happens to have.
#[inline(always)]
pub fn read_event(rest: &[u8]) -> Result<Option<(Event, usize)>, Fault> {
    let Some((&kind, rest)) = rest.split_first() else {
        return Ok(None);
    };
    if !(1..=5).contains(&kind) {
        return Err(Fault::Kind);
    }
    let (ticket, n) = number(rest)?;
    if ticket == 0 {
        return Err(Fault::Range);
    }
    let length = 1 + n;
    match kind {
        1 => return Ok(Some((Event::Started { ticket }, length))),
        5 => return Ok(Some((Event::Finished { ticket }, length))),
        _ => (),
    }
    let (record, m) = number(&rest[n..])?;
    if record >= RECORDS {
        return Err(Fault::Range);
    }
    let event = match kind {
        2 => Event::Granted { ticket, record },
        3 => Event::Touched { ticket, record },
        _ => Event::Released { ticket, record },
    };
    Ok(Some((event, length + m)))
}

/// The number at the front of `rest` and its length.
fn number(rest: &[u8]) -> Result<(u32, usize), Fault> {
    let byte = |at: usize| rest.get(at).map(|&byte| u32::from(byte)).ok_or(Fault::Cut);
    let a = byte(0)?;
    if a < 128 {
        return Ok((a, 1));
    }
    let b = byte(1)?;
    if b < 128 {
        return judged(b, a % 128 + 128 * b, 2);
    }
    let c = byte(2)?;
    if c < 128 {
        return judged(c, a % 128 + 128 * (b % 128) + 16_384 * c, 3);
    }
    Err(Fault::Spelling)
}

fn judged(last: u32, number: u32, length: usize) -> Result<(u32, usize), Fault> {
    if last == 0 {
        return Err(Fault::Spelling);
    }
    Ok((number, length))
}

/// Reads an event into three words, as the exported call does.
#[inline(always)]
pub fn read_here(rest: &[u8], event: &mut [u32]) -> u64 {
    let Ok(words): Result<&mut [u32; 3], _> = event.try_into() else {
        return 99 << 32;
    };
    match read_event(rest) {
        Ok(Some((found, length))) => {
            *words = found.words();
            205 << 32 | length as u64
        }
        Ok(None) => 206 << 32,
        Err(fault) => (fault as u64) << 32,
    }
}

/// The same behind a call.
#[inline(never)]
pub fn read(rest: &[u8], event: &mut [u32]) -> u64 {
    read_here(rest, event)
}

/// Puts an event at the front of `room` and gives its length.
#[inline(always)]
pub fn write_event(room: &mut [u8], event: Event) -> Result<usize, Fault> {
    match event {
        Event::Started { ticket } => put_one(room, 1, ticket),
        Event::Granted { ticket, record } => put_two(room, 2, ticket, record),
        Event::Touched { ticket, record } => put_two(room, 3, ticket, record),
        Event::Released { ticket, record } => put_two(room, 4, ticket, record),
        Event::Finished { ticket } => put_one(room, 5, ticket),
    }
}

fn put_one(room: &mut [u8], kind: u8, ticket: u32) -> Result<usize, Fault> {
    if !(1..=LIMIT).contains(&ticket) {
        return Err(Fault::Range);
    }
    let length = 1 + width(ticket);
    let room = room.get_mut(..length).ok_or(Fault::Room)?;
    room[0] = kind;
    put_number(&mut room[1..], ticket);
    Ok(length)
}

fn put_two(room: &mut [u8], kind: u8, ticket: u32, record: u32) -> Result<usize, Fault> {
    if !(1..=LIMIT).contains(&ticket) || record >= RECORDS {
        return Err(Fault::Range);
    }
    let at = 1 + width(ticket);
    let length = at + width(record);
    let room = room.get_mut(..length).ok_or(Fault::Room)?;
    room[0] = kind;
    put_number(&mut room[1..], ticket);
    put_number(&mut room[at..], record);
    Ok(length)
}

fn width(number: u32) -> usize {
    match number {
        0..=127 => 1,
        128..=16_383 => 2,
        _ => 3,
    }
}

fn put_number(room: &mut [u8], number: u32) {
    let low = number as u8 | 128;
    match width(number) {
        1 => room[0] = number as u8,
        2 => room[..2].copy_from_slice(&[low, (number >> 7) as u8]),
        _ => room[..3].copy_from_slice(&[low, (number >> 7) as u8 | 128, (number >> 14) as u8]),
    }
}

/// Writes an event by its numbers, as the exported call does.
#[inline(always)]
pub fn write_here(room: &mut [u8], kind: u32, ticket: u32, record: u32) -> u64 {
    let event = match kind {
        1 => Event::Started { ticket },
        2 => Event::Granted { ticket, record },
        3 => Event::Touched { ticket, record },
        4 => Event::Released { ticket, record },
        5 => Event::Finished { ticket },
        _ => return 22 << 32,
    };
    match write_event(room, event) {
        Ok(length) => 207 << 32 | length as u64,
        Err(fault) => (fault as u64) << 32,
    }
}

/// The same behind a call.
#[inline(never)]
pub fn write(room: &mut [u8], kind: u32, ticket: u32, record: u32) -> u64 {
    write_here(room, kind, ticket, record)
}
