//! The texts of a file: the second program's and the proved library's.

use second::event::read_event;
use second::gen;
use second::order::{LONGEST_TRACE, MOST_CHANGES};
use second::programs::LONGEST_FILE;
use second::request::read_request;

/// One of the three programs: how its files are made and how each side prints one.
#[derive(Clone, Copy)]
pub struct Program {
    pub files: &'static str,
    pub parts: &'static str,
    pub count: fn(&[u8], &str) -> u64,
    pub make: fn(u64, u64) -> Vec<u8>,
    pub second: fn(&[u8]) -> String,
    pub proved: fn(&[u8], &mut [u8]) -> usize,
}

pub const DESK: Program = Program {
    files: "request files",
    parts: "requests",
    count: |file, _| count(file, LONGEST_FILE, |rest| Some(read_request(rest).ok()??.1)),
    make: gen::desk_file,
    second: second::desk_text,
    proved: saltlicker::raw::desk_text,
};

pub const ORDER: Program = Program {
    files: "traces",
    parts: "events",
    count: |file, _| count(file, LONGEST_TRACE, ordered_event),
    make: gen::order_file,
    second: second::order_text,
    proved: saltlicker::raw::order_text,
};

pub const AUDIT: Program = Program {
    files: "traces to check",
    parts: "events",
    count: |file, text| count(before_refusal(file, text), usize::MAX, event_length),
    make: gen::audit_file,
    second: second::audit_text,
    proved: saltlicker::raw::audit_text,
};

/// How many requests or events of a file are read, by what gives the length of the next one.
fn count(file: &[u8], longest: usize, next: impl Fn(&[u8]) -> Option<usize>) -> u64 {
    // A file over its limit is refused unread.
    let mut rest = if file.len() > longest { &[] } else { file };
    let mut found = 0;
    while let Some(length) = next(rest) {
        rest = &rest[length..];
        found += 1;
    }
    found
}

/// A file up to the offset that its text is refused at.
fn before_refusal<'a>(file: &'a [u8], text: &str) -> &'a [u8] {
    let offset = text.trim_end().rsplit_once(" at ").map(|(_, offset)| offset.parse().ok());
    &file[..offset.flatten().unwrap_or(file.len())]
}

/// The length of the next event, if it reads.
fn event_length(rest: &[u8]) -> Option<usize> {
    Some(read_event(rest).ok()??.1)
}

/// The length of the next event, if it is one that the order takes.
fn ordered_event(rest: &[u8]) -> Option<usize> {
    let (event, length) = read_event(rest).ok()??;
    (event.ticket() <= MOST_CHANGES).then_some(length)
}

/// The longest text there is, and something beyond it.
pub const ROOM: usize = saltlicker::names::DESK_TEXT + 64;

/// A byte that no text has.
const MARK: u8 = 0xEE;

impl Program {
    /// The text of a file if both sides print it and the proved one leaves the room after it alone.
    pub fn agreed(&self, file: &[u8], room: &mut [u8]) -> Option<String> {
        let text = (self.second)(file);
        room.fill(MARK);
        let length = (self.proved)(file, room);
        let (front, rest) = room.split_at_checked(length)?;
        let same =
            front == text.as_bytes() && rest.iter().filter(|&&byte| byte != MARK).count() == 0;
        same.then_some(text)
    }

    /// What the proved side prints.
    pub fn proved_text(&self, file: &[u8]) -> Vec<u8> {
        let mut room = vec![MARK; ROOM];
        let length = (self.proved)(file, &mut room);
        room.truncate(length);
        room
    }
}

/// The first line in which two texts differ, by its number from 1, as each has it.
pub fn first_differing_lines(one: &[u8], other: &[u8]) -> String {
    let (one, other) = (String::from_utf8_lossy(one), String::from_utf8_lossy(other));
    let (mut ones, mut others) = (one.lines(), other.lines());
    for number in 1.. {
        let lines = (ones.next(), others.next());
        match lines {
            (None, None) => break,
            (one, other) if one == other => (),
            (one, other) => return format!("line {number}\nsecond: {one:?}\nproved: {other:?}"),
        }
    }
    "the same lines, and a byte beyond or between them".to_string()
}
