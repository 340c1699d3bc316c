//! The calls themselves, on what no file can carry: both sides are lent the same and leave the same.

pub mod model;
pub mod scripts;

use crate::tally::Tally;
use saltlicker::raw;
use std::fmt::Debug;

/// Where a tally has what calls answered.
pub const PLACE: &str = "calls";

/// The trace check: a trace, the held and released tables, and the place of an offset.
pub type Audit = fn(&[u8], &mut [u32], &mut [u32], &mut [u64]) -> u64;

/// One side's calls.
#[derive(Clone, Copy)]
pub struct Calls {
    pub clear: fn(&mut [u32], &mut [u32], &mut [u32]) -> u64,
    pub judge: fn(&mut [u32], &mut [u32], &mut [u32], &[u32], &mut [u64]) -> u64,
    pub read: fn(&[u8], &mut [u32]) -> u64,
    pub write: fn(&mut [u8], u32, u32, u32) -> u64,
    pub order: fn(&[u8], &mut [u32], &mut [u16]) -> u64,
    pub audit: Audit,
    pub desk_text: fn(&[u8], &mut [u8]) -> usize,
    pub order_text: fn(&[u8], &mut [u8]) -> usize,
    pub audit_text: fn(&[u8], &mut [u8]) -> usize,
}

pub const PROVED: Calls = Calls {
    clear: raw::clear,
    judge: raw::judge,
    read: raw::read,
    write: raw::write,
    order: raw::order,
    audit: raw::audit,
    desk_text: raw::desk_text,
    order_text: raw::order_text,
    audit_text: raw::audit_text,
};

/// A call with what it only reads, and the lengths of what it is lent anew.
#[derive(Clone, Debug)]
pub enum Call {
    Clear,
    Judge { requests: Vec<u32>, answers: usize },
    Read { rest: Vec<u8>, words: usize },
    Write { room: usize, kind: u32, ticket: u32, record: u32 },
    Order { trace: Vec<u8>, words: usize, places: usize },
    Audit { trace: Vec<u8>, held: usize, released: usize, at: usize },
    DeskText { file: Vec<u8>, room: usize },
    OrderText { trace: Vec<u8>, room: usize },
    AuditText { trace: Vec<u8>, room: usize },
}

/// All that calls are lent: the first three stay from call to call.
#[derive(Clone, Debug, Default, PartialEq)]
pub struct Lent {
    pub held: Vec<u32>,
    pub released: Vec<u32>,
    pub desk: Vec<u32>,
    pub answers: Vec<u64>,
    pub event: Vec<u32>,
    pub bytes: Vec<u8>,
    pub table: Vec<u32>,
    pub list: Vec<u16>,
    pub audit_held: Vec<u32>,
    pub audit_released: Vec<u32>,
    pub at: Vec<u64>,
}

impl Lent {
    /// The length of a text that is put into a room of so many bytes.
    fn text(&mut self, put: fn(&[u8], &mut [u8]) -> usize, file: &[u8], room: usize) -> u64 {
        self.bytes = vec![u8::MAX; room];
        put(file, &mut self.bytes) as u64
    }
}

impl Call {
    /// Makes the call on one side; what is lent anew is all ones, which no call leaves by chance.
    fn make(&self, calls: &Calls, lent: &mut Lent) -> u64 {
        let Lent { held, released, desk, .. } = lent;
        match self {
            Call::Clear => (calls.clear)(held, released, desk),
            Call::Judge { requests, answers } => {
                lent.answers = vec![u64::MAX; *answers];
                (calls.judge)(held, released, desk, requests, &mut lent.answers)
            }
            Call::Read { rest, words } => {
                lent.event = vec![u32::MAX; *words];
                (calls.read)(rest, &mut lent.event)
            }
            Call::Write { room, kind, ticket, record } => {
                lent.bytes = vec![u8::MAX; *room];
                (calls.write)(&mut lent.bytes, *kind, *ticket, *record)
            }
            Call::Order { trace, words, places } => {
                lent.table = vec![u32::MAX; *words];
                lent.list = vec![u16::MAX; *places];
                (calls.order)(trace, &mut lent.table, &mut lent.list)
            }
            Call::Audit { trace, held, released, at } => {
                lent.audit_held = vec![u32::MAX; *held];
                lent.audit_released = vec![u32::MAX; *released];
                lent.at = vec![u64::MAX; *at];
                let Lent { audit_held, audit_released, at, .. } = lent;
                (calls.audit)(trace, audit_held, audit_released, at)
            }
            Call::DeskText { file, room } => lent.text(calls.desk_text, file, *room),
            Call::OrderText { trace, room } => lent.text(calls.order_text, trace, *room),
            Call::AuditText { trace, room } => lent.text(calls.audit_text, trace, *room),
        }
    }

    /// Counts what the call answered.
    fn count(&self, answer: u64, lent: &Lent, tally: &mut Tally) {
        if matches!(self, Call::DeskText { .. } | Call::OrderText { .. } | Call::AuditText { .. }) {
            return tally.add(PLACE, "text", 0, 1);
        }
        let (word, number) = model::word_and_number(answer);
        tally.add(PLACE, word, number, 1);
        if word == "judged" {
            for &answer in &lent.answers {
                let (word, number) = model::word_and_number(answer);
                tally.add(PLACE, word, number, 1);
            }
        }
    }
}

/// Makes every call of a script on both sides, or says where they first differ.
pub fn hold(script: scripts::Script, proved: &Calls, tally: &mut Tally) -> Result<(), String> {
    let mut lent = script.lent;
    for call in script.calls {
        let before = lent.clone();
        let mut other = lent.clone();
        let answer = call.make(&model::SECOND, &mut lent);
        let other_answer = call.make(proved, &mut other);
        if answer != other_answer || lent != other {
            let what = first_difference((answer, &lent), (other_answer, &other));
            return Err(format!("{what}\nthe call: {call:?}\nlent before: {before:?}"));
        }
        call.count(answer, &lent, tally);
    }
    Ok(())
}

/// What differs first between what the second side and the proved one gave and left.
fn first_difference(second: (u64, &Lent), proved: (u64, &Lent)) -> String {
    let (one, other) = (second.1, proved.1);
    let found = place("answer", &codes(&[second.0]), &codes(&[proved.0]))
        .or(place("answers", &codes(&one.answers), &codes(&other.answers)))
        .or(place("held", &one.held, &other.held))
        .or(place("released", &one.released, &other.released))
        .or(place("desk", &one.desk, &other.desk))
        .or(place("event", &one.event, &other.event))
        .or(place("bytes", &one.bytes, &other.bytes))
        .or(place("table", &one.table, &other.table))
        .or(place("list", &one.list, &other.list))
        .or(place("audit held", &one.audit_held, &other.audit_held))
        .or(place("audit released", &one.audit_released, &other.audit_released))
        .or(place("at", &one.at, &other.at));
    found.expect("something differs")
}

/// Answers as their codes and values.
fn codes(answers: &[u64]) -> Vec<(u32, u32)> {
    answers.iter().map(|&answer| ((answer >> 32) as u32, answer as u32)).collect()
}

fn place<T: PartialEq + Debug>(name: &str, second: &[T], proved: &[T]) -> Option<String> {
    let at = second.iter().zip(proved).position(|(one, other)| one != other)?;
    Some(format!("{name}[{at}]\nsecond: {:?}\nproved: {:?}", second[at], proved[at]))
}
