//! The three programs: what the desk program, the order program and the audit program print.

use crate::audit::{audit, TABLE_RECORDS};
use crate::desk::{clear, event_of, judge, Answer, DeskRecord, Tables};
use crate::event::spell_event;
use crate::order::{order, MOST_CHANGES, TABLE_WORDS};
use crate::request::{read_request, Request};
use crate::RefusalAt;

/// The longest request file.
pub const LONGEST_FILE: usize = 16_384;
/// The records of the desk program's tables.
pub const RECORDS: usize = 256;

/// A desk at work, with its trace.
pub struct Work {
    pub tables: Tables,
    pub desk: DeskRecord,
    pub trace: Vec<u8>,
}

impl Work {
    /// Cleared tables of `records` records and an empty trace.
    pub fn cleared(records: usize) -> Work {
        let lent = Tables { held: vec![0; records], released: vec![0; records] };
        let (_, tables, desk) = clear(&lent);
        Work { tables, desk, trace: Vec::new() }
    }

    /// One request, and the event it calls for.
    pub fn ask(&mut self, request: Request) -> Answer {
        let before = self.desk;
        let answer = judge(&mut self.tables, &mut self.desk, request);
        if let Some(event) = event_of(request, answer, &before) {
            self.trace.extend(spell_event(event).expect("a desk's own event has a spelling"));
        }
        answer
    }
}

/// The answers of a request file, its trace, and the fault that ended it, if any.
pub struct Run {
    pub answers: Vec<Answer>,
    pub trace: Vec<u8>,
    pub fault: Option<RefusalAt>,
}

/// Sends every request of a file to a cleared desk.
pub fn run(input: &[u8]) -> Run {
    let mut work = Work::cleared(RECORDS);
    let mut answers = Vec::new();
    if input.len() > LONGEST_FILE {
        let fault = Some(RefusalAt { number: 26, offset: 0 });
        return Run { answers, trace: work.trace, fault };
    }
    let mut offset = 0;
    let fault = loop {
        match read_request(&input[offset..]) {
            Err(number) => break Some(RefusalAt { number, offset }),
            Ok(None) => break None,
            Ok(Some((request, length))) => {
                answers.push(work.ask(request));
                offset += length;
            }
        }
    };
    Run { answers, trace: work.trace, fault }
}

/// What the desk program prints.
pub fn desk_text(input: &[u8]) -> String {
    let run = run(input);
    let mut text: String = run.answers.iter().map(|&answer| answer_line(answer)).collect();
    match run.fault {
        Some(fault) => text.push_str(&refusal_line(fault)),
        None => text.push_str(&order_text(&run.trace)),
    }
    text
}

/// The trace of a request file: the events of the requests before a fault, none for a long file.
pub fn desk_trace(input: &[u8]) -> Vec<u8> {
    run(input).trace
}

/// What the order program prints.
pub fn order_text(trace: &[u8]) -> String {
    let mut table = [0; TABLE_WORDS];
    let mut places = [0; MOST_CHANGES as usize];
    match order(trace, &mut table, &mut places) {
        Err(refusal) => refusal_line(refusal),
        Ok(count) => {
            let tickets: String =
                places[..count].iter().map(|place| format!("{place}\n")).collect();
            format!("order {count}\n{tickets}")
        }
    }
}

/// What the audit program prints.
pub fn audit_text(trace: &[u8]) -> String {
    let mut held = [0; TABLE_RECORDS];
    let mut released = [0; TABLE_RECORDS];
    match audit(trace, &mut held, &mut released) {
        Err(refusal) => refusal_line(refusal),
        Ok(()) => "accepted\n".to_string(),
    }
}

fn refusal_line(refusal: RefusalAt) -> String {
    format!("refused {} at {}\n", refusal.number, refusal.offset)
}

fn answer_line(answer: Answer) -> String {
    match answer {
        Answer::Started(ticket) => format!("started {ticket}\n"),
        Answer::Granted => "granted\n".to_string(),
        Answer::Held => "held\n".to_string(),
        Answer::Touched => "touched\n".to_string(),
        Answer::Released => "released\n".to_string(),
        Answer::Finished => "finished\n".to_string(),
        Answer::Wait(number) => format!("wait {number}\n"),
        Answer::Refused(number) => format!("refused {number}\n"),
    }
}
