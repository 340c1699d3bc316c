//! The viaduct: one by one, all at once, stored in between, and as a text.

use saltlicker::{append_event, desk_text, events, order, order_text, Desk, Event, Reply, Request};

const WORDS: &str = include_str!("../../../docs/viaduct.txt");
const FILE: &[u8] = include_bytes!("../../../crates/desk_program/stdin");
const LINES: &str = include_str!("../../../crates/desk_program/stdout");

fn request(line: &str) -> Request {
    let words: Vec<&str> = line.split(' ').collect();
    let number = |at: usize| words[at].parse().unwrap();
    match words[0] {
        "begin" => Request::Begin { seat: number(1) },
        "lock" => Request::Lock { seat: number(1), record: number(2) },
        "touch" => Request::Touch { seat: number(1), record: number(2) },
        "release" => Request::Release { seat: number(1), record: number(2) },
        "finish" => Request::Finish { seat: number(1) },
        _ => panic!("not a request: {line}"),
    }
}

fn requests() -> Vec<Request> {
    WORDS.lines().filter(|line| !line.starts_with('#')).map(request).collect()
}

fn trace(replies: &[Reply]) -> Vec<u8> {
    let mut trace = Vec::new();
    for event in replies.iter().filter_map(|reply| reply.event) {
        append_event(&mut trace, event).unwrap();
    }
    trace
}

/// The lines of the answers and of the order of their trace.
fn lines(replies: &[Reply]) -> String {
    let answers: String = replies.iter().map(|reply| format!("{}\n", reply.answer)).collect();
    let tickets = order(&trace(replies)).unwrap();
    let list: String = tickets.iter().map(|ticket| format!("{ticket}\n")).collect();
    format!("{answers}order {}\n{list}", tickets.len())
}

#[test]
fn one_by_one() {
    let mut desk = Desk::new(256).unwrap();
    let replies: Vec<Reply> = requests().into_iter().map(|request| desk.ask(request)).collect();
    assert_eq!(lines(&replies), LINES);
}

#[test]
fn all_at_once() {
    let mut desk = Desk::new(256).unwrap();
    let mut other = desk.clone();
    let replies = desk.ask_all(&requests());
    assert_eq!(lines(&replies), LINES);
    let singly: Vec<Reply> = requests().into_iter().map(|request| other.ask(request)).collect();
    assert_eq!(replies, singly);
    assert_eq!(desk, other);
}

#[test]
fn stored_after_each_request() {
    let mut desk = Desk::new(256).unwrap();
    let mut replies = Vec::new();
    for request in requests() {
        let (held, released, words) = desk.into_parts();
        desk = Desk::from_parts(held, released, words);
        replies.push(desk.ask(request));
    }
    assert_eq!(lines(&replies), LINES);
}

#[test]
fn tables_after_the_editor_has_both_locks() {
    let mut desk = Desk::new(256).unwrap();
    let _ = desk.ask_all(&requests()[..13]);
    assert_eq!((desk.held()[5], desk.released()[5]), (0b11, 0b01));
    assert_eq!((desk.held()[6], desk.released()[6]), (0b11, 0b01));
    assert_eq!(desk.words()[..4], [1, 0, 2, 0b01]);
    assert_eq!(desk.words()[64..], [0b11, 0b11, 2]);
}

#[test]
fn a_finish_is_traced_with_the_ticket_the_seat_had() {
    let mut desk = Desk::new(1).unwrap();
    let (begin, finish) = (Request::Begin { seat: 31 }, Request::Finish { seat: 31 });
    let replies = desk.ask_all(&[begin, finish, begin, finish]);
    let finished = |ticket| Some(Event::Finished { ticket });
    assert_eq!((replies[1].event, replies[3].event), (finished(1), finished(2)));
}

#[test]
fn the_trace_reads_back() {
    let replies = Desk::new(256).unwrap().ask_all(&requests());
    let read: Result<Vec<Event>, _> = events(&trace(&replies)).collect();
    let written: Vec<Event> = replies.iter().filter_map(|reply| reply.event).collect();
    assert_eq!(read.unwrap(), written);
}

#[test]
fn as_texts() {
    assert_eq!(desk_text(FILE), LINES);
    let replies = Desk::new(256).unwrap().ask_all(&requests());
    assert_eq!(order_text(&trace(&replies)), "order 2\n1\n2\n");
}
