//! Mutations: a desk's trace in which one event is not the desk's any more.

use super::rng::Rng;
use super::sweep::Floor;
use super::{events, piece, Pieces};
use crate::desk::{event_of, DeskRecord, MOST_BEGUN};
use crate::event::read_event;
use crate::programs::Work;
use crate::request::Request;

/// The events of a desk run with one of them changed, dropped, doubled, moved or put in.
pub fn mutated(rng: &mut Rng, floor: &Floor) -> Pieces {
    let mut pieces = events(floor.trace());
    if pieces.is_empty() {
        return pieces;
    }
    let (at, other) = (rng.place(pieces.len()), rng.place(pieces.len()));
    match rng.below(12) {
        0 => drop(pieces.remove(at)),
        1 => pieces.insert(at, pieces[at].clone()),
        2 => pieces.swap(at, at.saturating_sub(1)),
        3 => pieces.swap(at, other),
        4 => change_byte(rng, &mut pieces[at]),
        5..=6 => pieces[at] = with_number_of(rng, &pieces[at], &pieces[other]),
        7..=8 => start_one_more(&mut pieces, at),
        _ => return with_denied(rng, floor),
    }
    pieces
}

/// One byte of an event becomes another.
fn change_byte(rng: &mut Rng, event: &mut [u8]) {
    event[rng.place(event.len())] = rng.some_byte();
}

/// A change starts in turn at a place of the trace, where 32 may be live.
fn start_one_more(pieces: &mut Pieces, at: usize) {
    let starts = pieces[..at].iter().filter(|event| event[0] == 1).count();
    pieces.insert(at, piece(1, &[starts as u32 + 1]));
}

/// An event with the kind, the ticket or the record of another event, or with its next number.
fn with_number_of(rng: &mut Rng, event: &[u8], other: &[u8]) -> Vec<u8> {
    let (mut kind, mut numbers) = kind_and_numbers(event);
    let (other_kind, other_numbers) = kind_and_numbers(other);
    let place = rng.place(numbers.len());
    match rng.below(3) {
        0 if other_numbers.len() == numbers.len() => kind = other_kind,
        1 => numbers[place] += 1,
        _ => numbers[place] = other_numbers[place.min(other_numbers.len() - 1)],
    }
    piece(kind, &numbers)
}

/// An event's kind, and its ticket and record.
fn kind_and_numbers(event: &[u8]) -> (u8, Vec<u32>) {
    let (event, _) = read_event(event).ok().flatten().expect("a desk's own event reads");
    let mut numbers = vec![event.ticket()];
    numbers.extend(event.record());
    (event.kind(), numbers)
}

/// The events of a desk run, and among them one that was asked for and that the desk denied.
fn with_denied(rng: &mut Rng, floor: &Floor) -> Pieces {
    let mut work = Work::cleared(floor.records() as usize);
    let mut pieces = Pieces::new();
    let mut denied = Vec::new();
    for &request in floor.asked() {
        let before = work.desk;
        let written = work.trace.len();
        let answer = work.ask(request);
        if event_of(request, answer, &before).is_some() {
            pieces.push(work.trace[written..].to_vec());
        } else {
            denied.push((pieces.len(), request, before));
        }
    }
    if !denied.is_empty() {
        let (at, request, before) = denied.swap_remove(rng.place(denied.len()));
        pieces.insert(at, asked_event(rng, request, &before));
    }
    pieces
}

/// The event a request asks for, granted or not.
fn asked_event(rng: &mut Rng, request: Request, before: &DeskRecord) -> Vec<u8> {
    let seat = before.seats[request.seat() as usize];
    let ticket = match request {
        Request::Begin { .. } => (before.begun + 1).min(MOST_BEGUN),
        _ if seat.live => seat.ticket,
        // A free seat has no ticket: some change that was, or the one to come.
        _ => rng.between(1, before.begun + 1),
    };
    let mut numbers = vec![ticket];
    numbers.extend(request.record());
    piece(request.kind(), &numbers)
}
