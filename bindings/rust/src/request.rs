//! Requests to the desk and what it says to them.

use crate::names::{code, value};
use crate::{names, Refusal};
use std::fmt::{Display, Formatter, Result};

/// One of the five requests. Any numbers may be asked: those out of range are refused.
#[derive(Clone, Copy, Debug, PartialEq, Eq, Hash)]
pub enum Request {
    Begin { seat: u32 },
    Lock { seat: u32, record: u32 },
    Touch { seat: u32, record: u32 },
    Release { seat: u32, record: u32 },
    Finish { seat: u32 },
}

/// What the desk says. The first five each put one event in the trace; the others change nothing.
#[derive(Clone, Copy, Debug, PartialEq, Eq, Hash)]
pub enum Answer {
    Started {
        ticket: u32,
    },
    Granted,
    Touched,
    Released,
    Finished,
    /// The seat holds the record already.
    Held,
    /// 1: another seat holds the record; 2: the seat's wake forbids it. Ask again later.
    Wait(u32),
    Refused(Refusal),
}

impl Request {
    /// The seat that asks.
    pub fn seat(self) -> u32 {
        let [_, seat, _] = self.words();
        seat
    }

    pub(crate) fn words(self) -> [u32; names::REQUEST_WORDS] {
        match self {
            Request::Begin { seat } => [names::BEGIN, seat, 0],
            Request::Lock { seat, record } => [names::LOCK, seat, record],
            Request::Touch { seat, record } => [names::TOUCH, seat, record],
            Request::Release { seat, record } => [names::RELEASE, seat, record],
            Request::Finish { seat } => [names::FINISH, seat, 0],
        }
    }
}

impl Answer {
    pub(crate) fn of(answer: u64) -> Answer {
        match code(answer) {
            names::STARTED => Answer::Started { ticket: value(answer) },
            names::GRANTED => Answer::Granted,
            names::TOUCHED => Answer::Touched,
            names::RELEASED => Answer::Released,
            names::FINISHED => Answer::Finished,
            names::HELD => Answer::Held,
            names::WAIT => Answer::Wait(value(answer)),
            number => Answer::Refused(Refusal(number)),
        }
    }
}

/// The line that the desk program prints.
impl Display for Answer {
    fn fmt(&self, out: &mut Formatter) -> Result {
        match self {
            Answer::Started { ticket } => write!(out, "started {ticket}"),
            Answer::Granted => write!(out, "granted"),
            Answer::Touched => write!(out, "touched"),
            Answer::Released => write!(out, "released"),
            Answer::Finished => write!(out, "finished"),
            Answer::Held => write!(out, "held"),
            Answer::Wait(number) => write!(out, "wait {number}"),
            Answer::Refused(refusal) => write!(out, "refused {}", refusal.0),
        }
    }
}
