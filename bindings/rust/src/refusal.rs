//! Refusals: a number with its meaning, and with the offset where a trace has one.

use std::error::Error;
use std::fmt::{Display, Formatter, Result};

/// A refusal by its number in the paper.
#[derive(Clone, Copy, Debug, PartialEq, Eq, Hash)]
pub struct Refusal(pub u32);

/// A refusal of a trace, and the first byte of the event that caused it; 0 for 1, 25, 26 and 28.
#[derive(Clone, Copy, Debug, PartialEq, Eq, Hash)]
pub struct Fault {
    pub refusal: Refusal,
    pub offset: usize,
}

impl Refusal {
    /// When this refusal is given.
    pub fn meaning(self) -> &'static str {
        match self.0 {
            1 => "tables unequal, empty or over 4,096 words",
            2 => "seat over 31",
            3 => "record not below the tables' length",
            4 => "begin on a live seat",
            5 => "request other than begin on a free seat",
            6 => "begin with 2,097,151 or more begun",
            7 => "touch or release of a record the seat does not hold",
            8 => "the seat has already released the record",
            20 => "input ends inside an event",
            21 => "number not shortest, over 2,097,151, or third byte with top bit",
            22 => "kind not 1 to 5",
            23 => "ticket 0 or over 2,097,151, or record over 4,095",
            24 => "event longer than the room left",
            25 => "order table or list of wrong length",
            26 => "trace over 65,536 bytes",
            27 => "ticket over 256",
            28 => "the befores close a ring",
            40 => "event the desk could not have written then",
            99 => "slice of wrong length",
            _ => "no listed refusal",
        }
    }
}

impl Display for Refusal {
    fn fmt(&self, out: &mut Formatter) -> Result {
        write!(out, "refused {}: {}", self.0, self.meaning())
    }
}

impl Display for Fault {
    fn fmt(&self, out: &mut Formatter) -> Result {
        write!(out, "refused {} at {}: {}", self.refusal.0, self.offset, self.refusal.meaning())
    }
}

impl Error for Refusal {}
impl Error for Fault {}
