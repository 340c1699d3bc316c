//! The order of a trace, and the table of befores behind it.

use crate::names::{code, value, LIST_PLACES, ORDERED, TABLE_WORDS};
use crate::{raw, Fault, Refusal};

/// Which ticket comes before which.
#[derive(Clone, Debug, PartialEq, Eq)]
pub struct Befores {
    words: Vec<u32>,
}

impl Befores {
    /// Whether the first ticket touched or was granted some record earlier than the second did.
    pub fn before(&self, first: u16, second: u16) -> bool {
        let tickets = 1..=LIST_PLACES;
        let (i, j) = (usize::from(first), usize::from(second));
        tickets.contains(&i)
            && tickets.contains(&j)
            && self.words[8 * (i - 1) + (j - 1) / 32] >> ((j - 1) % 32) & 1 == 1
    }

    /// The table as it is: word 8(i-1) + (j-1)/32, bit (j-1) mod 32 is set if i comes before j.
    pub fn words(&self) -> &[u32] {
        &self.words
    }
}

/// The tickets that touched something or were granted something, each after all that come before
/// it, lowest first.
pub fn order(trace: &[u8]) -> Result<Vec<u16>, Fault> {
    order_and_befores(trace).0
}

/// The order and its table, which a ring (28) has too; after any other refusal nothing is before anything.
pub fn order_and_befores(trace: &[u8]) -> (Result<Vec<u16>, Fault>, Befores) {
    let mut words = vec![0; TABLE_WORDS];
    let mut list = vec![0; LIST_PLACES];
    let answer = raw::order(trace, &mut words, &mut list);
    let offset = value(answer) as usize;
    let order = match code(answer) {
        ORDERED => {
            list.truncate(value(answer) as usize);
            Ok(list)
        }
        number => Err(Fault { refusal: Refusal(number), offset }),
    };
    (order, Befores { words })
}
