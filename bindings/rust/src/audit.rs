//! The trace check: whether the desk could have written a trace.

use crate::names::{code, ACCEPTED, RECORDS};
use crate::{raw, Fault, Refusal};

/// The desk's tables as after the last event allowed.
#[derive(Clone, Debug, PartialEq, Eq)]
pub struct Tables {
    held: Vec<u32>,
    released: Vec<u32>,
}

impl Tables {
    /// Word a belongs to record a; bit s is set if seat s holds it.
    pub fn held(&self) -> &[u32] {
        &self.held
    }

    /// Word a belongs to record a; bit s is set if seat s has released it.
    pub fn released(&self) -> &[u32] {
        &self.released
    }
}

/// Accepts a trace that a desk of 4,096 records could have written from cleared tables, each started change on the lowest free
/// seat; or refuses the first event that cannot be read (20 to 23) or that is not allowed (40).
pub fn audit(trace: &[u8]) -> Result<(), Fault> {
    audit_and_tables(trace).0
}

/// The same, with the tables as they are after the last event allowed, in a refusal too.
pub fn audit_and_tables(trace: &[u8]) -> (Result<(), Fault>, Tables) {
    let mut held = vec![0; RECORDS];
    let mut released = vec![0; RECORDS];
    let mut at = [0];
    let answer = raw::audit(trace, &mut held, &mut released, &mut at);
    let verdict = match code(answer) {
        ACCEPTED => Ok(()),
        number => Err(Fault { refusal: Refusal(number), offset: at[0] as usize }),
    };
    (verdict, Tables { held, released })
}
