//! What the programs print, without running them.

use crate::names::{AUDIT_TEXT, DESK_TEXT, ORDER_TEXT};
use crate::raw;

/// What the desk program prints of a request file.
pub fn desk_text(input: &[u8]) -> String {
    text(DESK_TEXT, |out| raw::desk_text(input, out))
}

/// What the order program prints of a trace.
pub fn order_text(trace: &[u8]) -> String {
    text(ORDER_TEXT, |out| raw::order_text(trace, out))
}

/// What the audit program prints of a trace.
pub fn audit_text(trace: &[u8]) -> String {
    text(AUDIT_TEXT, |out| raw::audit_text(trace, out))
}

fn text(room: usize, print: impl FnOnce(&mut [u8]) -> usize) -> String {
    let mut out = vec![0; room];
    let length = print(&mut out);
    out.truncate(length);
    String::from_utf8(out).expect("the programs print ASCII")
}
