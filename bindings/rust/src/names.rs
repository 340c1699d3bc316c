//! The numbers of include/saltlicker.h, under its names without the prefix; a test holds the two to each other.

pub const UNKNOWN_KIND: u32 = 22;
pub const WRONG_LENGTH: u32 = 99;

pub const STARTED: u32 = 101;
pub const GRANTED: u32 = 102;
pub const TOUCHED: u32 = 103;
pub const RELEASED: u32 = 104;
pub const FINISHED: u32 = 105;

pub const HELD: u32 = 201;
pub const WAIT: u32 = 202;
pub const CLEARED: u32 = 203;
pub const JUDGED: u32 = 204;
pub const FOUND: u32 = 205;
pub const END: u32 = 206;
pub const WRITTEN: u32 = 207;
pub const ORDERED: u32 = 208;
pub const ACCEPTED: u32 = 209;

pub const BEGIN: u32 = 1;
pub const LOCK: u32 = 2;
pub const TOUCH: u32 = 3;
pub const RELEASE: u32 = 4;
pub const FINISH: u32 = 5;

pub const SEATS: usize = 32;
pub const RECORDS: usize = 4096;
pub const REQUEST_WORDS: usize = 3;
pub const EVENT_WORDS: usize = 3;
pub const DESK_WORDS: usize = 67;
pub const TABLE_WORDS: usize = 2048;
pub const LIST_PLACES: usize = 256;
pub const TRACE_BYTES: usize = 65536;
pub const FILE_BYTES: usize = 16384;
pub const DESK_TEXT: usize = 242971;
pub const ORDER_TEXT: usize = 5403;
pub const AUDIT_TEXT: usize = 53;

/// The code of an answer: a refusal's number, or one of the names above.
pub fn code(answer: u64) -> u32 {
    (answer >> 32) as u32
}

/// The value of an answer, where its code has one.
pub fn value(answer: u64) -> u32 {
    answer as u32
}
