//! The second program and the proved library side by side: files, texts and calls.

pub mod calls;
pub mod run;
pub mod shrink;
pub mod tally;
pub mod texts;
