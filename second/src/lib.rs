//! The lock desk, its trace, order and trace check: a second program, from the paper alone.

pub mod audit;
pub mod desk;
pub mod event;
pub mod gen;
pub mod number;
pub mod order;
pub mod programs;
pub mod request;

pub use programs::{audit_text, desk_text, desk_trace, order_text};

/// A refusal's number, as the paper's table has it.
pub type Refusal = u32;

/// A refusal and the first byte of the event or request that caused it, or 0.
#[derive(Clone, Copy, Debug, PartialEq, Eq)]
pub struct RefusalAt {
    pub number: Refusal,
    pub offset: usize,
}
