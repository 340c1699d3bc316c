//! The desk, the trace and the order by hand, and the scripts and traces both sides run.

pub mod by_value;
pub mod cases;
pub mod desk;
pub mod in_place;
pub mod measure;
pub mod mixed;
pub mod order;
pub mod state;
pub mod tables;
pub mod trace;
pub mod traces;
pub mod walks;
