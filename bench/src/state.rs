//! Tables and desk as a caller lends them.

use crate::desk::DESK_WORDS;

/// Both tables and the words of a desk.
#[derive(Clone, PartialEq, Eq)]
pub struct State {
    pub held: Vec<u32>,
    pub released: Vec<u32>,
    pub desk: Vec<u32>,
}

impl State {
    /// Free seats and tables of zeros.
    pub fn cleared(records: usize) -> State {
        State { held: vec![0; records], released: vec![0; records], desk: vec![0; DESK_WORDS] }
    }

    /// Becomes another of the same size, without a new allocation.
    pub fn copy_from(&mut self, other: &State) {
        self.held.copy_from_slice(&other.held);
        self.released.copy_from_slice(&other.released);
        self.desk.copy_from_slice(&other.desk);
    }

    /// Runs requests through one of the sides.
    pub fn judge(&mut self, side: impl Judge, requests: &[u32], answers: &mut [u64]) -> u64 {
        side(&mut self.held, &mut self.released, &mut self.desk, requests, answers)
    }
}

/// The exported call, or the same by hand.
pub trait Judge: Fn(&mut [u32], &mut [u32], &mut [u32], &[u32], &mut [u64]) -> u64 + Copy {}

impl<F: Fn(&mut [u32], &mut [u32], &mut [u32], &[u32], &mut [u64]) -> u64 + Copy> Judge for F {}
