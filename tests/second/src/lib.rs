//! The second program: a plain implementation of document 01, written from the
//! document alone, to be compared with the verified code. Nothing here is fast
//! or clever on purpose; where brute force is plainest, it is brute force.

pub mod book;
pub mod calls;
pub mod meaning;
pub mod number;
pub mod plan;
pub mod random;
pub mod report;
pub mod review;
pub mod rule;
pub mod slices;
pub mod tally;
pub mod unfold;
pub mod verdict;

/// A refusal: its number in document 01's table, and its place.
#[derive(Clone, Copy, Debug, PartialEq, Eq, PartialOrd, Ord)]
pub struct Refusal {
    pub number: u32,
    pub place: usize,
}

pub fn refuse<T>(number: u32, place: usize) -> Result<T, Refusal> {
    Err(Refusal { number, place })
}

/// A packet. Every field may have any value.
#[derive(Clone, Copy, Debug, PartialEq, Eq)]
pub struct Packet {
    pub source: u32,
    pub destination: u32,
    pub protocol: u32,
    pub destination_port: u32,
    pub input_port: u32,
}

/// How far a review has come.
#[derive(Clone, Copy, Debug, PartialEq, Eq)]
pub enum Phase {
    Running,
    Certified,
    Refused { rule: u32, source: u32 },
}

pub const ACCEPT: u32 = 0;
pub const DROP: u32 = 1;

pub use book::check;
pub use meaning::review_by_meaning;
pub use report::report;
pub use review::review;
pub use rule::rule;
pub use slices::{start, step, State, MAX_RANGES};
pub use unfold::unfold;
pub use verdict::{chain_verdict, closure, list_verdict};
