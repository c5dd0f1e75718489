//! A plain model of the paper's joiner, and runs of packets over seeded channels.
//!
//! The model is written from the paper's words alone: it keeps its run in a vector, copies whatever it needs, and knows nothing of
//! the port.

pub mod h264;
pub mod joiner;
pub mod list;
pub mod packet;
pub mod random;
pub mod runs;
pub mod sender;
pub mod worked;

/// How many runs a list has: as many as stay under 1 MB.
pub const RUNS: usize = 2_500;

/// A refusal by the paper's number, and what it carries.
#[derive(Clone, Debug, PartialEq)]
pub struct Refusal {
    pub number: u8,
    pub carried: Vec<usize>,
}

pub fn refuse<T>(number: u8) -> Result<T, Refusal> {
    refuse_with(number, &[])
}

pub fn refuse_with<T>(number: u8, carried: &[usize]) -> Result<T, Refusal> {
    Err(Refusal { number, carried: carried.to_vec() })
}
