//! Answers questions about RTP packets by running rtp 0.17.2, whose modules are carried byte for
//! byte in `rtp/`. `limits` adds the paper's refusals that the Rust has no counterpart of.
//! README.md gives the forms.

#[path = "rtp/error.rs"]
pub mod error;
pub mod h264;
#[path = "rtp/header.rs"]
pub mod header;
#[path = "rtp/packet/mod.rs"]
pub mod packet;
pub mod packetizer;
pub mod vp8;

pub mod asked;
pub mod binary;
pub mod limits;
pub mod outcomes;
mod questions;
pub mod record;
pub mod refusal;
pub mod text;

use std::panic::catch_unwind;

/// Who decides.
#[derive(Clone, Copy)]
pub enum Judge {
    /// The paper's limits, then the Rust.
    Paper,
    /// The Rust alone, asked nothing outside the paper's domain.
    Rust,
}

impl Judge {
    pub fn answer(self, question: &str) -> String {
        match catch_unwind(|| questions::answer(self, question)) {
            Ok(Ok(answer)) => answer,
            Ok(Err(refusal)) => refusal.to_string(),
            Err(_) => "panic".to_string(),
        }
    }
}

/// The answer as the paper has it.
pub fn answer(question: &str) -> String {
    Judge::Paper.answer(question)
}
