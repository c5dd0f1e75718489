//! Inputs, as they are shown where answers differ.

use std::fmt;

/// Bytes in hex, and no more than the first thousand of them.
pub struct Hex<'a>(pub &'a [u8]);

impl fmt::Debug for Hex<'_> {
    fn fmt(&self, f: &mut fmt::Formatter<'_>) -> fmt::Result {
        write!(f, "{} bytes ", self.0.len())?;
        self.0.iter().take(1_000).try_for_each(|byte| write!(f, "{byte:02x}"))
    }
}
