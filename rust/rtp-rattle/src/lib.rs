//! RTP headers and packets, H.264 and VP8 payloads, and a joiner of H.264 units: safe Rust over calls that are proved.
//!
//! The calls are those of `crates/gateway`, written in Rattle; each is proved to do what its contract says, for every input, and
//! to touch nothing but what it is lent. None demands anything of its caller, so this crate has nothing to test before a call: a
//! slice is a pointer and a length, a `&mut` overlaps nothing, and a `bool` in a record is true or false, as Rust has
//! it. A record with any other values in it may be passed too; what lies outside the limits is refused, [`Error::OutsideDomain`].
//!
//! Names are those of the crate rtp 0.17.2 where they fit. Nothing is allocated but the gather buffer that a reader or a joiner
//! keeps, and the list of `get_extension_ids`: what is written goes into a slice that the caller lends.
//!
//! ```
//! use rtp_rattle::{codecs::h264::H264Payloader, header::Header, packet::Packet};
//!
//! # fn main() -> rtp_rattle::Result<()> {
//! let (mut out, mut ends) = ([0; 64], [0; 8]);
//! let mut sender = H264Payloader::new();
//! let payloads = sender.payload(4, b"\x00\x00\x01\x65\x01\x02\x03\x04\x05", &mut out, &mut ends)?;
//!
//! let mut header = Header { version: 2, payload_type: 96, ssrc: 7, ..Header::default() };
//! let mut packet = [0; 32];
//! for payload in payloads {
//!     let n = Packet { header, payload }.marshal_to(&mut packet)?;
//!     let read = Packet::unmarshal(&packet[..n])?;
//!     assert_eq!((read.header.sequence_number, read.payload), (header.sequence_number, payload));
//!     header.sequence_number += 1;
//! }
//! assert_eq!(header.sequence_number, 3);
//! # Ok(())
//! # }
//! ```

#[cfg(not(target_pointer_width = "64"))]
compile_error!("the calls of crates/gateway are compiled for 64-bit machines");

pub mod codecs;
mod declared;
pub mod error;
pub mod header;
pub mod joiner;
pub mod packet;
#[cfg(test)]
mod senders;
mod sys;
#[cfg(test)]
mod ways;

pub use error::{Error, Result};
pub use joiner::Joiner;
