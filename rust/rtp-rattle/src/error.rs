//! The refusals.

use std::fmt;

use crate::sys;

pub type Result<T> = std::result::Result<T, Error>;

/// Why a call was refused. A refused call has changed nothing: no buffer, no state. (One call differs, see
/// [`Vp8Packet::depacketize`](crate::codecs::vp8::Vp8Packet::depacketize); and after a refusal
/// [`H264Packet`](crate::codecs::h264::H264Packet) shows no body.)
#[derive(Clone, Copy, Debug, Eq, PartialEq)]
pub enum Error {
    /// 1: under 4 bytes, or under 12 + 4 x CC
    ErrHeaderSizeInsufficient,
    /// 2: extension header or block longer than the packet
    ErrHeaderSizeInsufficientForExtension,
    /// 3: an element's byte lies past the packet
    ElementPastPacket,
    /// 4: the packet is too short
    ErrShortPacket,
    /// 5: output buffer, or table of packet ends, too small
    ErrBufferTooSmall,
    /// 6: gather buffer too small for the fragments, or the run over 16,777,215 bytes
    GatherTooSmall,
    /// 7: over 32 elements or 1,024 data bytes; an SPS or PPS to be saved is over 1,024
    OverLimits,
    /// 8: any other input outside the limits
    OutsideDomain,
    /// 9: other profile, element bytes not a multiple of 4
    HeaderExtensionPayloadNot32BitWords,
    /// 10: other profile: set with id not 0; write with element count not 1
    ErrRfc3550headerIdrange,
    /// 11: set, one-byte: id not 1..14
    ErrRfc8285oneByteHeaderIdrange,
    /// 12: set, one-byte: size over 16
    ErrRfc8285oneByteHeaderSize,
    /// 13: set, two-byte: id 0
    ErrRfc8285twoByteHeaderIdrange,
    /// 14: set, two-byte: size over 255
    ErrRfc8285twoByteHeaderSize,
    /// 15: delete: id absent
    ErrHeaderExtensionNotFound,
    /// 16: delete: extensions off
    ErrHeaderExtensionsNotEnabled,
    /// 17: STAP-A size past the packet
    StapASizeLargerThanBuffer { size: usize, left: usize },
    /// 18: one byte left where STAP-A needs a two-byte size
    StapASizeCut,
    /// 19: NAL type 0, 25..27, 29..31
    NaluTypeIsNotHandled(u8),
    /// 20: joiner: other SSRC
    OtherSource,
    /// 21: joiner: FU-A with start and end both set
    StartAndEnd,
    /// 22: joiner already closed
    AlreadyClosed,
    /// 23: closing number 32,768 or more ahead of the awaited one
    ClosingTooFar,
    /// 24: missed total would pass 4,294,967,295
    MissedTotalFull,
    /// 25: joiner: fragment of another time
    OtherTime,
}

impl Error {
    /// The refusal's number, 1 to 25.
    pub fn number(self) -> u8 {
        use Error::*;
        match self {
            ErrHeaderSizeInsufficient => 1,
            ErrHeaderSizeInsufficientForExtension => 2,
            ElementPastPacket => 3,
            ErrShortPacket => 4,
            ErrBufferTooSmall => 5,
            GatherTooSmall => 6,
            OverLimits => 7,
            OutsideDomain => 8,
            HeaderExtensionPayloadNot32BitWords => 9,
            ErrRfc3550headerIdrange => 10,
            ErrRfc8285oneByteHeaderIdrange => 11,
            ErrRfc8285oneByteHeaderSize => 12,
            ErrRfc8285twoByteHeaderIdrange => 13,
            ErrRfc8285twoByteHeaderSize => 14,
            ErrHeaderExtensionNotFound => 15,
            ErrHeaderExtensionsNotEnabled => 16,
            StapASizeLargerThanBuffer { .. } => 17,
            StapASizeCut => 18,
            NaluTypeIsNotHandled(_) => 19,
            OtherSource => 20,
            StartAndEnd => 21,
            AlreadyClosed => 22,
            ClosingTooFar => 23,
            MissedTotalFull => 24,
            OtherTime => 25,
        }
    }
}

/// No error where the number is 0. The refusals of the calls in parts carry nothing.
#[inline(always)]
pub(crate) fn check(number: usize) -> Result<()> {
    match number {
        0 => Ok(()),
        _ => Err(refusal(number)),
    }
}

#[cold]
#[inline(never)]
fn refusal(number: usize) -> Error {
    sys::Refused { number: number as u8, carried: [0, 0] }.check().expect_err("a refusal")
}

impl sys::Refused {
    /// No error where the call answers.
    pub(crate) fn check(self) -> Result<()> {
        use Error::*;
        Err(match self.number {
            0 => return Ok(()),
            1 => ErrHeaderSizeInsufficient,
            2 => ErrHeaderSizeInsufficientForExtension,
            3 => ElementPastPacket,
            4 => ErrShortPacket,
            5 => ErrBufferTooSmall,
            6 => GatherTooSmall,
            7 => OverLimits,
            8 => OutsideDomain,
            9 => HeaderExtensionPayloadNot32BitWords,
            10 => ErrRfc3550headerIdrange,
            11 => ErrRfc8285oneByteHeaderIdrange,
            12 => ErrRfc8285oneByteHeaderSize,
            13 => ErrRfc8285twoByteHeaderIdrange,
            14 => ErrRfc8285twoByteHeaderSize,
            15 => ErrHeaderExtensionNotFound,
            16 => ErrHeaderExtensionsNotEnabled,
            17 => StapASizeLargerThanBuffer { size: self.carried[0], left: self.carried[1] },
            18 => StapASizeCut,
            19 => NaluTypeIsNotHandled(self.carried[0] as u8),
            20 => OtherSource,
            21 => StartAndEnd,
            22 => AlreadyClosed,
            23 => ClosingTooFar,
            24 => MissedTotalFull,
            25 => OtherTime,
            other => unreachable!("no refusal has the number {other}"),
        })
    }
}

impl fmt::Display for Error {
    fn fmt(&self, f: &mut fmt::Formatter<'_>) -> fmt::Result {
        use Error::*;
        let text = match self {
            ErrHeaderSizeInsufficient => "RTP header size insufficient",
            ErrHeaderSizeInsufficientForExtension => "RTP header size insufficient for extension",
            ElementPastPacket => "extension element longer than the packet",
            ErrShortPacket => "packet is not large enough",
            ErrBufferTooSmall => "buffer too small",
            GatherTooSmall => "gather buffer too small",
            OverLimits => "over 32 elements, 1,024 data bytes or 1,024 bytes of a parameter set",
            OutsideDomain => "outside the limits",
            HeaderExtensionPayloadNot32BitWords => "extension payload must be in 32-bit words",
            ErrRfc3550headerIdrange => "extension id must be 0, of one element, in other profiles",
            ErrRfc8285oneByteHeaderIdrange => "one-byte extension id must be 1 to 14",
            ErrRfc8285oneByteHeaderSize => "one-byte extension payload must be 16 bytes or less",
            ErrRfc8285twoByteHeaderIdrange => "two-byte extension id must be 1 to 255",
            ErrRfc8285twoByteHeaderSize => "two-byte extension payload must be 255 bytes or less",
            ErrHeaderExtensionNotFound => "extension not found",
            ErrHeaderExtensionsNotEnabled => "extensions not enabled",
            StapASizeLargerThanBuffer { size, left } => {
                return write!(
                    f,
                    "STAP-A declared size {size} is larger than the {left} bytes left"
                );
            }
            StapASizeCut => "one byte left where STAP-A needs a size",
            NaluTypeIsNotHandled(nalu_type) => {
                return write!(f, "NAL unit type {nalu_type} is not handled")
            }
            OtherSource => "packet of another source",
            StartAndEnd => "fragment that starts and ends its unit",
            AlreadyClosed => "joiner already closed",
            ClosingTooFar => "closing number too far ahead",
            MissedTotalFull => "too many packets missed",
            OtherTime => "fragment of another time",
        };
        f.write_str(text)
    }
}

impl std::error::Error for Error {}
