//! What is answered in place of a result, and the paper's number for each error of the Rust.

use std::fmt;
use std::panic::{catch_unwind, AssertUnwindSafe};

use crate::error::Error;
use crate::Judge;

pub enum Refusal {
    /// The question could not be read.
    BadQuestion,
    /// Outside the paper's domain, and the Rust alone was to answer.
    Outside,
    /// The paper's number, and the values that this refusal carries.
    Number(u8, Vec<usize>),
}

impl Refusal {
    pub fn number(number: u8) -> Self {
        Refusal::Number(number, vec![])
    }
}

impl fmt::Display for Refusal {
    fn fmt(&self, f: &mut fmt::Formatter<'_>) -> fmt::Result {
        match self {
            Refusal::BadQuestion => write!(f, "bad question"),
            Refusal::Outside => write!(f, "outside"),
            Refusal::Number(number, carried) => {
                write!(f, "refused {number}")?;
                carried.iter().try_for_each(|value| write!(f, " {value}"))
            }
        }
    }
}

impl From<&Error> for Refusal {
    fn from(error: &Error) -> Self {
        use Error::*;
        match error {
            ErrHeaderSizeInsufficient => Refusal::number(1),
            ErrHeaderSizeInsufficientForExtension => Refusal::number(2),
            ErrShortPacket => Refusal::number(4),
            ErrBufferTooSmall => Refusal::number(5),
            HeaderExtensionPayloadNot32BitWords => Refusal::number(9),
            ErrRfc3550headerIdrange => Refusal::number(10),
            ErrRfc8285oneByteHeaderIdrange => Refusal::number(11),
            ErrRfc8285oneByteHeaderSize => Refusal::number(12),
            ErrRfc8285twoByteHeaderIdrange => Refusal::number(13),
            ErrRfc8285twoByteHeaderSize => Refusal::number(14),
            ErrHeaderExtensionNotFound => Refusal::number(15),
            ErrHeaderExtensionsNotEnabled => Refusal::number(16),
            StapASizeLargerThanBuffer(size, left) => Refusal::Number(17, vec![*size, *left]),
            NaluTypeIsNotHandled(nal_type) => Refusal::Number(19, vec![usize::from(*nal_type)]),
            other => panic!("no number of the paper: {other}"),
        }
    }
}

impl From<Error> for Refusal {
    fn from(error: Error) -> Self {
        Refusal::from(&error)
    }
}

impl From<util::Error> for Refusal {
    fn from(error: util::Error) -> Self {
        Refusal::from(error.downcast_ref::<Error>().expect("an error of rtp"))
    }
}

/// Runs the Rust where the paper has a number for its panic.
pub fn caught<T, E>(number: u8, call: impl FnOnce() -> Result<T, E>) -> Result<T, Refusal>
where
    Refusal: From<E>,
{
    match catch_unwind(AssertUnwindSafe(call)) {
        Ok(answer) => Ok(answer?),
        Err(_) => Err(Refusal::number(number)),
    }
}

impl Judge {
    /// "8 first": whether the question lies in the paper's domain.
    pub(crate) fn domain(self, inside: bool) -> Result<(), Refusal> {
        match self {
            _ if inside => Ok(()),
            Judge::Paper => Err(Refusal::number(8)),
            Judge::Rust => Err(Refusal::Outside),
        }
    }

    /// A limit of the paper inside the domain, which the Rust alone does not know.
    pub(crate) fn limit(self, number: u8, kept: bool) -> Result<(), Refusal> {
        match self {
            Judge::Paper if !kept => Err(Refusal::number(number)),
            _ => Ok(()),
        }
    }
}
