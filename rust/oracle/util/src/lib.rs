//! What rtp 0.17.2 uses of its companion crate `util`: an error that carries another, and three
//! traits.

use std::fmt;

/// Carries an error of the crate above.
#[derive(Debug)]
pub struct Error(Box<dyn std::error::Error + Send + Sync>);

impl Error {
    pub fn from_std<E: std::error::Error + Send + Sync + 'static>(error: E) -> Self {
        Error(Box::new(error))
    }

    pub fn downcast_ref<E: std::error::Error + 'static>(&self) -> Option<&E> {
        self.0.downcast_ref()
    }
}

impl fmt::Display for Error {
    fn fmt(&self, f: &mut fmt::Formatter<'_>) -> fmt::Result {
        self.0.fmt(f)
    }
}

impl std::error::Error for Error {}

/// rtp derives equality for an enum with this inside; carried errors are compared after
/// `downcast_ref`.
impl PartialEq for Error {
    fn eq(&self, _: &Self) -> bool {
        false
    }
}

pub mod marshal {
    use bytes::Buf;

    use crate::Error;

    pub trait MarshalSize {
        fn marshal_size(&self) -> usize;
    }

    pub trait Marshal: MarshalSize {
        fn marshal_to(&self, buf: &mut [u8]) -> Result<usize, Error>;
    }

    pub trait Unmarshal: MarshalSize {
        fn unmarshal<B>(buf: &mut B) -> Result<Self, Error>
        where
            Self: Sized,
            B: Buf;
    }
}
