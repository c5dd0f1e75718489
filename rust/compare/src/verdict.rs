//! Whether the proved call answers as the Rust, or differs as docs/DIFFERENCES.md has it.

use std::fmt::Debug;
use std::panic::{catch_unwind, AssertUnwindSafe};

use oracle::refusal::Refusal;
use rtp_rattle::Error;

use crate::tally::{Did, Kind, Tally};

/// A refusal of the paper, with the values that it carries.
#[derive(Clone, Copy, Debug, Eq, PartialEq)]
pub struct Refused {
    pub number: u8,
    carried: [usize; 2],
}

impl Refused {
    fn plain(number: u8) -> Self {
        Refused { number, carried: [0; 2] }
    }
}

impl From<Refusal> for Refused {
    fn from(refusal: Refusal) -> Self {
        let Refusal::Number(number, carried) = refusal else { unreachable!("nothing was parsed") };
        let carry = |place: usize| carried.get(place).copied().unwrap_or(0);
        Refused { number, carried: [carry(0), carry(1)] }
    }
}

impl From<Error> for Refused {
    fn from(error: Error) -> Self {
        let carried = match error {
            Error::StapASizeLargerThanBuffer { size, left } => [size, left],
            Error::NaluTypeIsNotHandled(nalu_type) => [usize::from(nalu_type), 0],
            _ => [0; 2],
        };
        Refused { number: error.number(), carried }
    }
}

/// What the unchanged Rust did.
#[derive(Debug)]
pub enum Theirs<T> {
    Answers(T),
    Refuses(Refused),
    Panics,
}

impl<T> Theirs<T> {
    /// Runs a call of the Rust.
    pub fn of<E>(call: impl FnOnce() -> Result<T, E>) -> Self
    where
        Refusal: From<E>,
    {
        match catch_unwind(AssertUnwindSafe(call)) {
            Ok(Ok(answer)) => Theirs::Answers(answer),
            Ok(Err(error)) => Theirs::Refuses(Refusal::from(error).into()),
            Err(_) => Theirs::Panics,
        }
    }

    /// Runs a call of the Rust that never refuses.
    pub fn sure(call: impl FnOnce() -> T) -> Self {
        Self::of(|| Ok::<T, oracle::error::Error>(call()))
    }

    pub fn answer(&self) -> Option<&T> {
        match self {
            Theirs::Answers(answer) => Some(answer),
            _ => None,
        }
    }

    fn did(&self) -> Did {
        match self {
            Theirs::Answers(_) => Did::Answers,
            Theirs::Refuses(refused) => Did::Refuses(refused.number),
            Theirs::Panics => Did::Panics,
        }
    }
}

/// A limit of the paper that the Rust has no counterpart of: the refusal, and what passed it.
#[derive(Clone, Copy, Debug, Eq, Ord, PartialEq, PartialOrd)]
pub struct Limit(pub u8, pub &'static str);

impl Limit {
    pub fn unless(self, kept: bool) -> Option<Limit> {
        (!kept).then_some(self)
    }
}

/// One question to both.
pub struct Case<I> {
    pub call: &'static str,
    /// what was asked, shown where the answers differ
    pub input: I,
    /// a limit that is judged before the Rust's own refusals
    pub before: Option<Limit>,
    /// what a panic of the Rust stands for
    pub panic: Option<Limit>,
    /// a limit that is judged where the Rust answers
    pub after: Option<Limit>,
    /// the Rust has changed its buffer
    pub wrote: bool,
}

impl<I: Debug> Case<I> {
    pub fn new(call: &'static str, input: I) -> Self {
        Case { call, input, before: None, panic: None, after: None, wrote: false }
    }

    /// What the paper makes of the Rust's answer: the limit in its place, if there is one.
    fn limit<U>(&self, theirs: &Theirs<U>) -> Option<Limit> {
        self.before.or(match theirs {
            Theirs::Answers(_) => self.after,
            Theirs::Refuses(_) => None,
            Theirs::Panics => self.panic,
        })
    }

    /// The kind of an answer that is as it must be. `kept` says that the proved call has left every buffer and state as it
    /// was, `same` that both answers, and all that was written, are equal.
    fn kind<T, U>(
        &self,
        ours: &Result<T, Error>,
        theirs: &Theirs<U>,
        kept: bool,
        same: impl FnOnce(&T, &U) -> bool,
    ) -> Option<Kind> {
        let refused = ours.as_ref().err().map(|error| Refused::from(*error));
        if let Some(limit) = self.limit(theirs) {
            let as_stated = refused == Some(Refused::plain(limit.0)) && kept;
            return as_stated.then_some(Kind::Allowed(theirs.did(), limit));
        }
        match (ours, theirs) {
            (Ok(ours), Theirs::Answers(theirs)) => same(ours, theirs).then_some(Kind::SameAnswer),
            (Err(_), Theirs::Refuses(number)) if refused == Some(*number) && kept => {
                self.same_refusal(number.number)
            }
            _ => None,
        }
    }

    fn same_refusal(&self, number: u8) -> Option<Kind> {
        match number {
            9 | 10 if self.wrote => Some(Kind::WroteFirst(number)),
            _ => (!self.wrote).then_some(Kind::SameRefusal(number)),
        }
    }

    /// Compares, and counts or shows what came of it.
    pub fn judge<T: Debug, U: Debug>(
        &self,
        tally: &mut Tally,
        ours: &Result<T, Error>,
        theirs: &Theirs<U>,
        kept: bool,
        same: impl FnOnce(&T, &U) -> bool,
    ) {
        match self.kind(ours, theirs, kept, same) {
            Some(kind) => tally.count(self.call, kind),
            None => tally.differs(self.call, &[&self.input, theirs, ours, &kept]),
        }
    }
}

#[cfg(test)]
mod tests {
    use super::*;

    const PAST: Limit = Limit(3, "past");
    const OUTSIDE: Limit = Limit(8, "outside");

    /// Whether an answer is let pass, of a case with these limits; equal numbers are the same.
    fn passes(
        [before, panic, after]: [Option<Limit>; 3],
        ours: Result<u8, Error>,
        theirs: Theirs<u8>,
        kept: bool,
    ) -> bool {
        let case = Case { before, panic, after, ..Case::new("call", ()) };
        case.kind(&ours, &theirs, kept, |ours, theirs| ours == theirs).is_some()
    }

    #[test]
    fn answers_must_be_equal() {
        assert!(passes([None; 3], Ok(7), Theirs::Answers(7), false));
        assert!(!passes([None; 3], Ok(7), Theirs::Answers(6), true));
        assert!(!passes([None; 3], Ok(7), Theirs::Refuses(Refused::plain(4)), true));
        assert!(!passes([None; 3], Err(Error::ErrShortPacket), Theirs::Answers(7), true));
    }

    #[test]
    fn refusals_must_be_equal_and_change_nothing() {
        let short = || Theirs::Refuses(Refused::plain(4));
        assert!(passes([None; 3], Err(Error::ErrShortPacket), short(), true));
        assert!(!passes([None; 3], Err(Error::ErrShortPacket), short(), false));
        assert!(!passes([None; 3], Err(Error::ErrBufferTooSmall), short(), true));
        let size = |size| Err(Error::StapASizeLargerThanBuffer { size, left: 1 });
        let carried = || Theirs::Refuses(Refused { number: 17, carried: [5, 1] });
        assert!(passes([None; 3], size(5), carried(), true));
        assert!(!passes([None; 3], size(6), carried(), true));
    }

    #[test]
    fn panics_have_their_number() {
        let past = Err(Error::ElementPastPacket);
        assert!(passes([None, Some(PAST), None], past, Theirs::Panics, true));
        assert!(!passes([None, Some(PAST), None], Ok(7), Theirs::Panics, true));
        assert!(!passes([None; 3], past, Theirs::Panics, true));
        assert!(!passes([None, Some(PAST), None], past, Theirs::Answers(7), true));
    }

    #[test]
    fn limits_come_first_or_last() {
        let outside = Err(Error::OutsideDomain);
        assert!(passes([Some(OUTSIDE), Some(PAST), None], outside, Theirs::Panics, true));
        assert!(passes([None, None, Some(OUTSIDE)], outside, Theirs::Answers(7), true));
        assert!(!passes([None, None, Some(OUTSIDE)], Ok(7), Theirs::Answers(7), true));
        assert!(!passes([Some(OUTSIDE), None, None], outside, Theirs::Answers(7), false));
    }

    #[test]
    fn only_9_and_10_come_after_writing() {
        let case = Case { wrote: true, ..Case::new("call", ()) };
        assert!(case.same_refusal(9).is_some() && case.same_refusal(10).is_some());
        assert!(case.same_refusal(5).is_none());
    }
}
