//! Frames cut into payloads, and payloads read.

pub mod h264;
pub mod vp8;

/// The payloads of a frame, in order: parts of the output that was lent.
#[derive(Clone, Debug)]
pub struct Payloads<'a> {
    out: &'a [u8],
    ends: std::slice::Iter<'a, usize>,
    at: usize,
}

impl<'a> Payloads<'a> {
    fn new(out: &'a [u8], ends: &'a [usize]) -> Self {
        Payloads { out, ends: ends.iter(), at: 0 }
    }
}

impl<'a> Iterator for Payloads<'a> {
    type Item = &'a [u8];

    fn next(&mut self) -> Option<&'a [u8]> {
        let end = *self.ends.next()?;
        let payload = &self.out[self.at..end];
        self.at = end;
        Some(payload)
    }

    fn size_hint(&self) -> (usize, Option<usize>) {
        self.ends.size_hint()
    }
}

impl ExactSizeIterator for Payloads<'_> {}
