//! Times side by side.

use std::hint::black_box;
use std::time::{Duration, Instant};

/// How often each is timed; the best counts.
const ROUNDS: usize = 200;
/// How long one timing lasts at least.
const LASTS: Duration = Duration::from_micros(500);

/// Nanoseconds a call.
pub struct Row {
    pub what: &'static str,
    /// bytes a call
    pub bytes: usize,
    pub here: f64,
    /// none where the Rust has no counterpart
    pub rust: Option<f64>,
    pub copy: f64,
}

/// Times `here`, `rust` and a copy of `pieces` in turn. `here` and `rust` make one call for each piece.
pub fn beside<P: AsRef<[u8]>>(
    what: &'static str,
    pieces: &[P],
    here: impl FnMut(),
    rust: Option<impl FnMut()>,
) -> Row {
    let longest = pieces.iter().map(|piece| piece.as_ref().len()).max().unwrap_or(0);
    let mut room = vec![0; longest];
    let copy = || {
        for piece in pieces {
            let piece = black_box(piece.as_ref());
            room[..piece.len()].copy_from_slice(piece);
            black_box(&mut room);
        }
    };
    let (mut here, mut rust, mut copy) = (Timed::new(here), rust.map(Timed::new), Timed::new(copy));
    for _ in 0..ROUNDS {
        here.again();
        rust.iter_mut().for_each(Timed::again);
        copy.again();
    }
    let calls = pieces.len() as f64;
    Row {
        what,
        bytes: pieces.iter().map(|piece| piece.as_ref().len()).sum::<usize>() / pieces.len(),
        here: here.best / calls,
        rust: rust.map(|rust| rust.best / calls),
        copy: copy.best / calls,
    }
}

/// The same for calls that the Rust does not have.
pub fn beside_a_copy<P: AsRef<[u8]>>(what: &'static str, pieces: &[P], here: impl FnMut()) -> Row {
    beside(what, pieces, here, None::<fn()>)
}

/// Work, and the best of its timings so far.
struct Timed<F> {
    work: F,
    /// how often a timing runs it
    times: u32,
    /// nanoseconds
    best: f64,
}

impl<F: FnMut()> Timed<F> {
    fn new(work: F) -> Self {
        let mut timed = Timed { work, times: 1, best: f64::INFINITY };
        // The shortest of three, since other load may have lengthened one.
        while (0..3).map(|_| timed.run()).min() < Some(LASTS) {
            timed.times *= 2;
        }
        timed
    }

    fn run(&mut self) -> Duration {
        let start = Instant::now();
        for _ in 0..self.times {
            (self.work)();
        }
        start.elapsed()
    }

    fn again(&mut self) {
        let taken = self.run().as_nanos() as f64 / f64::from(self.times);
        self.best = self.best.min(taken);
    }
}
