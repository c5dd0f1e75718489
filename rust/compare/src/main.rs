//! Asks the proved calls and the unchanged modules of rtp 0.17.2 the same, and compares the answers, the buffers and the states.
//! What docs/DIFFERENCES.md has is counted by kind; any other difference is shown and fails the run.

mod h264;
mod header;
mod inputs;
mod large;
mod lent;
mod limits;
mod packet;
mod records;
mod rounds;
mod show;
mod tally;
mod verdict;
mod vp8;

// Chance and inputs of the oracle's lists.
#[allow(dead_code)]
#[path = "../../oracle/src/bin/lists/frames.rs"]
mod frames;
#[allow(dead_code)]
#[path = "../../oracle/src/bin/lists/random.rs"]
mod random;
#[path = "../../oracle/src/bin/lists/reading.rs"]
mod reading;
#[allow(dead_code)]
#[path = "../../oracle/src/bin/lists/records.rs"]
mod records_asked;

use std::env;
use std::process::ExitCode;

use inputs::Pool;
use random::Random;
use tally::Tally;

struct Options {
    seed: u64,
    calls: u64,
}

fn options(mut words: impl Iterator<Item = String>) -> Option<Options> {
    let mut options = Options { seed: 1, calls: 5_000_000 };
    while let Some(word) = words.next() {
        let value = words.next()?.parse().ok()?;
        match word.as_str() {
            "--seed" => options.seed = value,
            "--calls" => options.calls = value,
            _ => return None,
        }
    }
    Some(options)
}

fn main() -> ExitCode {
    let Some(Options { seed, calls }) = options(env::args().skip(1)) else {
        eprintln!("compare [--seed N] [--calls N]");
        return ExitCode::from(2);
    };
    // The Rust's panics are answers here.
    std::panic::set_hook(Box::new(|_| {}));
    let (mut random, mut tally, pool) = (Random::new(seed), Tally::default(), Pool::new());
    header::default(&mut tally);
    large::all(&mut random, &mut tally);
    while tally.calls < calls {
        rounds::any(&pool, &mut random, &mut tally);
    }
    println!("seed {seed}");
    tally.print();
    ExitCode::from(u8::from(tally.others > 0))
}
