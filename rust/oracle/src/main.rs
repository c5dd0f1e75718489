//! Reads questions from the standard input, a line each, and answers each by a line.

use std::io::{self, BufRead, Write};
use std::process::ExitCode;

use oracle::Judge;

fn main() -> ExitCode {
    let judge = match std::env::args().skip(1).collect::<Vec<_>>().as_slice() {
        [] => Judge::Paper,
        [only] if only == "--rust" => Judge::Rust,
        _ => {
            eprintln!("usage: oracle [--rust] <questions");
            return ExitCode::from(2);
        }
    };
    // A panic is an answer here, not news.
    std::panic::set_hook(Box::new(|_| ()));
    match converse(judge) {
        Ok(()) => ExitCode::SUCCESS,
        Err(error) => {
            eprintln!("oracle: {error}");
            ExitCode::FAILURE
        }
    }
}

fn converse(judge: Judge) -> io::Result<()> {
    let mut out = io::stdout().lock();
    for line in io::stdin().lock().split(b'\n') {
        writeln!(out, "{}", judge.answer(&String::from_utf8_lossy(&line?)))?;
    }
    Ok(())
}
