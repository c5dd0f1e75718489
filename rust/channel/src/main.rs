//! Prints runs over seeded channels with the model's answers, the same on every run of the program.

use std::io::{self, Write};
use std::process::ExitCode;

use channel::list::{binary, counts, rows, text};
use channel::RUNS;

fn main() -> ExitCode {
    let arguments: Vec<String> = std::env::args().skip(1).collect();
    let Some((seed, runs, form)) = read(&arguments) else {
        eprintln!("usage: channel [--seed N] [--runs N] [--binary|--counts]");
        return ExitCode::from(2);
    };
    let rows = rows(seed, runs);
    let list = match form {
        Form::Text => text(&rows).into(),
        Form::Binary => binary(&rows),
        Form::Counts => counts(&rows).into(),
    };
    match io::stdout().write_all(&list) {
        Ok(()) => ExitCode::SUCCESS,
        Err(error) => {
            eprintln!("channel: {error}");
            ExitCode::FAILURE
        }
    }
}

enum Form {
    Text,
    Binary,
    Counts,
}

fn read(arguments: &[String]) -> Option<(u64, usize, Form)> {
    let (mut seed, mut runs, mut form) = (1, RUNS, Form::Text);
    let mut options = arguments.iter();
    while let Some(option) = options.next() {
        match option.as_str() {
            "--seed" => seed = options.next()?.parse().ok()?,
            "--runs" => runs = options.next()?.parse().ok()?,
            "--binary" => form = Form::Binary,
            "--counts" => form = Form::Counts,
            _ => return None,
        }
    }
    Some((seed, runs, form))
}
