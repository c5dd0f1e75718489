//! Prints rows of the lists that it is given, each with one field of its answer altered: a replay
//! must find none of them equal.

use std::collections::HashMap;
use std::io::{self, Write};
use std::process::ExitCode;

use rows::{number, row, rows, Fields, Row, NOTHING};

/// The joiner's rows go on from one another, so they are taken from the front, and so many.
const OF_THE_JOINER: usize = 1_000;

fn main() -> ExitCode {
    match std::env::args().skip(1).try_for_each(|path| print(&path)) {
        Ok(()) => ExitCode::SUCCESS,
        Err(error) => {
            eprintln!("altered: {error}");
            ExitCode::FAILURE
        }
    }
}

fn print(path: &str) -> io::Result<()> {
    let list = std::fs::read(path)?;
    let mut seen = HashMap::new();
    for (place, row) in rows(&list).iter().enumerate() {
        let of_the_joiner = row.name().starts_with("joiner.");
        let told = number(row.answer[0]);
        let refused = told != 0 && told != NOTHING && !of_the_joiner;
        let count = seen.entry((row.name(), refused)).or_insert(0);
        let taken = if of_the_joiner { place < OF_THE_JOINER } else { *count < row.answer.len() };
        if taken {
            io::stdout().write_all(&altered(row, *count % row.answer.len()))?;
            *count += 1;
        }
    }
    Ok(())
}

fn altered(each: &Row, place: usize) -> Vec<u8> {
    let mut answer = Fields::default();
    for (at, field) in each.answer.iter().enumerate() {
        answer = if at == place { answer.bytes(other(field)) } else { answer.bytes(field) };
    }
    row(each.question.iter().fold(Fields::default(), |fields, field| fields.bytes(field)), answer)
}

/// Another number, and other bytes too.
fn other(field: &[u8]) -> Vec<u8> {
    let mut field = field.to_vec();
    match field.last_mut() {
        Some(last) => *last ^= 1,
        None => field = vec![0, 0, 0, 1],
    }
    field
}
