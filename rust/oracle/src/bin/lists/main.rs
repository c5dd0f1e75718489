//! Prints lists of questions with the oracle's answers, the same on every run.

mod cases;
mod frames;
mod h264;
mod header;
mod list;
mod packet;
mod random;
mod reading;
mod records;
mod search;
mod sets;
mod vectors;
mod vp8;

use std::process::ExitCode;

use list::List;
use random::Random;

fn main() -> ExitCode {
    let arguments: Vec<String> = std::env::args().skip(1).collect();
    let Some((rows, seed, form)) = read(&arguments) else {
        eprintln!("usage: lists header|packet|h264|vp8|cases [--seed N] [--binary|--counts]");
        return ExitCode::from(2);
    };
    // Refusals 3 and 18 are panics of the Rust; one of the lists' own is news.
    std::panic::set_hook(Box::new(|panic| {
        if panic.location().is_some_and(|place| place.file().contains("lists")) {
            eprintln!("{panic}");
        }
    }));
    let mut list = List::new(Random::new(seed));
    rows(&mut list);
    match form {
        Form::Text => list.print(),
        Form::Binary => list.print_binary(),
        Form::Counts => list.print_counts(),
    }
    ExitCode::SUCCESS
}

type Rows = fn(&mut List);

enum Form {
    Text,
    Binary,
    Counts,
}

fn read(arguments: &[String]) -> Option<(Rows, u64, Form)> {
    let (name, options) = arguments.split_first()?;
    let rows = match name.as_str() {
        "header" => header::rows,
        "packet" => packet::rows,
        "h264" => h264::rows,
        "vp8" => vp8::rows,
        "cases" => cases::rows,
        _ => return None,
    };
    let (mut seed, mut form) = (1, Form::Text);
    let mut options = options.iter();
    while let Some(option) = options.next() {
        match option.as_str() {
            "--seed" => seed = options.next()?.parse().ok()?,
            "--binary" => form = Form::Binary,
            "--counts" => form = Form::Counts,
            _ => return None,
        }
    }
    Some((rows, seed, form))
}
