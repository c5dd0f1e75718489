//! Times the proved calls beside rtp 0.17.2 and beside a plain copy of the same bytes, and prints the table for docs/FIGURES.md.

mod by_value;
mod h264;
mod joiner;
mod packets;
mod timing;
mod vp8;

// Chance of the oracle's lists.
#[allow(dead_code)]
#[path = "../../oracle/src/bin/lists/random.rs"]
mod random;

use std::fs;

use timing::Row;

/// The mtu of a sender whose row names no other.
const MTU: usize = 1_200;

fn main() {
    println!("Machine: {}, {}.\n", std::env::consts::ARCH, processor());
    println!(
        "| what | bytes a call | ns a call | the Rust's | a copy's | to the Rust | to a copy |"
    );
    println!("|---|---|---|---|---|---|---|");
    for rows in [packets::rows, h264::rows, vp8::rows, joiner::rows] {
        rows().iter().for_each(print);
    }
}

fn print(row: &Row) {
    let Row { what, bytes, here, rust, copy } = row;
    let time = |rust: f64| format!("{rust:.0}");
    let ratio = |rust: f64| format!("{:.2}", here / rust);
    let none = || "-".to_string();
    println!(
        "| {what} | {bytes} | {here:.0} | {} | {copy:.0} | {} | {:.1} |",
        rust.map_or_else(none, time),
        rust.map_or_else(none, ratio),
        here / copy,
    );
}

/// The processor's name, as Linux has it.
fn processor() -> String {
    let told = fs::read_to_string("/proc/cpuinfo").unwrap_or_default();
    let value = |wanted: &str| {
        told.lines().find_map(|line| {
            let (name, value) = line.split_once(':')?;
            (name.trim() == wanted).then(|| value.trim().to_string())
        })
    };
    let part = || value("CPU part").map(|part| format!("CPU part {part}"));
    value("model name").or_else(part).unwrap_or("processor unknown".to_string())
}
