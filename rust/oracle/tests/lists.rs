//! Each list asks every question, and gets every answer that its call can give. 8 for a packet's
//! length alone stands in limits.rs.

use std::process::Command;

fn lists(arguments: &[&str]) -> String {
    let output = Command::new(env!("CARGO_BIN_EXE_lists")).args(arguments).output();
    let output = output.expect("lists runs");
    assert!(output.status.success(), "{}", String::from_utf8_lossy(&output.stderr));
    String::from_utf8(output.stdout).expect("text")
}

/// The kinds of answer to a question, a refusal being its number.
fn kinds<'a>(counts: &'a str, question: &str) -> Vec<&'a str> {
    let rows = counts.lines().filter(|line| line.split_whitespace().next() == Some(question));
    let mut kinds: Vec<&str> =
        rows.filter_map(|line| line.split_whitespace().rev().nth(1)).collect();
    kinds.sort_by_key(|kind| kind.parse().unwrap_or(0));
    kinds
}

fn has(list: &str, expected: &[(&str, &str)]) {
    for seed in ["1", "2", "77"] {
        let counts = lists(&[list, "--counts", "--seed", seed]);
        for (question, answers) in expected {
            assert_eq!(kinds(&counts, question).join(" "), *answers, "{question}");
        }
    }
}

#[test]
fn header() {
    has(
        "header",
        &[
            ("header.read", "ok 1 2 3 7"),
            ("header.size", "ok 8"),
            ("header.len", "ok 8"),
            ("header.write", "ok 5 8 9 10"),
            ("header.set", "ok 7 8 10 11 12 13 14"),
            ("header.del", "ok 8 15 16"),
            ("header.get", "none ok 8"),
            ("header.ids", "ok 8"),
        ],
    );
}

#[test]
fn packet() {
    has(
        "packet",
        &[
            ("packet.read", "ok 1 2 3 4 7"),
            ("packet.size", "ok 8"),
            ("packet.write", "ok 5 8 9 10"),
        ],
    );
}

#[test]
fn h264() {
    has(
        "h264",
        &[
            ("h264.next", "at none 8"),
            ("h264.send", "ok 5 7 8"),
            ("h264.read", "ok 4 5 6 8 17 18 19"),
            ("h264.head", "0 1"),
            ("h264.tail", "0 1"),
        ],
    );
}

#[test]
fn vp8() {
    has(
        "vp8",
        &[("vp8.send", "ok 5 8"), ("vp8.read", "ok 4 8"), ("vp8.head", "0 1"), ("vp8.tail", "0 1")],
    );
}

#[test]
fn same_on_every_run() {
    for name in ["header", "packet", "h264", "vp8"] {
        let list = lists(&[name]);
        assert_eq!(list, lists(&[name, "--seed", "1"]));
        assert_ne!(list, lists(&[name, "--seed", "2"]));
        for row in list.lines() {
            let (question, answer) = row.split_once('\t').expect("a tab");
            assert_eq!(oracle::answer(question), answer, "{question}");
        }
    }
}
