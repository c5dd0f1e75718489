//! A list of H.264 sending in which an outcome does not occur is refused, with a word on which. The
//! rows that have it are left out by their text, and not by what `asked` itself finds in them.

use std::process::Command;

use oracle::asked;

/// A frame that is sent, as a line of the list has it.
struct Row {
    mtu: usize,
    frame: Vec<u8>,
    /// How many units were dropped for the mtu.
    units: usize,
    /// How many pairs were.
    pairs: usize,
    packets: Vec<Vec<u8>>,
}

impl Row {
    fn of(question: &str, answer: &str) -> Option<Self> {
        let question: Vec<&str> = question.split(' ').collect();
        let answer: Vec<&str> = answer.split(' ').collect();
        let ["h264.send", mtu, _, _, frame, ..] = question[..] else { return None };
        let ["ok", _, _, units, pairs, packets] = answer[..] else { return None };
        let [mtu, units, pairs] = [mtu, units, pairs].map(|word| word.parse().expect("a number"));
        let packets = packets.split(',').filter(|word| *word != "-").map(bytes).collect();
        Some(Row { mtu, frame: bytes(frame), units, pairs, packets })
    }

    /// Has a byte that would begin a unit of this type, wherever it stands.
    fn has_type(&self, kind: u8) -> bool {
        self.frame.iter().any(|byte| byte & 31 == kind)
    }

    fn has(&self, part: &[u8]) -> bool {
        self.frame.windows(part.len()).any(|bytes| bytes == part)
    }
}

fn bytes(hex: &str) -> Vec<u8> {
    let digits = hex.trim_matches('-').as_bytes().chunks(2);
    let digits = digits.map(|pair| std::str::from_utf8(pair).expect("digits"));
    digits.map(|pair| u8::from_str_radix(pair, 16).expect("hex")).collect()
}

type LeftOut = fn(&Row) -> bool;

/// Which rows are left out, and the outcomes that then do not occur: these and no others. Of the
/// pairs of a frame only the first can be saved before it.
const MISSING: [(LeftOut, &[&str]); 17] = [
    (|row| row.has(&[0, 0, 1, 0, 0]) || row.frame.ends_with(&[0, 0, 1]), &["an empty unit"]),
    (|row| row.has_type(9), &["a unit of type 9"]),
    (|row| row.has_type(12), &["a unit of type 12"]),
    (|row| row.has_type(7), &["an SPS that is saved", "several pairs dropped of a frame"]),
    (|row| row.has_type(8), &["a PPS that is saved", "several pairs dropped of a frame"]),
    (
        |row| row.packets.iter().any(|packet| row.has(packet)),
        &[
            "a unit sent alone, with no pair due",
            "a unit sent alone behind its pair",
            "a unit sent alone, its pair dropped",
        ],
    ),
    (
        |row| row.packets.iter().any(|packet| packet[0] & 31 == 28),
        &[
            "a unit in fragments, with no pair due",
            "a unit in fragments behind its pair",
            "a unit in fragments, its pair dropped",
        ],
    ),
    (
        |row| row.packets.iter().any(|packet| packet[0] == 0x78),
        &["a unit sent alone behind its pair", "a unit in fragments behind its pair"],
    ),
    (|row| row.mtu == 1 && row.units > 0, &["a unit dropped at mtu 1"]),
    (|row| row.mtu == 2 && row.units > 0, &["a unit dropped at mtu 2"]),
    (
        |row| row.units > 0,
        &[
            "a unit dropped at mtu 1",
            "a unit dropped at mtu 2",
            "a unit dropped, with no pair due",
            "a unit and its pair dropped",
            "several units dropped of a frame",
        ],
    ),
    (
        |row| row.pairs > 0,
        &[
            "a unit sent alone, its pair dropped",
            "a unit in fragments, its pair dropped",
            "a unit and its pair dropped",
            "several pairs dropped of a frame",
        ],
    ),
    (|row| row.units > 0 && row.pairs > 0, &["a unit and its pair dropped"]),
    (|row| row.units > 1, &["several units dropped of a frame"]),
    (|row| row.pairs > 1, &["several pairs dropped of a frame"]),
    (|row| row.mtu == 0, &["a frame at mtu 0, where a pair waits"]),
    (|row| row.frame.is_empty(), &["an empty frame, where a pair waits"]),
];

#[test]
fn a_missing_outcome_is_refused() {
    let output = Command::new(env!("CARGO_BIN_EXE_lists")).arg("h264").output();
    let list = String::from_utf8(output.expect("lists runs").stdout).expect("text");
    let rows = || list.lines().map(|line| line.split_once('\t').expect("a tab"));
    assert_eq!(asked::all(rows()), Ok(()));
    for (left_out, missing) in MISSING {
        let others = rows().filter(|(question, answer)| {
            !Row::of(question, answer).is_some_and(|row| left_out(&row))
        });
        assert_eq!(asked::all(others), Err(format!("no question has {}", missing.join("; "))));
    }
}
