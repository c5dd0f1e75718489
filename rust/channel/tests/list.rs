//! The list that is replayed: it is the one of seed 1, and has every answer of the joiner.

use ::rows::{number, Row, NOTHING};
use channel::list::{binary, counts, hex, rows, text};
use channel::{packet, RUNS};

#[test]
fn the_list_is_the_one_that_is_replayed() {
    let path = concat!(env!("CARGO_MANIFEST_DIR"), "/../../crates/replay/data/joiner");
    let replayed = std::fs::read(path).unwrap();
    assert!(replayed == binary(&rows(1, RUNS)), "print the list anew");
    assert!(replayed.len() < 1_000_000);
}

#[test]
fn binary_and_text() {
    let mut source = vec![];
    for row in rows(1, RUNS) {
        let read = &::rows::rows(&row.binary)[0];
        assert_eq!(question(read), row.question);
        assert_eq!(answer(read), row.answer);
        if read.name() == "joiner.open" {
            source = read.question[1].to_vec();
        }
        assert_eq!(read.answer[5], source);
    }
}

fn question(row: &Row) -> String {
    if row.name() == "joiner.join" {
        return format!("joiner.join {}", hex(row.question[1]));
    }
    let numbers = row.question[1..].iter().map(|field| format!(" {}", number(field)));
    format!("{}{}", row.name(), numbers.collect::<String>())
}

fn answer(row: &Row) -> String {
    let a: Vec<u64> = row.answer.iter().map(|field| number(field)).collect();
    let said = match (a[0], row.name()) {
        (0, "joiner.join") => {
            assert_eq!(a[3], row.answer[12].len() as u64);
            format!("ok {} {} {}", a[1], a[2], hex(row.answer[12]))
        }
        (0, "joiner.close") => format!("ok {} {}", a[1], a[2]),
        (0, _) => "ok".to_string(),
        (other, _) => {
            assert!(row.answer.get(12).is_none_or(|out| out.is_empty()));
            match other {
                NOTHING => "late".to_string(),
                17 => format!("refused 17 {} {}", a[1], a[2]),
                19 => format!("refused 19 {}", a[1]),
                number => format!("refused {number}"),
            }
        }
    };
    let state: String = a[6..=11].iter().map(|number| format!(" {number}")).collect();
    format!("{said}{state} {}", hex(row.answer[4]))
}

#[test]
fn every_answer_is_in_it() {
    let counted = counts(&rows(1, RUNS));
    let has = |what: &str| counted.lines().any(|line| line.split("  ").next() == Some(what));
    for number in [1, 2, 3, 4, 5, 6, 7, 8, 17, 18, 19, 20, 21, 22, 24, 25] {
        assert!(counted.contains(&format!("joiner.join   refused {number} ")), "{number}");
    }
    for number in [22, 23, 24] {
        assert!(counted.contains(&format!("joiner.close  refused {number} ")), "{number}");
    }
    assert!(counted.contains("joiner.join   late "));
    for note in [
        "with a jump",
        "with a jump of 32,767",
        "with a jump that drops a run",
        "with a wrap of the number",
        "with a refusal beside an open run",
        "with a closing that drops a run",
        "with a marked record",
        "with a marked unit handed out",
        "with a mark that the last fragment lacks",
        "with a mark on a plain unit or a STAP-A",
        "with a jump that drops a mark",
        "with a start that replaces a mark",
        "with a late packet beside a mark",
        "with a refusal beside a mark",
        "with a closing that drops a mark",
        "with an open run of time 0",
        "with a start of another time",
        "with a jump to another time",
        "with a unit of another time",
        "with a late packet of another time",
        "with another refusal of another time",
        "with another time that would end the unit",
        "with another time and too little room",
    ] {
        assert!(has(note), "{note}");
    }
}

// E4: "is refused and changes nothing".
#[test]
fn a_unit_ends_behind_a_fragment_of_another_time() {
    let list = rows(1, RUNS);
    let ends = |row: &channel::list::Row| {
        let read = packet::read(::rows::rows(&row.binary)[0].question[1]);
        let fragment =
            |packet: packet::Packet| packet.payload.first().is_some_and(|b| b & 0x1F == 28);
        read.is_ok_and(fragment) && row.notes.contains(&"bytes handed out")
    };
    let pairs = list.windows(2);
    let behind = pairs.filter(|pair| pair[0].answer.starts_with("refused 25 ") && ends(&pair[1]));
    assert!(behind.count() > 30);
}

#[test]
fn another_seed_makes_another_list() {
    assert!(text(&rows(1, 20)) != text(&rows(2, 20)));
}
