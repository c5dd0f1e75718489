//! The binary lists say what the text says, and beside a refusal that all is as it came.

use std::process::Command;

use oracle::text::hex;
use rows::{number, rows, words, Row, FILL, NOTHING, PLACES};

fn lists(arguments: &[&str]) -> Vec<u8> {
    let output = Command::new(env!("CARGO_BIN_EXE_lists")).args(arguments).output();
    output.expect("lists runs").stdout
}

#[test]
fn binary_and_text() {
    for name in ["header", "packet", "h264", "vp8"] {
        for seed in ["1", "2", "77"] {
            let text = String::from_utf8(lists(&[name, "--seed", seed])).expect("text");
            let binary = lists(&[name, "--seed", seed, "--binary"]);
            let rows = rows(&binary);
            assert_eq!(rows.len(), text.lines().count());
            for (row, line) in rows.iter().zip(text.lines()) {
                let (question, answer) = line.split_once('\t').expect("a tab");
                let read = Read { row, name: row.name(), numbers: numbers(&row.question) };
                assert_eq!(read.question(), question);
                assert_eq!(read.answer(), answer, "{question}");
            }
        }
    }
}

fn numbers(fields: &[&[u8]]) -> Vec<u64> {
    fields.iter().map(|field| number(field)).collect()
}

fn tokens<T: ToString>(tokens: &[T]) -> String {
    tokens.iter().map(T::to_string).collect::<Vec<_>>().join(" ")
}

/// A row that is turned into text.
struct Read<'a> {
    row: &'a Row<'a>,
    name: &'static str,
    /// The question's fields as numbers.
    numbers: Vec<u64>,
}

impl Read<'_> {
    fn question(&self) -> String {
        let (name, n) = (self.name, &self.numbers);
        let bytes = |at: usize| hex(self.row.question[at]);
        let record = || Record::of(&self.row.question[4..]).text();
        match name {
            "header.size" | "header.len" | "header.ids" => format!("{name} {}", record()),
            "header.write" => format!("{name} {} {} {}", record(), n[1], n[2]),
            "header.set" => format!("{name} {} {} {}", record(), n[1], bytes(3)),
            "header.del" | "header.get" => format!("{name} {} {}", record(), n[1]),
            "packet.size" => format!("{name} {} {}", record(), bytes(3)),
            "packet.write" => format!("{name} {} {} {} {}", record(), bytes(3), n[1], n[2]),
            "h264.next" => format!("{name} {} {}", bytes(1), n[2]),
            "h264.send" => {
                let (sps, pps, room) = (bytes(6), bytes(8), room(&n[3..5]));
                format!("{name} {} {sps} {pps} {}{room}", n[1], bytes(2))
            }
            "h264.read" => format!("{name} {} {} {}{}", n[4], bytes(6), bytes(1), room(&n[2..4])),
            "vp8.send" => {
                format!("{name} {} {} {} {}{}", n[5], n[6], n[1], bytes(2), room(&n[3..5]))
            }
            "vp8.read" => format!("{name} {} {}", tokens(&n[2..]), bytes(1)),
            "h264.tail" | "vp8.tail" => format!("{name} {}", n[1]),
            _ => format!("{name} {}", bytes(1)),
        }
    }

    fn answer(&self) -> String {
        let a = numbers(&self.row.answer);
        match a[0] {
            0 => self.answered(&a),
            NOTHING => "none".to_string(),
            refusal => {
                self.is_as_it_came(&a);
                let carried = match refusal {
                    17 => &a[1..3],
                    19 => &a[1..2],
                    4 if self.name == "vp8.read" => &a[4..],
                    _ => &[],
                };
                tokens(
                    &[&["refused".to_string(), refusal.to_string()], &strings(carried)[..]]
                        .concat(),
                )
            }
        }
    }

    fn answered(&self, a: &[u64]) -> String {
        let bytes = |at: usize| hex(self.row.answer[at]);
        let record = || {
            let record = Record::of(&self.row.answer[4..]);
            assert_eq!(record.behind, [0; 3]);
            record.text()
        };
        match self.name {
            "header.read" => format!("ok {} {}", a[1], record()),
            "packet.read" => format!("ok {} {} {}", a[1], a[2], record()),
            "header.write" | "packet.write" => format!("ok {} {}", a[1], bytes(4)),
            "header.set" | "header.del" => {
                assert_eq!(a[20..], [0xA5A5_A5A5, 0, 0]);
                format!("ok {}", Record::of(&self.row.answer[4..]).text())
            }
            "header.get" => {
                let data = self.row.question[19];
                format!("ok {}", hex(&data[a[1] as usize..][..a[2] as usize]))
            }
            "header.ids" => format!("ok {}", bytes(4)),
            "h264.next" => format!("at {} {}", a[1], a[2]),
            "h264.send" => self.sent(a),
            "h264.read" => {
                let gathered = hex(&self.row.answer[5][..a[8] as usize]);
                assert_eq!([a[1], a[7]], [self.row.answer[4].len() as u64, self.numbers[4]]);
                format!("ok {gathered} {}", bytes(4))
            }
            "vp8.send" => {
                assert_eq!(a[6], self.numbers[5]);
                format!("ok {} {}", a[7], self.packets(a))
            }
            "vp8.read" => format!("ok {} {}", a[1], tokens(&a[4..])),
            "header.size" | "header.len" | "packet.size" => format!("ok {}", a[1]),
            _ => a[1].to_string(),
        }
    }

    /// What H.264 sending answers: nothing stands behind the sets.
    fn sent(&self, a: &[u64]) -> String {
        let [sps, pps] = [7, 10].map(|at| self.row.answer[at]);
        assert_eq!([a[6], a[9]], [sps, pps].map(|set| set.len() as u64));
        assert_eq!([a[8], a[11]], [0, 0]);
        format!("ok {} {} {} {} {}", hex(sps), hex(pps), a[3], a[12], self.packets(a))
    }

    fn packets(&self, a: &[u64]) -> String {
        let (out, ends) = (self.row.answer[4], words(self.row.answer[5]));
        assert_eq!([a[1], a[2]], [ends.len(), out.len()].map(|count| count as u64));
        let starts = [0].iter().chain(&ends);
        let packets =
            starts.zip(&ends).map(|(start, end)| hex(&out[*start as usize..*end as usize]));
        let packets: Vec<String> = packets.collect();
        if packets.is_empty() {
            "-".to_string()
        } else {
            packets.join(",")
        }
    }

    /// "A refusal .. changes no buffer and no state".
    fn is_as_it_came(&self, a: &[u64]) {
        let (n, q, fields) = (&self.numbers, &self.row.question, &self.row.answer);
        match self.name {
            "header.read" | "packet.read" => assert!(a[4..].iter().all(|number| *number == 0)),
            "header.write" | "packet.write" | "header.ids" => assert!(fields[4].is_empty()),
            "header.set" | "header.del" => {
                assert!(Record::of(&q[4..]).stale() == Record::of(&fields[4..]));
            }
            "h264.send" => {
                assert!(fields[4].is_empty() && fields[5].is_empty());
                let set = |at: usize, behind: u64| [a[at], number(fields[at + 1]), behind];
                let came = |at: usize| [n[at], number(q[at + 1]), FILL.into()];
                assert_eq!([set(6, a[8]), set(9, a[11])], [came(5), came(7)]);
                assert_eq!([a[3], a[12]], [0, 0]);
            }
            "h264.read" => {
                assert!(fields[4].is_empty() && fields[6].is_empty());
                assert_eq!((fields[5], a[7], a[8]), (q[6], n[4], n[5]));
            }
            "vp8.send" => {
                assert!(fields[4].is_empty() && fields[5].is_empty());
                assert_eq!(a[6..], n[5..]);
            }
            "vp8.read" => assert!(a[0] == 4 || a[4..] == n[2..]),
            _ => assert_eq!(a.len(), 4),
        }
    }
}

fn strings(numbers: &[u64]) -> Vec<String> {
    numbers.iter().map(u64::to_string).collect()
}

/// All places are lent where the text does not say how many.
fn room(places: &[u64]) -> String {
    if places == [PLACES as u64; 2] {
        String::new()
    } else {
        format!(" {}", tokens(places))
    }
}

#[derive(PartialEq)]
struct Record {
    numbers: Vec<u64>,
    sources: Vec<u32>,
    ids: Vec<u8>,
    lens: Vec<u32>,
    data: Vec<u8>,
    /// In an answer what stands behind the sources, behind the lengths, and behind ids and data.
    behind: Vec<u64>,
}

impl Record {
    fn of(fields: &[&[u8]]) -> Self {
        Record {
            numbers: numbers(&fields[..12]),
            sources: words(fields[12]),
            ids: fields[13].to_vec(),
            lens: words(fields[14]),
            data: fields[15].to_vec(),
            behind: numbers(&fields[16..]),
        }
    }

    fn count(&self, at: usize) -> usize {
        self.numbers[at] as usize
    }

    /// As a question has it, seen through the places of its arrays, which hold FILL behind the counts.
    fn stale(mut self) -> Self {
        self.behind = vec![0xA5A5_A5A5, 0xA5A5, 0xA5];
        self.sources.truncate(15);
        self.ids.truncate(32);
        self.lens.truncate(32);
        self.data.truncate(1_024);
        self
    }

    fn text(&self) -> String {
        let (mut sources, mut elements) = (vec![], vec![]);
        for i in 0..self.count(8) {
            sources.extend(self.sources.get(i).unwrap_or(&0).to_be_bytes());
        }
        let mut at = 0;
        for i in 0..self.count(10) {
            let len = *self.lens.get(i).unwrap_or(&0) as usize;
            elements.push(*self.ids.get(i).unwrap_or(&0));
            elements.extend((len as u16).to_be_bytes());
            elements.extend(&self.data[at..at + len]);
            at += len;
        }
        assert_eq!(at, self.data.len());
        let (front, profile, padding) = (&self.numbers[..8], self.numbers[9], self.numbers[11]);
        let (sources, elements) = (hex(&sources), hex(&elements));
        format!("{} {sources} {profile} {elements} {padding}", tokens(front))
    }
}
