//! A run as rows: each call is a question, and what the model answers stands beside it.

use std::collections::BTreeMap;

use ::rows::{Fields, FILL, NOTHING};

use crate::h264::FORBIDDEN;
use crate::joiner::{Joined, Joiner};
use crate::random::Random;
use crate::runs::{run, Call, Run, PLACES};
use crate::sender::{Stamp, START};
use crate::{packet, worked, Refusal};

pub struct Row {
    pub question: String,
    pub answer: String,
    /// Both in the form that crates/replay reads.
    pub binary: Vec<u8>,
    /// What there is to count of it besides the kind of its answer.
    pub notes: Vec<&'static str>,
}

/// The rows of the worked cases, and of so many runs behind them.
pub fn rows(seed: u64, runs: usize) -> Vec<Row> {
    let mut random = Random::new(seed);
    let seeded = (0..runs).map(|_| run(&mut random));
    worked::runs().into_iter().chain(seeded).flat_map(|run| played(&run)).collect()
}

pub fn text(rows: &[Row]) -> String {
    rows.iter().map(|row| format!("{}\t{}\n", row.question, row.answer)).collect()
}

pub fn binary(rows: &[Row]) -> Vec<u8> {
    rows.iter().flat_map(|row| row.binary.clone()).collect()
}

/// How many rows each question has by kind of answer, a refusal's kind being its number, and how many have each note.
pub fn counts(rows: &[Row]) -> String {
    let mut counts = BTreeMap::new();
    for row in rows {
        let name = row.question.split(' ').next().unwrap_or_default();
        let kind: Vec<&str> = row.answer.split(' ').take(2).collect();
        let kind = if kind[0] == "refused" { kind.join(" ") } else { kind[0].to_string() };
        *counts.entry(format!("{name:14}{kind}")).or_insert(0) += 1;
        for note in &row.notes {
            *counts.entry(format!("with {note}")).or_insert(0) += 1;
        }
    }
    *counts.entry("rows".to_string()).or_insert(0) += rows.len();
    counts.iter().map(|(what, count)| format!("{what:44}{count:6}\n")).collect()
}

/// A joiner with the host's buffers.
struct Host {
    joiner: Joiner,
    gather: Vec<u8>,
    gather_len: usize,
    out_len: usize,
}

/// What is asked.
struct Question {
    text: String,
    fields: Fields,
}

/// What a call answers, without the state after it.
struct Said {
    text: String,
    told: [u64; 4],
    /// What a packet had handed out.
    out: Option<Vec<u8>>,
}

impl Said {
    fn numbers(first: u16, count: u16) -> Self {
        let told = [0, first.into(), count.into(), 0];
        Said { text: format!("ok {first} {count}"), told, out: None }
    }

    fn handed(first: u16, count: u16, out: Vec<u8>) -> Self {
        let told = [0, first.into(), count.into(), out.len() as u64];
        Said { text: format!("ok {first} {count} {}", hex(&out)), told, out: Some(out) }
    }

    fn late() -> Self {
        Said { text: "late".to_string(), told: [NOTHING, 0, 0, 0], out: Some(vec![]) }
    }

    fn refused(refusal: &Refusal) -> Self {
        let carried = refusal.carried.iter().map(|value| format!(" {value}"));
        let text = format!("refused {}{}", refusal.number, carried.collect::<String>());
        let mut told = [refusal.number.into(), 0, 0, 0];
        for (place, value) in refusal.carried.iter().enumerate() {
            told[1 + place] = *value as u64;
        }
        Said { text, told, out: None }
    }

    fn nothing() -> Self {
        Said { text: "ok".to_string(), told: [0; 4], out: None }
    }
}

fn played(run: &Run) -> Vec<Row> {
    let Stamp { source, number, .. } = run.first;
    let mut joiner = Joiner::open(source, number);
    joiner.missed = run.missed.into();
    let mut host =
        Host { joiner, gather: vec![FILL; PLACES], gather_len: run.gather, out_len: run.out };
    let numbers = [source.into(), number.into(), run.missed.into()];
    let lens = [run.gather as u64, run.out as u64];
    let opened = asked("joiner.open", &[&numbers[..], &lens].concat());
    let opened = host.row(opened, Said::nothing(), vec![]);
    let calls = run.calls.iter().map(|call| host.played(call));
    std::iter::once(opened).chain(calls).collect()
}

fn asked(name: &str, numbers: &[u64]) -> Question {
    let each = numbers.iter().map(|number| format!(" {number}"));
    let fields = Fields::question(name).numbers(numbers.iter().copied());
    Question { text: format!("{name}{}", each.collect::<String>()), fields }
}

impl Host {
    fn played(&mut self, call: &Call) -> Row {
        match call {
            Call::Join(packet) => self.joined(packet),
            Call::Close(number) => self.closed(*number),
            Call::Room { gather, out } => {
                (self.gather_len, self.out_len) = (*gather, *out);
                let question = asked("joiner.room", &[*gather as u64, *out as u64]);
                self.row(question, Said::nothing(), vec![])
            }
        }
    }

    fn joined(&mut self, packet: &[u8]) -> Row {
        let (open, awaited) = (self.joiner.run.is_some(), self.joiner.awaited);
        let marked = self.joiner.marked();
        let at_its_time = self.at_its_time(packet);
        let lent = &mut self.gather[..self.gather_len];
        let answer = self.joiner.join(packet, lent, self.out_len);
        let mut notes = of_marks(marked, packet, &answer);
        notes.extend(at_its_time.map_or(vec![], |otherwise| of_times(packet, &answer, &otherwise)));
        let said = match answer {
            Ok(Joined::Accepted { first, count, out }) => {
                note(&mut notes, "a jump", count > 0);
                note(&mut notes, "a jump that drops a run", count > 0 && open);
                note(&mut notes, "a jump of 32,767", count == 32_767);
                note(&mut notes, "bytes handed out", !out.is_empty());
                note(&mut notes, "an open run afterwards", self.joiner.run.is_some());
                note(&mut notes, "a wrap of the number", self.joiner.awaited < awaited);
                Said::handed(first, count, out)
            }
            Ok(Joined::Late) => Said::late(),
            Err(refusal) => {
                note(&mut notes, "a refusal beside an open run", open);
                Said { out: Some(vec![]), ..Said::refused(&refusal) }
            }
        };
        let text = format!("joiner.join {}", hex(packet));
        let question = Question { text, fields: Fields::question("joiner.join").bytes(packet) };
        self.row(question, said, notes)
    }

    /// What a packet of another time than the open run's would get if it had the run's.
    fn at_its_time(&self, packet: &[u8]) -> Option<Result<Joined, Refusal>> {
        let time = self.joiner.run.as_ref()?.time.to_be_bytes();
        let other = packet.get(4..8).is_some_and(|own| own != time);
        let same = other.then(|| [&packet[..4], &time, &packet[8..]].concat())?;
        let mut gather = self.gather.clone();
        Some(self.joiner.clone().join(&same, &mut gather[..self.gather_len], self.out_len))
    }

    fn closed(&mut self, number: u16) -> Row {
        let (open, marked) = (self.joiner.run.is_some(), self.joiner.marked());
        let mut notes = vec![];
        let said = match self.joiner.close(number) {
            Ok(closed) => {
                note(&mut notes, "a closing that drops a run", open);
                note(&mut notes, "a closing that drops a mark", marked);
                Said::numbers(closed.first, closed.count)
            }
            Err(refusal) => Said::refused(&refusal),
        };
        self.row(asked("joiner.close", &[number.into()]), said, notes)
    }

    /// What was said, and behind it the record, and all of the gather buffer without the places at its end that are as they were
    /// lent.
    fn row(&self, question: Question, said: Said, mut notes: Vec<&'static str>) -> Row {
        let Joiner { source, awaited, missed, closed, .. } = &self.joiner;
        let written = self.gather.iter().rposition(|byte| *byte != FILL).map_or(0, |last| last + 1);
        let (gathered, gather) = (self.joiner.gathered(), &self.gather[..written]);
        note(&mut notes, "a marked record", self.joiner.marked());
        let (running, time) = (self.joiner.run.is_some(), self.joiner.time());
        note(&mut notes, "an open run of time 0", running && time == 0);
        let (marked, closed) = (u8::from(self.joiner.marked()), u8::from(*closed));
        let run = format!("{gathered} {marked} {time}");
        let state = format!("{awaited} {missed} {run} {closed} {}", hex(gather));
        let numbers = [(*source).into(), (*awaited).into(), *missed];
        let run = [gathered as u64, marked.into(), time.into(), closed.into()];
        let answer = Fields::answer(said.told).bytes(gather).numbers(numbers).numbers(run);
        let answer = said.out.iter().fold(answer, |fields, out| fields.bytes(out));
        Row {
            question: question.text,
            answer: format!("{} {state}", said.text),
            binary: ::rows::row(question.fields, answer),
            notes,
        }
    }
}

/// What became of a packet's mark, or of that of the run before it.
fn of_marks(marked: bool, packet: &[u8], answer: &Result<Joined, Refusal>) -> Vec<&'static str> {
    let payload = packet::read(packet).map_or(vec![], |read| read.payload);
    let has = |bytes: &[u8], place: usize, bit: u8| bytes.get(place).is_some_and(|b| b & bit != 0);
    let fragment = payload.first().is_some_and(|first| first & 0x1F == 28);
    let own = has(&payload, 0, FORBIDDEN);
    let mut notes = vec![];
    match answer {
        Ok(Joined::Accepted { count, out, .. }) => {
            let handed = fragment && has(out, 4, FORBIDDEN);
            note(&mut notes, "a marked unit handed out", handed);
            note(&mut notes, "a mark that the last fragment lacks", handed && !own);
            note(&mut notes, "a mark on a plain unit or a STAP-A", own && !fragment);
            note(&mut notes, "a jump that drops a mark", marked && *count > 0);
            let start = fragment && has(&payload, 1, START);
            note(&mut notes, "a start that replaces a mark", marked && *count == 0 && start);
        }
        Ok(Joined::Late) => note(&mut notes, "a late packet beside a mark", marked),
        Err(_) => note(&mut notes, "a refusal beside a mark", marked),
    }
    notes
}

/// What became of a packet of another time than the open run's, beside what it would have got with the run's.
fn of_times(
    packet: &[u8],
    answer: &Result<Joined, Refusal>,
    at_its_time: &Result<Joined, Refusal>,
) -> Vec<&'static str> {
    let payload = packet::read(packet).map_or(vec![], |read| read.payload);
    let fragment = payload.first().is_some_and(|first| first & 0x1F == 28);
    let mut notes = vec![];
    match answer {
        Ok(Joined::Accepted { count, .. }) if fragment => {
            note(&mut notes, "a start of another time", *count == 0);
            note(&mut notes, "a jump to another time", *count > 0);
        }
        Ok(Joined::Accepted { .. }) => note(&mut notes, "a unit of another time", true),
        Ok(Joined::Late) => note(&mut notes, "a late packet of another time", true),
        Err(Refusal { number: 25, .. }) => {
            let mixed = matches!(at_its_time, Ok(Joined::Accepted { out, .. }) if !out.is_empty());
            note(&mut notes, "another time that would end the unit", mixed);
            note(&mut notes, "another time and too little room", at_its_time.is_err());
        }
        Err(_) => note(&mut notes, "another refusal of another time", true),
    }
    notes
}

fn note(notes: &mut Vec<&'static str>, what: &'static str, is: bool) {
    if is {
        notes.push(what);
    }
}

pub fn hex(bytes: &[u8]) -> String {
    if bytes.is_empty() {
        return "-".to_string();
    }
    bytes.iter().map(|byte| format!("{byte:02x}")).collect()
}
