//! The rows of a list.

use std::collections::{BTreeMap, HashSet};
use std::io::Write;
use std::process::exit;

use oracle::{asked, binary};

use crate::random::Random;

const LONGEST_LINE: usize = 8_000;
/// In the binary form: crates/replay reads a list into 1 MiB.
const LONGEST_LIST: usize = 1_000_000;

pub struct List {
    pub random: Random,
    rows: Vec<(String, String)>,
    asked: HashSet<String>,
}

impl List {
    pub fn new(random: Random) -> Self {
        List { random, rows: vec![], asked: HashSet::new() }
    }

    /// Asks, and notes the row unless it stands already.
    pub fn ask(&mut self, question: impl Into<String>) -> String {
        let question = question.into();
        let answer = oracle::answer(&question);
        if ["bad question", "panic"].contains(&answer.as_str()) {
            fail(&format!("{answer}: {question}"));
        }
        if question.len() + answer.len() + 1 >= LONGEST_LINE {
            fail(&format!("too long a line: {question:.100}"));
        }
        if self.asked.insert(question.clone()) {
            self.rows.push((question, answer.clone()));
        }
        answer
    }

    /// Asks a sender without rooms, and at times with exactly the room that its packets need and
    /// with one place less of each; the first answer.
    pub fn ask_sender(&mut self, question: String) -> String {
        let answer = self.ask(question.clone());
        let Some((state, packets)) = answer.rsplit_once(' ') else {
            return answer;
        };
        if packets == "-" {
            self.ask(format!("{question} 0 0"));
        } else if state.starts_with("ok") && self.random.one_in(3) {
            let lens = packets.split(',').map(|packet| packet.len() / 2);
            let (count, total) = (lens.clone().count(), lens.sum::<usize>());
            self.ask(format!("{question} {total} {count}"));
            self.ask(format!("{question} {} {count}", total - 1));
            self.ask(format!("{question} {total} {}", count - 1));
        }
        answer
    }

    /// Stops unless every outcome of a unit and of a pair occurs.
    pub fn must_ask_all(&self) {
        let rows = self.rows.iter().map(|(question, answer)| (&question[..], &answer[..]));
        if let Err(reason) = asked::all(rows) {
            fail(&reason);
        }
    }

    pub fn print(&self) {
        let lines = self.rows.iter().map(|(question, answer)| format!("{question}\t{answer}\n"));
        print!("{}", lines.collect::<String>());
    }

    /// The rows as crates/replay reads them.
    pub fn print_binary(&self) {
        let rows = self.rows.iter();
        let list: Vec<u8> =
            rows.flat_map(|(question, answer)| binary::row(question, answer)).collect();
        if list.len() >= LONGEST_LIST {
            fail(&format!("too long a list: {} bytes", list.len()));
        }
        if let Err(error) = std::io::stdout().write_all(&list) {
            fail(&error.to_string());
        }
    }

    /// How many rows each question has by kind of answer, a refusal's kind being its number.
    pub fn print_counts(&self) {
        let mut counts = BTreeMap::new();
        for (question, answer) in &self.rows {
            let name = question.split(' ').next();
            let kind: Vec<&str> = answer.split(' ').take(2).collect();
            let kind = if kind[0] == "refused" { kind.join(" ") } else { kind[0].to_string() };
            *counts.entry((name, kind)).or_insert(0) += 1;
        }
        for ((name, kind), count) in counts {
            println!("{:14}{kind:12}{count:6}", name.unwrap_or_default());
        }
        println!("{:26}{:6}", "rows", self.rows.len());
    }
}

fn fail(reason: &str) -> ! {
    eprintln!("lists: {reason}");
    exit(1)
}
