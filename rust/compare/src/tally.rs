//! Counts of what was compared.

use std::collections::BTreeMap;
use std::fmt::Debug;

use crate::limits;
use crate::verdict::Limit;

/// What the Rust did.
#[derive(Clone, Copy, Debug, Eq, Ord, PartialEq, PartialOrd)]
pub enum Did {
    Answers,
    Refuses(u8),
    Panics,
}

/// How an answer stands to the Rust's.
#[derive(Clone, Copy, Debug, Eq, Ord, PartialEq, PartialOrd)]
pub enum Kind {
    SameAnswer,
    SameRefusal(u8),
    /// The same refusal, but the Rust has written before it.
    WroteFirst(u8),
    /// The paper has a limit in place of what the Rust did.
    Allowed(Did, Limit),
}

impl Kind {
    /// As three cells of a table.
    fn cells(self) -> String {
        match self {
            Kind::SameAnswer => "answers | the same | ".to_string(),
            Kind::SameRefusal(number) => format!("refuses, {number} | the same | "),
            Kind::WroteFirst(number) => {
                format!("refuses, {number} | {number} | the Rust has written before")
            }
            Kind::Allowed(Did::Answers, Limit(number, why)) => {
                format!("answers | {number} | {why}")
            }
            Kind::Allowed(Did::Refuses(theirs), Limit(number, why)) => {
                format!("refuses, {theirs} | {number} | {why}")
            }
            Kind::Allowed(Did::Panics, Limit(number, why)) => format!("panics | {number} | {why}"),
        }
    }

    fn is_difference(self) -> bool {
        matches!(self, Kind::WroteFirst(_) | Kind::Allowed(..))
    }
}

/// Differences beyond these are counted and not shown.
const SHOWN: u64 = 20;

#[derive(Default)]
pub struct Tally {
    counts: BTreeMap<(&'static str, Kind), u64>,
    pub calls: u64,
    /// differences that docs/DIFFERENCES.md does not have
    pub others: u64,
}

impl Tally {
    pub fn count(&mut self, call: &'static str, kind: Kind) {
        self.calls += 1;
        *self.counts.entry((call, kind)).or_default() += 1;
    }

    /// A difference that is not allowed: input, the Rust's answer, the proved call's, and whether this one left all as it was.
    pub fn differs(&mut self, call: &'static str, shown: &[&dyn Debug; 4]) {
        self.calls += 1;
        self.others += 1;
        if self.others <= SHOWN {
            let [input, theirs, ours, kept] = shown;
            println!("DIFFERENT {call}\n  input {input:?}\n  Rust  {theirs:?}");
            println!("  here  {ours:?}, all kept: {kept:?}");
        }
    }

    fn sum(&self, wanted: impl Fn(Kind) -> bool) -> u64 {
        self.counts.iter().filter(|((_, kind), _)| wanted(*kind)).map(|(_, count)| count).sum()
    }

    pub fn print(&self) {
        println!("| call | the Rust | here | why | count |\n|---|---|---|---|---|");
        for ((call, kind), count) in &self.counts {
            println!("| {call} | {} | {count} |", kind.cells());
        }
        println!("\n| number | limit | count |\n|---|---|---|");
        for limit in limits::ALL {
            let met = |kind| matches!(kind, Kind::Allowed(_, passed) if passed == limit);
            println!("| {} | {} | {} |", limit.0, limit.1, self.sum(met));
        }
        let wrote = self.sum(|kind| matches!(kind, Kind::WroteFirst(_)));
        println!("| 9, 10 | the Rust has written before it refuses | {wrote} |");
        println!("\ncalls: {}", self.calls);
        println!("equal answers: {}", self.sum(|kind| kind == Kind::SameAnswer));
        println!("equal refusals: {}", self.sum(|kind| matches!(kind, Kind::SameRefusal(_))));
        println!("allowed differences: {}", self.sum(Kind::is_difference));
        println!("other differences: {}", self.others);
    }
}
