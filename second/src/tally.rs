//! What the outputs of the compared programs say, counted.

use crate::dispatcher::Call;
use crate::plan::Plan;
use crate::shift::read_calls;
use std::collections::BTreeMap;
use std::fmt;

/// The causes with the fields that they can name.
const FAULTS: [(u32, &[u32]); 12] = [
    (1, &[0]),
    (2, &[0]),
    (3, &[1]),
    (4, &[0]),
    (5, &[2, 3, 4, 5]),
    (6, &[2]),
    (7, &[3]),
    (8, &[4]),
    (9, &[3]),
    (10, &[0, 1]),
    (11, &[2]),
    (12, &[3, 4, 5]),
];

#[derive(Default)]
pub struct Tally {
    counts: BTreeMap<Kind, usize>,
    longest_listing: usize,
}

/// A kind of line in an output, or of answer of the C entry.
#[derive(Clone, Copy, Debug, PartialEq, Eq, PartialOrd, Ord)]
enum Kind {
    Fault { cause: u32, field: u32 },
    Yes { level: u32 },
    NoItself,
    NoAnother,
    Admitted { level: u32 },
    LevelAnswered { level: u32 },
    Passed(&'static str),
    Tick { given: u32, ran: u32 },
    Refusal { number: u32 },
    RefusalItself,
    RefusalAnother,
    UnreadLine,
    EntryListed,
    EntryRefused,
    EntryWrong,
    Unknown,
}

impl Tally {
    fn count(&mut self, kind: Kind) {
        *self.counts.entry(kind).or_default() += 1;
    }

    /// Counts the lines of a listing. Its text says which task each line is about.
    pub fn count_listing(&mut self, listing: &str, text: &[u8]) {
        self.longest_listing = self.longest_listing.max(listing.len());
        let mut lines = listing.lines();
        let first: Vec<&str> = lines.next().unwrap_or_default().split(',').collect();
        match first.as_slice() {
            ["rack", rows, cycle]
                if Plan::read(text).is_ok_and(|plan| rows.parse() == Ok(plan.rows.len()) && cycle.parse().ok() == plan.cycle()) => {}
            fault => return self.count(fault_kind(fault)),
        }
        for line in lines {
            let fields: Vec<&str> = line.split(',').collect();
            self.count(match fields.as_slice() {
                [_, "yes", level] => Kind::Yes { level: number(level) },
                [id, "no", task] if id == task => Kind::NoItself,
                [_, "no", _] => Kind::NoAnother,
                _ => Kind::Unknown,
            });
        }
    }

    /// Counts the answers of a shift beside the calls that they answer.
    pub fn count_answers(&mut self, answers: &str, calls: &[u8]) {
        let calls = read_calls(calls).unwrap_or_default();
        if answers.starts_with("fault,") {
            let fields: Vec<&str> = answers.trim_end().split(',').collect();
            return self.count(if fields.len() == 2 { Kind::UnreadLine } else { fault_kind(&fields) });
        }
        for (call, answer) in calls.iter().zip(answers.lines()) {
            let fields: Vec<&str> = answer.split(',').collect();
            self.count(answer_kind(call, &fields));
            if let (Call::Admit(card), ["no", "24", task]) = (call, fields.as_slice()) {
                self.count(if number(task) == card.id { Kind::RefusalItself } else { Kind::RefusalAnother });
            }
        }
    }

    /// Counts an answer of the C entry.
    pub fn count_entry(&mut self, size: usize, length: u64) {
        self.count(match length {
            0 if size < 512 => Kind::EntryRefused,
            1..=299 if size >= 512 => Kind::EntryListed,
            _ => Kind::EntryWrong,
        });
    }

    fn of(&self, kind: Kind) -> usize {
        self.counts.get(&kind).copied().unwrap_or(0)
    }

    /// The kinds that the rules know and that did not occur, and those that must not occur and did.
    pub fn missing(&self) -> Vec<String> {
        let faults = FAULTS.iter().flat_map(|&(cause, fields)| fields.iter().map(move |&field| Kind::Fault { cause, field }));
        let levels = (1..=8).flat_map(|level| [Kind::Yes { level }, Kind::Admitted { level }, Kind::LevelAnswered { level }]);
        let refusals = (21..=28).map(|number| Kind::Refusal { number });
        let others = [
            Kind::NoItself,
            Kind::NoAnother,
            Kind::RefusalItself,
            Kind::RefusalAnother,
            Kind::Passed("withdrawal"),
            Kind::Passed("release"),
            Kind::UnreadLine,
            Kind::EntryListed,
            Kind::EntryRefused,
        ];
        let wanted = faults.chain(levels).chain(refusals).chain(others);
        let missing = wanted.filter(|&kind| self.of(kind) == 0).map(|kind| kind.to_string());
        let wrong = [Kind::Unknown, Kind::EntryWrong].into_iter().filter(|&kind| self.of(kind) > 0);
        missing.chain(wrong.map(|kind| format!("an end to '{kind}'"))).collect()
    }
}

fn number(field: &str) -> u32 {
    field.parse().unwrap_or(u32::MAX)
}

fn fault_kind(fields: &[&str]) -> Kind {
    match fields {
        ["fault", cause, _, field] => Kind::Fault { cause: number(cause), field: number(field) },
        _ => Kind::Unknown,
    }
}

fn answer_kind(call: &Call, fields: &[&str]) -> Kind {
    match (call, fields) {
        (Call::Admit(_), ["level", level]) => Kind::Admitted { level: number(level) },
        (Call::Level { .. }, ["level", level]) => Kind::LevelAnswered { level: number(level) },
        (Call::Withdraw { .. }, ["passed"]) => Kind::Passed("withdrawal"),
        (Call::Release { .. }, ["passed"]) => Kind::Passed("release"),
        (Call::Tick, ["tick", given, ran]) => Kind::Tick { given: number(given), ran: number(ran).count_ones() },
        (_, ["no", refusal, ..]) => Kind::Refusal { number: number(refusal) },
        _ => Kind::Unknown,
    }
}

impl fmt::Display for Kind {
    fn fmt(&self, f: &mut fmt::Formatter) -> fmt::Result {
        match self {
            Kind::Fault { cause, field } => write!(f, "fault {cause}, field {field}"),
            Kind::Yes { level } => write!(f, "listing: yes, level {level}"),
            Kind::NoItself => write!(f, "listing: no, naming the task itself"),
            Kind::NoAnother => write!(f, "listing: no, naming another task"),
            Kind::Admitted { level } => write!(f, "shift: admitted, level {level}"),
            Kind::LevelAnswered { level } => write!(f, "shift: level question, level {level}"),
            Kind::Passed(call) => write!(f, "shift: {call} passed"),
            Kind::Tick { given, ran } => write!(f, "shift: tick, {given} given, {ran} ran"),
            Kind::Refusal { number } => write!(f, "shift: refusal {number}"),
            Kind::RefusalItself => write!(f, "shift: refusal 24 naming the new task"),
            Kind::RefusalAnother => write!(f, "shift: refusal 24 naming another task"),
            Kind::UnreadLine => write!(f, "shift: a line that cannot be read"),
            Kind::EntryListed => write!(f, "C entry: a listing"),
            Kind::EntryRefused => write!(f, "C entry: 0 in the place of refusal 30"),
            Kind::EntryWrong => write!(f, "C entry: a length that cannot be"),
            Kind::Unknown => write!(f, "a line of no known form"),
        }
    }
}

impl fmt::Display for Tally {
    fn fmt(&self, f: &mut fmt::Formatter) -> fmt::Result {
        for cause in FAULTS.map(|(cause, _)| cause) {
            let of_cause = |kind: &Kind| matches!(kind, Kind::Fault { cause: c, .. } if *c == cause);
            let total: usize = self.counts.iter().filter(|(kind, _)| of_cause(kind)).map(|(_, count)| count).sum();
            writeln!(f, "{total:9}  fault {cause}")?;
        }
        for (kind, count) in &self.counts {
            // There are too many kinds of ticks to list each.
            if !matches!(kind, Kind::Tick { .. }) {
                writeln!(f, "{count:9}  {kind}")?;
            }
        }
        self.write_ticks(f)?;
        writeln!(f, "{:9}  bytes in the longest listing", self.longest_listing)
    }
}

impl Tally {
    fn write_ticks(&self, f: &mut fmt::Formatter) -> fmt::Result {
        let (mut all, mut short) = (0, 0);
        for (kind, count) in &self.counts {
            if let Kind::Tick { given, ran } = kind {
                all += count;
                short += if *given > 0 && given == ran { *count } else { 0 };
            }
        }
        writeln!(f, "{all:9}  shift: ticks")?;
        writeln!(f, "{short:9}  shift: ticks that used every processor given, at least one")
    }
}
