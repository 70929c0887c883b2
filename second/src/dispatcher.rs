//! The dispatcher: its five calls, with their questions in the order of their numbers.

use crate::plan::{Card, TASK_NUMBERS};
use crate::rack::{Rack, MOST_LEVEL};
use std::collections::BTreeMap;
use std::fmt;

pub const LAST_CLOCK: u64 = 1_000_000_000;

#[derive(Clone, Copy, Debug, PartialEq, Eq)]
pub enum Call {
    Admit(Card),
    Level { id: u32 },
    Withdraw { id: u32 },
    Release { id: u32, run_time: u32 },
    Tick,
}

#[derive(Clone, Copy, Debug, PartialEq, Eq)]
pub enum Answer {
    Level(u64),
    Passed,
    Tick { given: u64, ran: u32 },
}

#[derive(Clone, Copy, Debug, PartialEq, Eq)]
pub enum Refusal {
    IdTooLarge,
    CardBounds,
    NumberTaken,
    NoLevel { task: u32 },
    NotHeld,
    JobUnfinished,
    RunTime,
    TooSoon,
    ClockAtEnd,
}

impl Refusal {
    pub fn number(self) -> u32 {
        match self {
            Refusal::IdTooLarge => 21,
            Refusal::CardBounds => 22,
            Refusal::NumberTaken => 23,
            Refusal::NoLevel { .. } => 24,
            Refusal::NotHeld => 25,
            Refusal::JobUnfinished => 26,
            Refusal::RunTime => 27,
            Refusal::TooSoon => 28,
            Refusal::ClockAtEnd => 29,
        }
    }
}

impl fmt::Display for Answer {
    fn fmt(&self, f: &mut fmt::Formatter) -> fmt::Result {
        match self {
            Answer::Level(level) => write!(f, "level,{level}"),
            Answer::Passed => write!(f, "passed"),
            Answer::Tick { given, ran } => write!(f, "tick,{given},{ran}"),
        }
    }
}

impl fmt::Display for Refusal {
    fn fmt(&self, f: &mut fmt::Formatter) -> fmt::Result {
        match self {
            Refusal::NoLevel { task } => write!(f, "no,24,{task}"),
            other => write!(f, "no,{}", other.number()),
        }
    }
}

#[derive(Clone, Copy, Debug)]
struct Held {
    card: Card,
    released: Option<u64>,
}

/// An unfinished job; the order of a list of jobs is that of (deadline, id).
#[derive(Clone, Copy, Debug)]
struct Job {
    deadline: u64,
    id: u32,
    lacks: u32,
}

pub struct Dispatcher {
    rack: Rack,
    clock: u64,
    held: BTreeMap<u32, Held>,
    /// The unfinished jobs, sorted.
    jobs: Vec<Job>,
}

impl Dispatcher {
    pub fn new(rack: Rack) -> Dispatcher {
        Dispatcher { rack, clock: 0, held: BTreeMap::new(), jobs: Vec::new() }
    }

    pub fn call(&mut self, call: Call) -> Result<Answer, Refusal> {
        match call {
            Call::Admit(card) => self.admit(card).map(Answer::Level),
            Call::Level { id } => self.ask_level(id).map(Answer::Level),
            Call::Withdraw { id } => self.withdraw(id).map(|()| Answer::Passed),
            Call::Release { id, run_time } => self.release(id, run_time).map(|()| Answer::Passed),
            Call::Tick => self.tick(),
        }
    }

    pub fn admit(&mut self, card: Card) -> Result<u64, Refusal> {
        if card.id >= TASK_NUMBERS {
            return Err(Refusal::IdTooLarge);
        }
        if !card.is_in_bounds() {
            return Err(Refusal::CardBounds);
        }
        if self.held.contains_key(&card.id) {
            return Err(Refusal::NumberTaken);
        }
        let mut set: Vec<Card> = self.cards().chain([card]).collect();
        set.sort_by_key(|card| card.id);
        for one in &set {
            self.witness(one, &set).ok_or(Refusal::NoLevel { task: one.id })?;
        }
        let level = self.witness(&card, &set).expect("every task of the set has a level");
        self.held.insert(card.id, Held { card, released: None });
        Ok(level)
    }

    fn ask_level(&mut self, id: u32) -> Result<u64, Refusal> {
        let card = self.held_task(id)?.card;
        let set: Vec<Card> = self.cards().collect();
        Ok(self.witness(&card, &set).expect("the held tasks have passed the test"))
    }

    fn withdraw(&mut self, id: u32) -> Result<(), Refusal> {
        self.held_task(id)?;
        if self.has_unfinished_jobs() {
            return Err(Refusal::JobUnfinished);
        }
        self.held.remove(&id);
        Ok(())
    }

    fn release(&mut self, id: u32, run_time: u32) -> Result<(), Refusal> {
        let Held { card, released } = *self.held_task(id)?;
        if !(1..=card.c).contains(&run_time) {
            return Err(Refusal::RunTime);
        }
        if released.is_some_and(|release| self.clock < release + u64::from(card.t)) {
            return Err(Refusal::TooSoon);
        }
        self.held.insert(id, Held { card, released: Some(self.clock) });
        self.jobs.retain(|job| job.id != id);
        self.jobs.push(Job { deadline: self.clock + u64::from(card.d), id, lacks: run_time });
        self.jobs.sort_by_key(|job| (job.deadline, job.id));
        Ok(())
    }

    fn tick(&mut self) -> Result<Answer, Refusal> {
        if self.clock >= LAST_CLOCK {
            return Err(Refusal::ClockAtEnd);
        }
        let given = self.rack.given_in(self.clock);
        let mut ran = 0;
        for job in self.jobs.iter_mut().take(given as usize) {
            job.lacks -= 1;
            ran |= 1 << job.id;
        }
        self.jobs.retain(|job| job.lacks > 0);
        self.clock += 1;
        Ok(Answer::Tick { given, ran })
    }

    fn held_task(&self, id: u32) -> Result<&Held, Refusal> {
        if id >= TASK_NUMBERS {
            return Err(Refusal::IdTooLarge);
        }
        self.held.get(&id).ok_or(Refusal::NotHeld)
    }

    /// The smallest level that serves `task` among the tasks of `set`.
    fn witness(&mut self, task: &Card, set: &[Card]) -> Option<u64> {
        let others = set.iter().filter(|other| other.id != task.id);
        let ahead: u64 = others.map(|other| charge(other, task)).sum();
        (1..=MOST_LEVEL).find(|&j| j * u64::from(task.c) + ahead <= self.rack.level(j, u64::from(task.d)))
    }

    pub fn cards(&self) -> impl Iterator<Item = Card> + '_ {
        self.held.values().map(|held| held.card)
    }

    pub fn clock(&self) -> u64 {
        self.clock
    }

    pub fn has_unfinished_jobs(&self) -> bool {
        !self.jobs.is_empty()
    }

    /// The clock from which a held task may be released.
    pub fn free_from(&self, id: u32) -> Option<u64> {
        let held = self.held.get(&id)?;
        Some(held.released.map_or(0, |release| release + u64::from(held.card.t)))
    }
}

/// The work that `i` can do ahead of a job of `k` between that job's release and its deadline.
fn charge(i: &Card, k: &Card) -> u64 {
    u64::from(k.d / i.t * i.c + i.c.min(k.d % i.t))
}
