//! Shifts: lists of calls over the racks of plans. The calls are steered by a dispatcher that is carried along, so that
//! tasks are released when they can be, or just before, and withdrawals pass as well as fail.

use super::damage::{damaged, Damage};
use super::draft::{self, Style};
use super::random::Random;
use crate::dispatcher::{Call, Dispatcher};
use crate::plan::{Card, Plan, MOST_NUMBER};
use crate::rack::Rack;
use crate::shift::MOST_CALLS;

pub struct ShiftCase {
    pub kind: String,
    pub plan: Vec<u8>,
    pub calls: Vec<u8>,
}

const LEAST_LINES: usize = 500;
const BAD_IDS: [u32; 6] = [32, 33, 255, 256, 65_536, u32::MAX];

/// `count` shifts that are carried out, and a few more that cannot be.
pub fn shifts(random: &mut Random, count: usize) -> Vec<ShiftCase> {
    let mut cases: Vec<ShiftCase> = (0..count).map(|_| busy_shift(random)).collect();
    for bad_line in BAD_LINES {
        cases.push(unread_shift(random, bad_line));
    }
    for &damage in &Damage::ALL {
        cases.push(shift_over_fault(random, damage));
    }
    cases.extend(longest_shifts());
    cases
}

fn busy_shift(random: &mut Random) -> ShiftCase {
    let lines = loop {
        let lines = draft::rows(random);
        // Most racks give enough for several tasks.
        if mean_supply(&lines) >= 1.0 || random.chance(15) {
            break lines;
        }
    };
    let mut plan = draft::text(&lines);
    if random.chance(30) {
        plan.extend(b"T,7,1,100,100\nT,3,2,9,8\n");
    }
    let rack = Rack::new(&Plan::read(&plan).expect("a draft has no fault"));
    let style = match random.below(4) {
        0 => Style::pick(random),
        1 => Style::pick_equal(random, 120),
        _ => Style::Short,
    };
    let mut shift = Steered { random, dispatcher: Dispatcher::new(rack), style, lines: Vec::new() };
    for _ in 0..40 {
        shift.admit();
    }
    while shift.lines.len() < LEAST_LINES {
        shift.step();
    }
    ShiftCase { kind: "busy".into(), plan, calls: shift.lines.concat().into() }
}

/// How many processors the rows give in a tick, on average.
fn mean_supply(rows: &[draft::Line]) -> f64 {
    let share = |marks: &Vec<u8>| marks.iter().filter(|&&b| b == b'1').count() as f64 / marks.len() as f64;
    rows.iter().map(|row| share(&row[3])).sum()
}

struct Steered<'a> {
    random: &'a mut Random,
    dispatcher: Dispatcher,
    style: Style,
    lines: Vec<String>,
}

impl Steered<'_> {
    fn step(&mut self) {
        match self.random.below(100) {
            0..=5 => self.admit(),
            6..=8 => self.ask_level(),
            9..=10 => self.withdraw(),
            11..=12 => self.withdraw_when_idle(),
            13..=16 => self.release_badly(),
            17..=20 => self.call_with_bad_numbers(),
            21..=64 => self.release_or_tick(),
            65..=84 => self.tick(1),
            85..=92 => {
                let ticks = self.random.spread(1, 60);
                self.tick(ticks);
            }
            _ => self.tick_up_to_a_period(),
        }
    }

    fn put(&mut self, call: Call) {
        self.lines.push(match call {
            Call::Admit(Card { id, c, t, d }) => format!("admit,{id},{c},{t},{d}\n"),
            Call::Level { id } => format!("level,{id}\n"),
            Call::Withdraw { id } => format!("withdraw,{id}\n"),
            Call::Release { id, run_time } => format!("release,{id},{run_time}\n"),
            Call::Tick => "tick\n".into(),
        });
        // Only what the dispatcher holds afterwards is of interest here.
        let _ = self.dispatcher.call(call);
    }

    fn tick(&mut self, times: u32) {
        if times == 1 {
            return self.put(Call::Tick);
        }
        self.lines.push(format!("tick,{times}\n"));
        for _ in 0..times {
            let _ = self.dispatcher.call(Call::Tick);
        }
    }

    fn held(&self) -> Vec<Card> {
        self.dispatcher.cards().collect()
    }

    /// A held task, or any number if there is none.
    fn held_id(&mut self) -> u32 {
        let ids: Vec<u32> = self.held().iter().map(|card| card.id).collect();
        if ids.is_empty() {
            self.random.between(0, 31)
        } else {
            self.random.pick(&ids)
        }
    }

    fn admit(&mut self) {
        let id = self.random.between(0, 31);
        let style = if self.random.chance(10) { Style::Mixed } else { self.style };
        let card = style.card(self.random, id);
        self.put(Call::Admit(card));
    }

    fn ask_level(&mut self) {
        let id = if self.random.chance(80) { self.held_id() } else { self.random.between(0, 31) };
        self.put(Call::Level { id });
    }

    fn withdraw(&mut self) {
        let id = if self.random.chance(80) { self.held_id() } else { self.random.between(0, 31) };
        self.put(Call::Withdraw { id });
    }

    fn withdraw_when_idle(&mut self) {
        let mut ticks = 0;
        while self.dispatcher.has_unfinished_jobs() {
            ticks += 1;
            let _ = self.dispatcher.call(Call::Tick);
        }
        if ticks > 0 {
            self.lines.push(format!("tick,{ticks}\n"));
        }
        for _ in 0..self.random.between(1, 3) {
            self.withdraw();
        }
        self.admit();
    }

    /// Releases a task whose period is over, if there is one.
    fn release_or_tick(&mut self) {
        let clock = self.dispatcher.clock();
        let is_ready = |card: &Card| self.dispatcher.free_from(card.id).is_some_and(|from| from <= clock);
        let ready: Vec<Card> = self.held().into_iter().filter(is_ready).collect();
        if ready.is_empty() {
            return self.tick(1);
        }
        let card = self.random.pick(&ready);
        let run_time = if self.random.chance(75) { card.c } else { self.random.between(1, card.c) };
        self.put(Call::Release { id: card.id, run_time });
    }

    /// A release that is too soon, of a run time that is none of the task's, or of a task that is not held.
    fn release_badly(&mut self) {
        let held = self.held();
        if held.is_empty() || self.random.chance(20) {
            let id = self.random.between(0, 31);
            return self.put(Call::Release { id, run_time: 1 });
        }
        let card = self.random.pick(&held);
        let run_time = self.random.pick(&[card.c, card.c, 0, card.c + 1, u32::MAX]);
        self.put(Call::Release { id: card.id, run_time });
    }

    fn call_with_bad_numbers(&mut self) {
        let id = if self.random.chance(60) { self.random.pick(&BAD_IDS) } else { self.held_id() };
        let bad_cards =
            [[0, 1, 1], [2, 9, 1], [1, 8, 9], [1, 4_097, 1], [1, 4_096, 0], [1, 0, 0], [u32::MAX; 3], [1, 65_537, 1], [1, 9, 9]];
        let [c, t, d] = self.random.pick(&bad_cards);
        let call = match self.random.below(4) {
            0 => Call::Level { id },
            1 => Call::Withdraw { id },
            2 => Call::Release { id, run_time: c },
            _ => Call::Admit(Card { id, c, t, d }),
        };
        self.put(call);
    }

    /// Ticks until one before a task may be released again, tries, and tries again one tick later.
    fn tick_up_to_a_period(&mut self) {
        let held = self.held();
        if held.is_empty() {
            return self.admit();
        }
        let Card { id, c: run_time, .. } = self.random.pick(&held);
        let free_from = self.dispatcher.free_from(id).unwrap_or(0);
        match free_from.checked_sub(self.dispatcher.clock()) {
            Some(wait @ 2..=200) => {
                self.tick(wait as u32 - 1);
                self.put(Call::Release { id, run_time });
                self.tick(1);
            }
            _ => self.tick(1),
        }
        self.put(Call::Release { id, run_time });
    }
}

const BAD_LINES: [&str; 22] = [
    "",
    "ticks",
    "Tick",
    "tick,",
    "tick,0",
    "tick,65536",
    "tick,1,1",
    "tick,01",
    "tick ",
    " tick",
    "tick\r",
    "admit,1,1,9",
    "admit,1,1,9,9,9",
    "admit,1,,9,9",
    "level",
    "level,",
    "level,4294967296",
    "level,-1",
    "withdraw,00",
    "release,1",
    "release,1,1,1",
    "release,1,99999999999999999999",
];

/// A shift in which one line, first, last or between, cannot be read.
fn unread_shift(random: &mut Random, bad_line: &str) -> ShiftCase {
    let ShiftCase { plan, calls, .. } = busy_shift(random);
    let mut lines: Vec<&[u8]> = calls.split_inclusive(|&b| b == b'\n').collect();
    let bad_line = format!("{bad_line}\n");
    let place = random.pick(&[0, lines.len() / 2, lines.len()]);
    lines.insert(place, bad_line.as_bytes());
    ShiftCase { kind: "unread".into(), plan, calls: lines.concat() }
}

/// A shift over a plan at fault; some have a line that cannot be read besides.
fn shift_over_fault(random: &mut Random, damage: Damage) -> ShiftCase {
    let plan = damaged(random, damage).text;
    let calls: &str = random.pick(&["tick\n", "tick\nlevel\n", "", "admit,0,1,9,9\nrelease,0,1\ntick,9\n"]);
    ShiftCase { kind: format!("over-{damage:?}"), plan, calls: calls.into() }
}

/// Shifts of as many calls as there may be, of one more, and with a last line that does not end.
fn longest_shifts() -> Vec<ShiftCase> {
    let full_runs = MOST_CALLS / MOST_NUMBER as usize;
    let rest = MOST_CALLS - full_runs * MOST_NUMBER as usize;
    let longest = format!("{}tick,{rest}\n", format!("tick,{MOST_NUMBER}\n").repeat(full_runs));
    let one_more = format!("{longest}tick\n");
    let unread_behind = format!("{one_more}ticks\n");
    let unended = "admit,3,1,4,2\nrelease,3,1\ntick";
    let unended_run = "tick,5";
    [
        ("longest", longest.as_str()),
        ("one-more", &one_more),
        ("one-more-unread", &unread_behind),
        ("unended", unended),
        ("unended-run", unended_run),
    ]
    .map(|(kind, calls)| ShiftCase { kind: kind.into(), plan: b"S,0,3,101\nS,1,2,10\n".to_vec(), calls: calls.into() })
    .into()
}
