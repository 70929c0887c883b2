//! The dispatcher. For each task the load and the largest load that a level bears are kept, so that an admission is one sum and one
//! comparison for each task that is held; unfinished jobs are kept in the order in which they run.

use crate::plan::{Card, TASKS};
use crate::rack::{Rack, LEVELS};

/// Room for the list of jobs to move backwards as jobs finish at its front.
const PLACES: usize = 256;

#[derive(Clone, Copy, Debug, PartialEq, Eq)]
pub enum Refusal {
    NumberTooLarge,
    BadCard,
    NumberTaken,
    NoLevel(u32),
    NotHeld,
    BadRunTime,
    TooSoon,
    ClockAtEnd,
}

#[derive(Clone, Copy)]
struct Held {
    card: Card,
    /// The charges of all other tasks.
    load: u32,
    /// The largest load with which some level serves the task; negative if there is none.
    bears: i32,
    /// The clock from which it may be released.
    free_from: u32,
}

pub struct Dispatcher {
    rack: Rack,
    clock: u32,
    held: u32,
    tasks: [Held; TASKS],
    /// The unfinished jobs, from `first` to before `end`, ascending: deadline, id (5 bits) and the ticks that it lacks
    /// (13 bits) in one number.
    jobs: [u64; PLACES],
    first: usize,
    end: usize,
}

/// The work that `i` can do ahead of a job of `k`.
#[inline]
fn charge(i: &Card, k: &Card) -> u32 {
    let periods = k.d / i.t;
    periods * i.c + i.c.min(k.d - periods * i.t)
}

impl Dispatcher {
    pub fn new(rack: Rack) -> Dispatcher {
        let free = Held { card: Card::default(), load: 0, bears: 0, free_from: 0 };
        Dispatcher { rack, clock: 0, held: 0, tasks: [free; TASKS], jobs: [0; PLACES], first: 0, end: 0 }
    }

    fn holds(&self, id: u32) -> bool {
        self.held >> id & 1 == 1
    }

    pub fn admit(&mut self, card: Card) -> Result<u32, Refusal> {
        if card.id >= TASKS as u32 {
            return Err(Refusal::NumberTooLarge);
        }
        if card.c < 1 || card.c > card.d || card.d > card.t || card.t > 4_096 {
            return Err(Refusal::BadCard);
        }
        if self.holds(card.id) {
            return Err(Refusal::NumberTaken);
        }
        let levels = self.rack.levels(card.d);
        let bears: [i32; LEVELS] = std::array::from_fn(|lane| levels[lane] as i32 - (lane as i32 + 1) * card.c as i32);
        let most = bears.iter().copied().fold(i32::MIN, i32::max);
        let mut new_loads = [0; TASKS];
        let mut load = 0;
        let mut unserved = 0;
        for id in bits(self.held) {
            let other = &self.tasks[id];
            load += charge(&other.card, &card);
            new_loads[id] = other.load + charge(&card, &other.card);
            unserved |= u32::from(new_loads[id] as i32 > other.bears) << id;
        }
        unserved |= u32::from(load as i32 > most) << card.id;
        if unserved != 0 {
            return Err(Refusal::NoLevel(unserved.trailing_zeros()));
        }
        for id in bits(self.held) {
            self.tasks[id].load = new_loads[id];
        }
        self.tasks[card.id as usize] = Held { card, load, bears: most, free_from: 0 };
        self.held |= 1 << card.id;
        let level = bears.iter().position(|&bears| load as i32 <= bears).map_or(0, |lane| lane + 1);
        Ok(level as u32)
    }

    #[inline]
    pub fn release(&mut self, id: u32, run_time: u32) -> Result<(), Refusal> {
        if id >= TASKS as u32 {
            return Err(Refusal::NumberTooLarge);
        }
        if !self.holds(id) {
            return Err(Refusal::NotHeld);
        }
        let task = &mut self.tasks[id as usize];
        if run_time < 1 || run_time > task.card.c {
            return Err(Refusal::BadRunTime);
        }
        if self.clock < task.free_from {
            return Err(Refusal::TooSoon);
        }
        task.free_from = self.clock + task.card.t;
        let job = u64::from(self.clock + task.card.d) << 18 | u64::from(id) << 13 | u64::from(run_time);
        self.insert(job);
        Ok(())
    }

    /// A task that may be released has no unfinished job: no admitted job is late, and no deadline is above its period.
    #[inline]
    fn insert(&mut self, job: u64) {
        if self.end == PLACES {
            self.jobs.copy_within(self.first.., 0);
            self.end -= self.first;
            self.first = 0;
        }
        let mut place = self.end;
        while place > self.first && self.jobs[place - 1] > job {
            self.jobs[place] = self.jobs[place - 1];
            place -= 1;
        }
        self.jobs[place] = job;
        self.end += 1;
    }

    #[inline]
    pub fn tick(&mut self) -> Result<(u32, u32), Refusal> {
        if self.clock >= 1_000_000_000 {
            return Err(Refusal::ClockAtEnd);
        }
        self.clock += 1;
        let given = self.rack.draw();
        let last = self.end.min(self.first + given as usize);
        let mut word = 0;
        let mut left = last;
        // From behind, so that those that still lack something close up to the rest.
        for place in (self.first..last).rev() {
            let job = self.jobs[place % PLACES] - 1;
            word |= 1 << ((job >> 13) % 32);
            self.jobs[(left - 1) % PLACES] = job;
            left -= usize::from(job & 0x1fff != 0);
        }
        self.first = left;
        Ok((given, word))
    }
}

/// The places of the bits that are set, in ascending order.
fn bits(mut word: u32) -> impl Iterator<Item = usize> {
    std::iter::from_fn(move || {
        let place = word.trailing_zeros();
        (word != 0).then(|| {
            word &= word - 1;
            place as usize
        })
    })
}
