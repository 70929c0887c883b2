//! The slot rack of a plan: what each tick gives, and what every stretch of ticks is sure to contain.

use crate::plan::Plan;
use std::collections::HashMap;

pub const MOST_LEVEL: u64 = 8;

pub struct Rack {
    /// g(x) for the ticks of one cycle.
    given: Vec<u64>,
    /// The levels already worked out, by (j, n).
    known: HashMap<(u64, u64), u64>,
}

impl Rack {
    /// The rack of a plan that passed its questions.
    pub fn new(plan: &Plan) -> Rack {
        let cycle = plan.cycle().expect("a plan that was read has a cycle") as usize;
        let rows_that_give = |x| plan.rows.iter().filter(|row| row.gives(x)).count() as u64;
        Rack { given: (0..cycle).map(rows_that_give).collect(), known: HashMap::new() }
    }

    pub fn cycle(&self) -> usize {
        self.given.len()
    }

    pub fn given_in(&self, tick: u64) -> u64 {
        self.given[(tick % self.cycle() as u64) as usize]
    }

    /// Level j at n: the least that n ticks one after another contain, each cut to j.
    pub fn level(&mut self, j: u64, n: u64) -> u64 {
        if let Some(&least) = self.known.get(&(j, n)) {
            return least;
        }
        let least = self.least_window(j, n);
        self.known.insert((j, n), least);
        least
    }

    /// Sums the window at start 0 tick by tick, and moves it on through the starts of one cycle: one tick leaves, one enters.
    fn least_window(&self, j: u64, n: u64) -> u64 {
        let cut = |x| self.given_in(x).min(j);
        let mut sum: u64 = (0..n).map(cut).sum();
        let mut least = sum;
        for start in 0..self.cycle() as u64 {
            sum = sum + cut(start + n) - cut(start);
            least = least.min(sum);
        }
        least
    }
}

#[cfg(test)]
mod tests {
    use super::*;

    #[test]
    fn moved_windows_are_windows() {
        let plan = Plan::read(b"S,0,6,110100\nS,1,4,1000\nS,2,1,1\nS,3,5,01100\n").unwrap();
        let mut rack = Rack::new(&plan);
        assert_eq!(rack.cycle(), 60);
        for j in 0..=MOST_LEVEL {
            for n in 0..200 {
                let window = |start| (start..start + n).map(|x| rack.given_in(x).min(j)).sum::<u64>();
                let least = (0..60).map(window).min().unwrap();
                assert_eq!(rack.level(j, n), least, "level {j} at {n}");
            }
        }
    }
}
