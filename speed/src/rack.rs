//! The slot rack: running sums of all eight levels side by side, and the least windows that were asked for, kept.

use crate::plan::{Plan, Row};

const MOST_CYCLE: usize = 512;
pub const LEVELS: usize = 8;

/// A number for each of the levels from 1 to 8. Sums over a cycle are at most 4,096.
pub type Lanes = [i16; LEVELS];

const CUTS: Lanes = [1, 2, 3, 4, 5, 6, 7, 8];

pub struct Rack {
    cycle: usize,
    given: [u8; MOST_CYCLE],
    /// At k: what the first k ticks of a cycle give.
    sums: [Lanes; MOST_CYCLE + 1],
    /// The least windows of those lengths below a cycle that were asked for before, which `known` has a bit for.
    least: [Lanes; MOST_CYCLE],
    known: [u64; MOST_CYCLE / 64],
    tick: usize,
}

impl Rack {
    pub fn new(plan: &Plan) -> Rack {
        let cycle = plan.cycle;
        let mut given = [0; MOST_CYCLE];
        for row in plan.rows() {
            add_row(&mut given[..cycle], row);
        }
        let mut sums = [[0; LEVELS]; MOST_CYCLE + 1];
        let mut sum = [0; LEVELS];
        for (place, &g) in sums[1..].iter_mut().zip(&given[..cycle]) {
            for (lane, cut) in sum.iter_mut().zip(CUTS) {
                *lane += i16::from(g).min(cut);
            }
            *place = sum;
        }
        Rack { cycle, given, sums, least: [[0; LEVELS]; MOST_CYCLE], known: [0; MOST_CYCLE / 64], tick: 0 }
    }

    #[inline]
    pub fn draw(&mut self) -> u32 {
        let given = self.given[self.tick];
        self.tick += 1;
        if self.tick == self.cycle {
            self.tick = 0;
        }
        u32::from(given)
    }

    /// All levels at length n.
    #[inline]
    pub fn levels(&mut self, n: u32) -> [u32; LEVELS] {
        let (cycles, rest) = (n / self.cycle as u32, n as usize % self.cycle);
        let least = *self.least_windows(rest);
        let whole = &self.sums[self.cycle];
        std::array::from_fn(|lane| cycles * whole[lane] as u32 + least[lane] as u32)
    }

    /// Level j, from 1 to 8, at length n.
    #[inline]
    pub fn level(&mut self, j: u32, n: u32) -> u32 {
        let lane = j as usize - 1;
        let (cycles, rest) = (n / self.cycle as u32, n as usize % self.cycle);
        cycles * self.sums[self.cycle][lane] as u32 + self.least_windows(rest)[lane] as u32
    }

    #[inline]
    fn least_windows(&mut self, length: usize) -> &Lanes {
        if self.known[length / 64] >> (length % 64) & 1 == 0 {
            self.find_least_windows(length);
        }
        &self.least[length]
    }

    #[inline(never)]
    fn find_least_windows(&mut self, length: usize) {
        let sums = &self.sums[..=self.cycle];
        // Windows within the cycle, and those that go on at its start: what these leave out is taken from a whole cycle.
        let within = least_difference(&sums[length..], sums);
        let left_out = greatest_difference(&sums[length.min(1)..length], &sums[self.cycle - length + 1..]);
        let whole = sums[self.cycle];
        self.least[length] = std::array::from_fn(|lane| within[lane].min(whole[lane] - left_out[lane]));
        self.known[length / 64] |= 1 << (length % 64);
    }
}

/// The least of the differences of ends and starts in their order, lane by lane.
#[inline]
fn least_difference(ends: &[Lanes], starts: &[Lanes]) -> Lanes {
    let mut least = [i16::MAX; LEVELS];
    for (end, start) in ends.iter().zip(starts) {
        for lane in 0..LEVELS {
            least[lane] = least[lane].min(end[lane] - start[lane]);
        }
    }
    least
}

/// The greatest difference of starts and ends, lane by lane; 0 where there are none.
#[inline]
fn greatest_difference(ends: &[Lanes], starts: &[Lanes]) -> Lanes {
    let mut greatest = [0; LEVELS];
    for (end, start) in ends.iter().zip(starts) {
        for lane in 0..LEVELS {
            greatest[lane] = greatest[lane].max(start[lane] - end[lane]);
        }
    }
    greatest
}

/// Counts one row more. Its marks are first repeated up to the cycle, twice as many with each copy, so that counting takes long strides.
fn add_row(given: &mut [u8], row: &Row) {
    let mut marks = [0; MOST_CYCLE];
    marks[..row.period].copy_from_slice(&row.marks[..row.period]);
    let mut filled = row.period;
    while filled < given.len() {
        let more = filled.min(MOST_CYCLE - filled);
        marks.copy_within(..more, filled);
        filled += more;
    }
    for (count, mark) in given.iter_mut().zip(&marks) {
        *count += mark;
    }
}
