//! Plans as lists of lines of fields, so that single fields can be damaged.

use super::random::Random;
use crate::plan::{Card, MOST_CYCLE, MOST_PERIOD, MOST_TICKS};

pub type Line = Vec<Vec<u8>>;

pub fn text(lines: &[Line]) -> Vec<u8> {
    lines.iter().flat_map(|line| [line.join(&b','), b"\n".to_vec()].concat()).collect()
}

pub fn row_line(n: usize, marks: &[u8]) -> Line {
    vec![b"S".to_vec(), n.to_string().into(), marks.len().to_string().into(), marks.to_vec()]
}

pub fn card_line(card: &Card) -> Line {
    let numbers = [card.id, card.c, card.t, card.d];
    let fields = numbers.iter().map(|number| number.to_string().into_bytes());
    [b"T".to_vec()].into_iter().chain(fields).collect()
}

/// A plan without fault, of any shape.
pub fn plan(random: &mut Random) -> Vec<Line> {
    let mut lines = rows(random);
    let cards = random.pick(&[0, 1, 2, 3, 5, 8, 12, 20, 31, 32]);
    let style = Style::pick(random);
    let mut ids: Vec<u32> = (0..32).collect();
    random.shuffle(&mut ids);
    lines.extend(ids.iter().take(cards).map(|&id| card_line(&style.card(random, id))));
    lines
}

/// The rows of a plan: their periods divide one cycle of at most 512 ticks.
pub fn rows(random: &mut Random) -> Vec<Line> {
    let count = random.between(1, 8) as usize;
    let favourites = [510, 504, 480, 420, 360, 256, 192, 120, 64, 60, 12, 8, 1];
    let cycle = if random.chance(50) { random.pick(&favourites) } else { random.between(1, MOST_CYCLE) };
    let divisors: Vec<u32> = (1..=MOST_PERIOD).filter(|p| cycle % p == 0).collect();
    let density = random.pick(&[100, 100, 95, 80, 50, 25, 5, 0]);
    let in_a_burst = random.chance(40);
    (0..count)
        .map(|n| {
            let period = random.pick(&divisors) as usize;
            row_line(n, &marks(random, period, density, in_a_burst))
        })
        .collect()
}

fn marks(random: &mut Random, period: usize, density: usize, in_a_burst: bool) -> Vec<u8> {
    let burst = (period * density).div_ceil(100);
    let mark = |place| if in_a_burst { place < burst } else { random.chance(density) };
    (0..period).map(mark).map(|gives| if gives { b'1' } else { b'0' }).collect()
}

/// How the cards of one plan or shift are made.
#[derive(Clone, Copy, Debug)]
pub enum Style {
    /// Short run times in long deadlines: many fit.
    Loose,
    /// Run times close to deadlines.
    Tight,
    /// Anything within the bounds.
    Mixed,
    /// Equal periods and equal shares, so that levels rise with each admission.
    Equal { t: u32, c: u32 },
    /// Times of at most some ten ticks: busy shifts.
    Short,
}

impl Style {
    pub fn pick(random: &mut Random) -> Style {
        match random.below(6) {
            0 => Style::Loose,
            1 => Style::Tight,
            2 => Style::Mixed,
            3 => Style::Short,
            _ => Style::pick_equal(random, MOST_TICKS),
        }
    }

    pub fn pick_equal(random: &mut Random, most: u32) -> Style {
        let t = random.spread(6, most);
        let share = random.pick(&[2, 3, 4, 5, 6, 8]);
        Style::Equal { t, c: (t / share).max(1) }
    }

    pub fn card(self, random: &mut Random, id: u32) -> Card {
        let (c, t, d) = match self {
            Style::Loose => {
                let t = random.spread(100, MOST_TICKS);
                let d = random.between(t / 2, t);
                (random.spread(1, d / 20), t, d)
            }
            Style::Tight => {
                let t = random.spread(1, MOST_TICKS);
                let d = random.spread(1, t);
                (random.between(d.div_ceil(2), d), t, d)
            }
            Style::Mixed => {
                let t = random.spread(1, MOST_TICKS);
                let d = random.between(1, t);
                (random.spread(1, d), t, d)
            }
            Style::Equal { t, c } => (random.between(c.div_ceil(2), c), t, t - random.below(3) as u32),
            Style::Short => {
                let t = random.spread(4, 80);
                let d = random.between(t.div_ceil(2), t);
                (random.between(1, d.div_ceil(6)), t, d)
            }
        };
        Card { id, c, t, d }
    }
}

#[cfg(test)]
mod tests {
    use super::*;
    use crate::plan::Plan;

    #[test]
    fn drafts_have_no_fault() {
        let mut random = Random::new(7);
        for _ in 0..2_000 {
            let text = text(&plan(&mut random));
            assert!(Plan::read(&text).is_ok(), "{}", String::from_utf8_lossy(&text));
        }
    }
}
