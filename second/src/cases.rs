//! The cases on which the second program is compared with the proved one: plan texts and shifts, made from a seed.

mod bytes;
mod damage;
mod draft;
mod limits;
mod random;
mod shifts;

pub use random::Random;
pub use shifts::{shifts, ShiftCase};

/// A plan text, and a word on how it came about.
pub struct PlanCase {
    pub kind: String,
    pub text: Vec<u8>,
}

/// The texts at the limits, and then `count` others in turn.
pub fn plans(random: &mut Random, count: usize) -> Vec<PlanCase> {
    let mut cases = limits::texts();
    let mut damages = damage::Damage::ALL.iter().cycle();
    for turn in 0..count {
        cases.push(match turn % 10 {
            0..=3 => PlanCase { kind: "valid".into(), text: draft::text(&draft::plan(random)) },
            4..=6 => damage::damaged(random, *damages.next().expect("a cycle has no end")),
            7 => damage::damaged_twice(random),
            8 => bytes::mutated(random),
            _ => bytes::made_of_bytes(random),
        });
    }
    cases
}

#[cfg(test)]
mod tests {
    use super::*;

    #[test]
    fn every_seed_has_its_cases() {
        let limits = limits::texts().len();
        for seed in 0..100 {
            assert_eq!(plans(&mut Random::new(seed), 1_000).len(), limits + 1_000, "seed {seed}");
        }
    }
}
