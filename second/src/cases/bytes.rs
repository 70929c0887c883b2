//! Texts that no writer of plans would write.

use super::draft;
use super::random::Random;
use super::PlanCase;

/// A plan with a few bytes or lines changed, taken out, put in or exchanged.
pub fn mutated(random: &mut Random) -> PlanCase {
    let mut text = draft::text(&draft::plan(random));
    for _ in 0..random.between(1, 3) {
        let place = random.below(text.len().max(1));
        match random.below(5) {
            0 if !text.is_empty() => text[place] = random.pick(b"ST,01239\n\r \x00\xff"),
            1 if !text.is_empty() => text[place] = random.below(256) as u8,
            2 if !text.is_empty() => drop(text.remove(place)),
            3 => exchange_lines(random, &mut text),
            _ => text.insert(place, random.pick(b"ST,019\n\r ")),
        }
    }
    PlanCase { kind: "mutated".into(), text }
}

fn exchange_lines(random: &mut Random, text: &mut Vec<u8>) {
    let mut lines: Vec<Vec<u8>> = text.split_inclusive(|&b| b == b'\n').map(<[u8]>::to_vec).collect();
    if lines.len() > 1 {
        let place = random.below(lines.len() - 1);
        lines.swap(place, place + 1);
        *text = lines.concat();
    }
}

/// Bytes of all kinds, bytes of plans, or words of plans, in any order.
pub fn made_of_bytes(random: &mut Random) -> PlanCase {
    let length = random.spread(1, 9_000) as usize - 1;
    let (kind, text) = match random.below(3) {
        0 => ("bytes", (0..length).map(|_| random.below(256) as u8).collect()),
        1 => ("letters", (0..length % 200).map(|_| random.pick(b"ST,,01\n\n")).collect()),
        _ => ("words", words(random, length % 60)),
    };
    PlanCase { kind: kind.into(), text }
}

fn words(random: &mut Random, count: usize) -> Vec<u8> {
    let words = ["S,0,1,1\n", "S,1,2,10\n", "S,", "T,", "T,0,1,2,1\n", "T,1,1,9,9\n", "0,", "1,", "64,", "4096,", "1\n", "\n"];
    let start = if random.chance(70) { "S,0,1,1\n" } else { "" };
    let rest = (0..count).map(|_| random.pick(&words));
    [start].into_iter().chain(rest).collect::<String>().into_bytes()
}
