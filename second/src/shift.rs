//! A list of calls over a plan's rack, and the answers to them.

use crate::dispatcher::{Call, Dispatcher};
use crate::number::decimal;
use crate::plan::{Card, Plan, MOST_NUMBER};
use crate::rack::Rack;

/// The most calls of a shift, ticks counted one by one.
pub const MOST_CALLS: usize = 4_000_000;

/// What is printed for a plan text and a text of calls.
pub fn answers(plan: &[u8], calls: &[u8]) -> String {
    let plan = match Plan::read(plan) {
        Ok(plan) => plan,
        Err(fault) => return format!("{fault}\n"),
    };
    match read_calls(calls) {
        Ok(calls) => carry_out(&plan, &calls),
        Err(UnreadLine(line)) => format!("fault,{line}\n"),
    }
}

/// The number of the first line, counted from 1, that cannot be read.
#[derive(Clone, Copy, Debug, PartialEq, Eq)]
pub struct UnreadLine(pub usize);

fn carry_out(plan: &Plan, calls: &[Call]) -> String {
    let mut dispatcher = Dispatcher::new(Rack::new(plan));
    let answer = |&call: &Call| match dispatcher.call(call) {
        Ok(answer) => format!("{answer}\n"),
        Err(refusal) => format!("{refusal}\n"),
    };
    calls.iter().map(answer).collect()
}

pub fn read_calls(text: &[u8]) -> Result<Vec<Call>, UnreadLine> {
    let mut calls = Vec::new();
    for (index, line) in text.split_inclusive(|&b| b == b'\n').enumerate() {
        // Only the last line can lack its byte 10.
        let line = line.strip_suffix(b"\n").unwrap_or(line);
        let has_room = |&(_, times): &(Call, usize)| calls.len() + times <= MOST_CALLS;
        let (call, times) = read_line(line).filter(has_room).ok_or(UnreadLine(index + 1))?;
        calls.extend(std::iter::repeat_n(call, times));
    }
    Ok(calls)
}

/// The call that a line says, and how many times.
fn read_line(line: &[u8]) -> Option<(Call, usize)> {
    let fields: Vec<&[u8]> = line.split(|&b| b == b',').collect();
    let (name, numbers) = fields.split_first()?;
    let numbers: Vec<u32> = numbers.iter().map(|field| decimal(field, u32::MAX)).collect::<Option<_>>()?;
    match (*name, numbers.as_slice()) {
        (b"admit", &[id, c, t, d]) => Some((Call::Admit(Card { id, c, t, d }), 1)),
        (b"level", &[id]) => Some((Call::Level { id }, 1)),
        (b"withdraw", &[id]) => Some((Call::Withdraw { id }, 1)),
        (b"release", &[id, run_time]) => Some((Call::Release { id, run_time }, 1)),
        (b"tick", &[]) => Some((Call::Tick, 1)),
        (b"tick", &[n]) if (1..=MOST_NUMBER).contains(&n) => Some((Call::Tick, n as usize)),
        _ => None,
    }
}

#[cfg(test)]
mod tests {
    use super::*;

    #[test]
    fn lines_that_cannot_be_read() {
        let bad: [&[u8]; 8] =
            [b"\n", b"tick,\n", b"tick,0\n", b"tick,65536\n", b"level,01\n", b"Tick\n", b"level,4294967296\n", b"tick\r\n"];
        for line in bad {
            let text = [b"tick\n".as_slice(), line].concat();
            assert_eq!(read_calls(&text), Err(UnreadLine(2)), "{line:?}");
        }
        assert_eq!(read_calls(b"tick,65535\n").map(|calls| calls.len()), Ok(65_535));
        assert_eq!(read_calls(b""), Ok(vec![]));
        assert_eq!(read_calls(b"tick"), Ok(vec![Call::Tick]));
    }

    #[test]
    fn the_most_calls() {
        let full = [b"tick,50000\n".repeat(80), b"level,0\n".to_vec()].concat();
        assert_eq!(read_calls(&full[..full.len() - 8]).map(|calls| calls.len()), Ok(MOST_CALLS));
        assert_eq!(read_calls(&full), Err(UnreadLine(81)));
    }
}
