//! The listing of a plan text without fault.

use crate::dispatcher::{Dispatcher, Refusal};
use crate::plan::Plan;
use crate::rack::Rack;

struct Writer<'a> {
    out: &'a mut [u8],
    end: usize,
}

impl Writer<'_> {
    #[inline]
    fn bytes(&mut self, bytes: &[u8]) {
        self.out[self.end..self.end + bytes.len()].copy_from_slice(bytes);
        self.end += bytes.len();
    }

    /// A number below 1,000.
    #[inline]
    fn number(&mut self, number: u32) {
        let digit = |value: u32| b'0' + (value % 10) as u8;
        if number >= 100 {
            self.bytes(&[digit(number / 100), digit(number / 10), digit(number)]);
        } else if number >= 10 {
            self.bytes(&[digit(number / 10), digit(number)]);
        } else {
            self.bytes(&[digit(number)]);
        }
    }
}

/// Writes the listing at the front of the buffer and answers its length; none where the buffer is too small or the plan at fault.
pub fn list(text: &[u8], out: &mut [u8]) -> Option<usize> {
    if out.len() < 512 {
        return None;
    }
    let plan = Plan::read(text)?;
    let mut dispatcher = Dispatcher::new(Rack::new(&plan));
    let mut writer = Writer { out, end: 0 };
    writer.bytes(b"rack,");
    writer.number(plan.rows().len() as u32);
    writer.bytes(b",");
    writer.number(plan.cycle as u32);
    writer.bytes(b"\n");
    for &card in plan.cards() {
        writer.number(card.id);
        match dispatcher.admit(card) {
            Ok(level) => {
                writer.bytes(b",yes,");
                writer.number(level);
            }
            Err(Refusal::NoLevel(task)) => {
                writer.bytes(b",no,");
                writer.number(task);
            }
            Err(_) => return None,
        }
        writer.bytes(b"\n");
    }
    Some(writer.end)
}
