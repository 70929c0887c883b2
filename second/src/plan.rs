//! A plan text becomes a plan, or its first fault.

use crate::number::decimal;
use std::fmt;

pub const MOST_BYTES: usize = 8_192;
pub const MOST_LINE_BYTES: usize = 96;
pub const MOST_NUMBER: u32 = 65_535;
pub const MOST_ROWS: usize = 8;
pub const MOST_PERIOD: u32 = 64;
pub const MOST_CYCLE: u32 = 512;
pub const TASK_NUMBERS: u32 = 32;
pub const MOST_TICKS: u32 = 4_096;

/// A row of the slot table: one mark for each tick of its period.
#[derive(Clone, Debug, PartialEq, Eq)]
pub struct Row {
    pub marks: Vec<bool>,
}

impl Row {
    pub fn period(&self) -> usize {
        self.marks.len()
    }

    pub fn gives(&self, tick: usize) -> bool {
        self.marks[tick % self.period()]
    }
}

#[derive(Clone, Copy, Debug, PartialEq, Eq)]
pub struct Card {
    pub id: u32,
    pub c: u32,
    pub t: u32,
    pub d: u32,
}

impl Card {
    /// 1 ≤ c ≤ d ≤ t ≤ 4,096
    pub fn is_in_bounds(&self) -> bool {
        1 <= self.c && self.c <= self.d && self.d <= self.t && self.t <= MOST_TICKS
    }
}

#[derive(Clone, Debug, Default, PartialEq, Eq)]
pub struct Plan {
    pub rows: Vec<Row>,
    pub cards: Vec<Card>,
}

/// The causes of faults, with their numbers.
#[derive(Clone, Copy, Debug, PartialEq, Eq)]
pub enum Cause {
    TextTooLong = 1,
    LineEnd = 2,
    FirstField = 3,
    FieldCount = 4,
    Number = 5,
    RowNumber = 6,
    Period = 7,
    Marks = 8,
    Cycle = 9,
    NoRow = 10,
    TaskNumber = 11,
    CardBounds = 12,
}

#[derive(Clone, Copy, Debug, PartialEq, Eq)]
pub struct Fault {
    pub cause: Cause,
    pub line: usize,
    pub field: usize,
}

impl fmt::Display for Fault {
    fn fmt(&self, f: &mut fmt::Formatter) -> fmt::Result {
        write!(f, "fault,{},{},{}", self.cause as u32, self.line, self.field)
    }
}

/// A fault of a line whose number the caller knows: cause and field.
type LineFault = (Cause, usize);

impl Plan {
    pub fn read(text: &[u8]) -> Result<Plan, Fault> {
        let whole_text = |cause| Fault { cause, line: 0, field: 0 };
        if text.len() > MOST_BYTES {
            return Err(whole_text(Cause::TextTooLong));
        }
        let mut plan = Plan::default();
        let mut rest = text;
        let mut line = 0;
        while !rest.is_empty() {
            line += 1;
            rest = plan.take_line(rest).map_err(|(cause, field)| Fault { cause, line, field })?;
        }
        if plan.rows.is_empty() {
            return Err(whole_text(Cause::NoRow));
        }
        Ok(plan)
    }

    /// Reads the first line of `rest` into the plan and answers what follows it.
    fn take_line<'a>(&mut self, rest: &'a [u8]) -> Result<&'a [u8], LineFault> {
        let end = rest.iter().position(|&b| b == b'\n').filter(|&end| end <= MOST_LINE_BYTES);
        let end = end.ok_or((Cause::LineEnd, 0))?;
        let fields: Vec<&[u8]> = rest[..end].split(|&b| b == b',').collect();
        match fields[0] {
            b"S" => self.take_row(&fields)?,
            b"T" => self.take_card(&fields)?,
            _ => return Err((Cause::FirstField, 1)),
        }
        Ok(&rest[end + 1..])
    }

    fn take_row(&mut self, fields: &[&[u8]]) -> Result<(), LineFault> {
        let &[_, n, p, marks] = fields else {
            return Err((Cause::FieldCount, 0));
        };
        let n = number(n, 2)? as usize;
        let p = number(p, 3)?;
        if n != self.rows.len() || n >= MOST_ROWS || !self.cards.is_empty() {
            return Err((Cause::RowNumber, 2));
        }
        if !(1..=MOST_PERIOD).contains(&p) {
            return Err((Cause::Period, 3));
        }
        if marks.len() != p as usize || !marks.iter().all(|&b| b == b'0' || b == b'1') {
            return Err((Cause::Marks, 4));
        }
        self.rows.push(Row { marks: marks.iter().map(|&b| b == b'1').collect() });
        match self.cycle() {
            Some(_) => Ok(()),
            None => Err((Cause::Cycle, 3)),
        }
    }

    fn take_card(&mut self, fields: &[&[u8]]) -> Result<(), LineFault> {
        let &[_, id, c, t, d] = fields else {
            return Err((Cause::FieldCount, 0));
        };
        let card = Card { id: number(id, 2)?, c: number(c, 3)?, t: number(t, 4)?, d: number(d, 5)? };
        if self.rows.is_empty() {
            return Err((Cause::NoRow, 1));
        }
        if card.id >= TASK_NUMBERS || self.cards.iter().any(|other| other.id == card.id) {
            return Err((Cause::TaskNumber, 2));
        }
        let bounds = [(card.t, MOST_TICKS, 4), (card.d, card.t, 5), (card.c, card.d, 3)];
        for (value, most, field) in bounds {
            if !(1..=most).contains(&value) {
                return Err((Cause::CardBounds, field));
            }
        }
        self.cards.push(card);
        Ok(())
    }

    /// The least number of ticks, if it is at most 512, that every period divides.
    pub fn cycle(&self) -> Option<u32> {
        (1..=MOST_CYCLE).find(|&h| self.rows.iter().all(|row| (h as usize).is_multiple_of(row.period())))
    }
}

fn number(field: &[u8], place: usize) -> Result<u32, LineFault> {
    decimal(field, MOST_NUMBER).ok_or((Cause::Number, place))
}
