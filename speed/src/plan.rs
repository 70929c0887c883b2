//! Plan texts. Only whether a text is at fault is kept, not why: what is measured are plans without fault.

pub const ROWS: usize = 8;
pub const TASKS: usize = 32;
const MOST_PERIOD: usize = 64;
const MOST_TICKS: u32 = 4_096;
const MOST_CYCLE: usize = 512;
const MOST_TEXT: usize = 8_192;
const MOST_LINE: usize = 96;

#[derive(Clone, Copy)]
pub struct Row {
    pub period: usize,
    /// One byte, 0 or 1, for each tick of the period.
    pub marks: [u8; MOST_PERIOD],
}

#[derive(Clone, Copy, Default)]
pub struct Card {
    pub id: u32,
    pub c: u32,
    pub t: u32,
    pub d: u32,
}

pub struct Plan {
    rows: [Row; ROWS],
    row_count: usize,
    pub cycle: usize,
    cards: [Card; TASKS],
    card_count: usize,
}

impl Plan {
    pub fn rows(&self) -> &[Row] {
        &self.rows[..self.row_count]
    }

    pub fn cards(&self) -> &[Card] {
        &self.cards[..self.card_count]
    }

    pub fn read(text: &[u8]) -> Option<Plan> {
        if text.len() > MOST_TEXT {
            return None;
        }
        let no_row = Row { period: 0, marks: [0; MOST_PERIOD] };
        let mut plan = Plan { rows: [no_row; ROWS], row_count: 0, cycle: 1, cards: [Card::default(); TASKS], card_count: 0 };
        let mut seen = 0;
        let mut rest = text;
        while !rest.is_empty() {
            let before = rest.len();
            rest = match rest {
                [b'S', b',', fields @ ..] => plan.read_row(fields)?,
                [b'T', b',', fields @ ..] => plan.read_card(fields, &mut seen)?,
                _ => return None,
            };
            if before - rest.len() > MOST_LINE + 1 {
                return None;
            }
        }
        (plan.row_count > 0).then_some(plan)
    }

    fn read_row<'a>(&mut self, fields: &'a [u8]) -> Option<&'a [u8]> {
        let (n, rest) = number(fields, b',')?;
        let (period, rest) = number(rest, b',')?;
        let period = period as usize;
        let in_order = n as usize == self.row_count && self.row_count < ROWS && self.card_count == 0;
        if !in_order || !(1..=MOST_PERIOD).contains(&period) || rest.get(period) != Some(&b'\n') {
            return None;
        }
        let row = &mut self.rows[self.row_count];
        row.period = period;
        let mut others = 0;
        for (mark, &byte) in row.marks.iter_mut().zip(&rest[..period]) {
            *mark = byte & 1;
            others |= byte ^ b'0';
        }
        self.row_count += 1;
        self.cycle = self.cycle / common_divisor(self.cycle, period) * period;
        (others <= 1 && self.cycle <= MOST_CYCLE).then_some(&rest[period + 1..])
    }

    fn read_card<'a>(&mut self, fields: &'a [u8], seen: &mut u32) -> Option<&'a [u8]> {
        let (id, rest) = number(fields, b',')?;
        let (c, rest) = number(rest, b',')?;
        let (t, rest) = number(rest, b',')?;
        let (d, rest) = number(rest, b'\n')?;
        let is_new = id < TASKS as u32 && *seen >> id & 1 == 0;
        if self.row_count == 0 || !is_new || c < 1 || c > d || d > t || t > MOST_TICKS {
            return None;
        }
        *seen |= 1 << id;
        self.cards[self.card_count] = Card { id, c, t, d };
        self.card_count += 1;
        Some(rest)
    }
}

fn common_divisor(mut a: usize, mut b: usize) -> usize {
    while b > 0 {
        (a, b) = (b, a % b);
    }
    a
}

/// The number in front of the byte `end`, and what stands behind that.
#[inline]
fn number(text: &[u8], end: u8) -> Option<(u32, &[u8])> {
    let mut value = 0;
    for (place, &byte) in text.iter().enumerate().take(6) {
        if byte == end {
            let zero_in_front = place > 1 && text[0] == b'0';
            let is_number = place > 0 && !zero_in_front && value <= 65_535;
            return is_number.then(|| (value, &text[place + 1..]));
        }
        let digit = byte.wrapping_sub(b'0');
        if digit > 9 {
            return None;
        }
        value = value * 10 + u32::from(digit);
    }
    None
}
