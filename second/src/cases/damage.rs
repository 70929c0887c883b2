//! Plans with a fault of a chosen cause, in one of its fields, at a first, last or other line.

use super::draft::{self, row_line, Line};
use super::random::Random;
use super::PlanCase;

#[derive(Clone, Copy, Debug, PartialEq, Eq)]
pub enum Damage {
    TextTooLong,
    LineTooLong,
    LastLineUnended,
    FirstField,
    FieldTooMany,
    FieldTooFew,
    RowNumberUnread,
    PeriodUnread,
    IdUnread,
    RunTimeUnread,
    PeriodOfTaskUnread,
    DeadlineUnread,
    RowNumber,
    RowBehindTask,
    NinthRow,
    Period,
    Marks,
    Cycle,
    TaskFirst,
    NoRow,
    Id,
    IdTwice,
    PeriodOfTask,
    Deadline,
    RunTime,
}

const BAD_NUMBERS: [&str; 22] = [
    "",
    "00",
    "01",
    "007",
    "000001",
    "65536",
    "65540",
    "70000",
    "99999",
    "100000",
    "123456",
    "4294967296",
    "18446744073709551617",
    "-1",
    "+1",
    " 1",
    "1 ",
    "a",
    "1a",
    "1\r",
    "0x1",
    "1.0",
];
const BAD_FIRST_FIELDS: [&str; 10] = ["", "s", "t", "SS", "ST", " S", "T ", "X", "\r", "\u{feff}S"];

impl Damage {
    pub const ALL: [Damage; 25] = [
        Damage::TextTooLong,
        Damage::LineTooLong,
        Damage::LastLineUnended,
        Damage::FirstField,
        Damage::FieldTooMany,
        Damage::FieldTooFew,
        Damage::RowNumberUnread,
        Damage::PeriodUnread,
        Damage::IdUnread,
        Damage::RunTimeUnread,
        Damage::PeriodOfTaskUnread,
        Damage::DeadlineUnread,
        Damage::RowNumber,
        Damage::RowBehindTask,
        Damage::NinthRow,
        Damage::Period,
        Damage::Marks,
        Damage::Cycle,
        Damage::TaskFirst,
        Damage::NoRow,
        Damage::Id,
        Damage::IdTwice,
        Damage::PeriodOfTask,
        Damage::Deadline,
        Damage::RunTime,
    ];

    /// Damages the lines of a plan.
    fn apply(self, random: &mut Random, lines: &mut Vec<Line>) {
        match self {
            // These two are done on the text.
            Damage::TextTooLong | Damage::LastLineUnended => {}
            Damage::LineTooLong => lengthen_line(random, lines),
            Damage::FirstField => {
                let place = any_line(random, lines);
                lines[place][0] = random.pick(&BAD_FIRST_FIELDS).into();
            }
            Damage::FieldTooMany | Damage::FieldTooFew => miscount_fields(random, lines, self == Damage::FieldTooMany),
            Damage::RowNumberUnread => unread(random, lines, b"S", 1),
            Damage::PeriodUnread => unread(random, lines, b"S", 2),
            Damage::IdUnread => unread(random, lines, b"T", 1),
            Damage::RunTimeUnread => unread(random, lines, b"T", 2),
            Damage::PeriodOfTaskUnread => unread(random, lines, b"T", 3),
            Damage::DeadlineUnread => unread(random, lines, b"T", 4),
            Damage::RowNumber => change(random, lines, b"S", 1, &["0", "1", "2", "7", "8", "9", "65535"]),
            Damage::RowBehindTask => row_behind_task(random, lines),
            Damage::NinthRow => nine_rows(lines),
            Damage::Period => change(random, lines, b"S", 2, &["0", "65", "66", "100", "65535"]),
            Damage::Marks => change_marks(random, lines),
            Damage::Cycle => exceed_cycle(random, lines),
            Damage::TaskFirst => {
                let place = line_of(random, lines, b"T");
                let line = lines.remove(place);
                lines.insert(0, line);
            }
            Damage::NoRow => lines.retain(|line| line[0] != b"S"),
            Damage::Id => change(random, lines, b"T", 1, &["32", "33", "64", "255", "256", "65535"]),
            Damage::IdTwice => copy_id(random, lines),
            Damage::PeriodOfTask => change(random, lines, b"T", 3, &["0", "4097", "4098", "8192", "65535"]),
            Damage::Deadline => exceed(random, lines, 4, 3),
            Damage::RunTime => exceed(random, lines, 2, 4),
        }
    }

    /// Damages the text.
    fn apply_to_text(self, random: &mut Random, text: &mut Vec<u8>) {
        match self {
            Damage::TextTooLong => {
                let length = random.pick(&[8_193, 8_194, 8_300, 9_000, 20_000]);
                let filler: &[u8] = random.pick(&[b"\n".as_slice(), b"S,0,1,1\n", b"x"]);
                text.extend(filler.iter().cycle().copied().take(length));
            }
            Damage::LastLineUnended => {
                let cut = random.between(1, 4) as usize;
                text.truncate(text.len() - cut);
            }
            _ => {}
        }
    }
}

pub fn damaged(random: &mut Random, damage: Damage) -> PlanCase {
    let mut lines = plan_with_tasks(random);
    damage.apply(random, &mut lines);
    let mut text = draft::text(&lines);
    damage.apply_to_text(random, &mut text);
    PlanCase { kind: format!("{damage:?}"), text }
}

/// Two damages in one plan: the first fault in the order of the questions has to be named.
pub fn damaged_twice(random: &mut Random) -> PlanCase {
    let mut lines = plan_with_tasks(random);
    let first = random.pick(&Damage::ALL);
    let second = random.pick(&Damage::ALL);
    let kept = lines.clone();
    first.apply(random, &mut lines);
    // The second one finds its field only where the first has left the shape of the lines.
    let same_shape = lines.len() == kept.len() && lines.iter().zip(&kept).all(|(a, b)| a.len() == b.len() && a[0] == b[0]);
    if same_shape {
        second.apply(random, &mut lines);
    }
    let mut text = draft::text(&lines);
    if text.len() > 4 {
        second.apply_to_text(random, &mut text);
    }
    PlanCase { kind: format!("{first:?}-{second:?}"), text }
}

/// A plan with at least two tasks, so that every damage finds its line.
fn plan_with_tasks(random: &mut Random) -> Vec<Line> {
    loop {
        let lines = draft::plan(random);
        if lines.iter().filter(|line| line[0] == b"T").count() >= 2 {
            return lines;
        }
    }
}

/// One of the given places; the first and the last are likely.
fn place_among(random: &mut Random, places: &[usize]) -> usize {
    match random.below(3) {
        0 => places[0],
        1 => places[places.len() - 1],
        _ => random.pick(places),
    }
}

fn any_line(random: &mut Random, lines: &[Line]) -> usize {
    place_among(random, &(0..lines.len()).collect::<Vec<_>>())
}

fn line_of(random: &mut Random, lines: &[Line], letter: &[u8]) -> usize {
    let places: Vec<usize> = (0..lines.len()).filter(|&place| lines[place][0] == letter).collect();
    place_among(random, &places)
}

fn unread(random: &mut Random, lines: &mut [Line], letter: &[u8], field: usize) {
    change(random, lines, letter, field, &BAD_NUMBERS);
}

fn change(random: &mut Random, lines: &mut [Line], letter: &[u8], field: usize, values: &[&str]) {
    let place = line_of(random, lines, letter);
    lines[place][field] = random.pick(values).into();
}

fn lengthen_line(random: &mut Random, lines: &mut [Line]) {
    let place = any_line(random, lines);
    let field = random.below(lines[place].len());
    let others = lines[place].join(&b',').len() - lines[place][field].len();
    let length: usize = random.pick(&[97, 98, 100, 150]);
    lines[place][field] = vec![random.pick(b"01 x"); length.saturating_sub(others)];
}

fn miscount_fields(random: &mut Random, lines: &mut [Line], too_many: bool) {
    let place = any_line(random, lines);
    let line = &mut lines[place];
    if too_many {
        let field = random.between(1, line.len() as u32) as usize;
        line.insert(field, random.pick(&["", "0", "1", " "]).into());
    } else {
        let kept = random.between(1, line.len() as u32 - 1) as usize;
        line.truncate(kept);
    }
}

fn row_behind_task(random: &mut Random, lines: &mut Vec<Line>) {
    let rows = lines.iter().filter(|line| line[0] == b"S").count();
    let place = random.between(rows as u32 + 1, lines.len() as u32) as usize;
    lines.insert(place, row_line(rows, b"1"));
}

fn nine_rows(lines: &mut Vec<Line>) {
    let rows = lines.iter().filter(|line| line[0] == b"S").count();
    for n in rows..9 {
        lines.insert(n, row_line(n, b"1"));
    }
}

fn change_marks(random: &mut Random, lines: &mut [Line]) {
    let place = line_of(random, lines, b"S");
    let marks = &mut lines[place][3];
    let mark = random.below(marks.len());
    match random.below(5) {
        // An earlier damage may have left no marks.
        _ if marks.is_empty() => marks.push(b'2'),
        0 => marks.push(b'1'),
        1 => marks.truncate(mark),
        2 => marks.push(b'\r'),
        3 => marks.clear(),
        _ => marks[mark] = random.pick(b"2x /\r\x00\xff"),
    }
}

/// Puts rows in front whose periods have a common multiple above 512.
fn exceed_cycle(random: &mut Random, lines: &mut Vec<Line>) {
    let periods = random.pick(&[[27, 19], [64, 63], [64, 9], [61, 59], [33, 16], [57, 27], [23, 24]]);
    let cards = lines.iter().filter(|line| line[0] == b"T").cloned();
    let rows = periods.iter().enumerate().map(|(n, &period)| row_line(n, &vec![b'1'; period]));
    *lines = rows.chain(cards).collect();
}

fn copy_id(random: &mut Random, lines: &mut [Line]) {
    let rows = lines.iter().filter(|line| line[0] == b"S").count();
    let later = random.between(rows as u32 + 1, lines.len() as u32 - 1) as usize;
    let earlier = random.between(rows as u32, later as u32 - 1) as usize;
    lines[later][1] = lines[earlier][1].clone();
}

/// Makes a field 0, or larger than the field that bounds it.
fn exceed(random: &mut Random, lines: &mut [Line], field: usize, bound: usize) {
    let place = line_of(random, lines, b"T");
    let bound: u32 = String::from_utf8_lossy(&lines[place][bound]).parse().unwrap_or(0);
    let value = random.pick(&[0, bound + 1, bound + 1, bound + 2, 65_535]);
    lines[place][field] = value.to_string().into();
}
