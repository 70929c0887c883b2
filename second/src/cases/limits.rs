//! Texts at every limit of the rules, and just beyond.

use super::PlanCase;

pub fn texts() -> Vec<PlanCase> {
    let groups = [lengths(), lines(), rows(), periods_and_cycles(), numbers(), cards()];
    let texts = groups.into_iter().flatten();
    texts.map(|text| PlanCase { kind: "limit".into(), text }).collect()
}

/// A text of `length` bytes that is a plan up to its last line, if it is long enough.
fn of_length(length: usize, last: &[u8]) -> Vec<u8> {
    let mut text = b"S,0,1,1\n".to_vec();
    text.extend(b"T,0,1,9,9\n".iter().cycle().take(length - text.len() - last.len()));
    text.extend(last);
    text
}

fn lengths() -> Vec<Vec<u8>> {
    let mut texts: Vec<Vec<u8>> =
        vec![vec![], b"\n".to_vec(), b"\n\n".to_vec(), b"S".to_vec(), b"S\n".to_vec(), b"T\n".to_vec(), vec![0], vec![b'\r', b'\n']];
    for length in [8_191, 8_192, 8_193, 8_194, 16_384, 65_536, 70_000] {
        texts.push(of_length(length, b"\n"));
        texts.push(of_length(length, b"x"));
        texts.push(vec![b'\n'; length]);
        texts.push(vec![b'x'; length]);
    }
    texts
}

/// Lines of 95 to 98 bytes, first or second in the text, ended and not.
fn lines() -> Vec<Vec<u8>> {
    let mut texts = Vec::new();
    for length in [95, 96, 97, 98] {
        for start in ["", "S,0,1,1\n", "S,0,1,1\nT,0,1,9,9\n"] {
            for (front, filler) in [("S,1,64,", "1"), ("T,1,", "0"), ("X", "x"), ("S", ","), ("", " ")] {
                let line = format!("{front}{}", filler.repeat(length - front.len()));
                texts.push(format!("{start}{line}\n"));
                texts.push(format!("{start}{line}"));
                texts.push(format!("{start}{line}\nT,9,1,9,9\n"));
            }
        }
    }
    texts.into_iter().map(String::into_bytes).collect()
}

fn row(n: usize, period: usize) -> String {
    format!("S,{n},{period},{}\n", "1".repeat(period))
}

fn rows() -> Vec<Vec<u8>> {
    let mut texts = Vec::new();
    for count in 1..=10 {
        let rows: String = (0..count).map(|n| row(n, 64)).collect();
        texts.push(rows.clone());
        texts.push(format!("{rows}T,31,1,4096,4096\n"));
        texts.push(format!("{rows}T,31,1,4096,4096\n{}", row(count, 64)));
    }
    texts.into_iter().map(String::into_bytes).collect()
}

fn periods_and_cycles() -> Vec<Vec<u8>> {
    let mut texts: Vec<String> = [0, 1, 2, 63, 64, 65].iter().map(|&period| row(0, period)).collect();
    let two_rows = [
        [51, 30],
        [34, 15],
        [27, 19],
        [57, 27],
        [64, 63],
        [32, 16],
        [56, 9],
        [63, 8],
        [64, 7],
        [64, 9],
        [33, 16],
        [23, 22],
        [22, 23],
        [61, 8],
        [61, 9],
    ];
    texts.extend(two_rows.iter().map(|&[a, b]| row(0, a) + &row(1, b) + "T,0,1,512,512\n"));
    texts.extend([[2, 3, 5, 17], [17, 5, 6, 30], [8, 7, 9, 1], [16, 27, 1, 1], [2, 3, 5, 19]].iter().map(|periods| {
        let rows = periods.iter().enumerate().map(|(n, &period)| row(n, period));
        rows.collect::<String>() + "T,0,2,4096,4096\nT,1,500,4096,1021\nT,2,3,511,510\n"
    }));
    // Marks one short, one over, and none.
    texts.extend(["S,0,2,1\n", "S,0,2,101\n", "S,0,1,\n", "S,0,0,\n", "S,0,64,\n"].map(String::from));
    texts.into_iter().map(String::into_bytes).collect()
}

/// Each number field at the limits of what a number is.
fn numbers() -> Vec<Vec<u8>> {
    let mut texts = Vec::new();
    for value in [
        "0", "1", "00", "01", "9", "31", "32", "64", "65", "4096", "4097", "9999", "10000", "65535", "65536", "99999", "100000", "000000",
        "065535", "",
    ] {
        texts.push(format!("S,{value},1,1\n"));
        texts.push(format!("S,0,{value},1\n"));
        for place in 0..4 {
            let mut fields = ["5", "1", "4096", "4096"];
            fields[place] = value;
            texts.push(format!("S,0,1,1\nT,{}\n", fields.join(",")));
        }
    }
    texts.into_iter().map(String::into_bytes).collect()
}

fn cards() -> Vec<Vec<u8>> {
    let mut texts = Vec::new();
    for [c, t, d] in [
        [1, 1, 1],
        [1, 4096, 4096],
        [4096, 4096, 4096],
        [4095, 4096, 4096],
        [4096, 4096, 4095],
        [1, 4095, 4096],
        [1, 4096, 1],
        [2, 4096, 1],
        [0, 0, 0],
        [0, 1, 1],
        [1, 0, 1],
        [1, 1, 0],
        [0, 4097, 0],
        [65535, 65535, 65535],
        [1, 4097, 4097],
        [1, 4097, 1],
        [4097, 4096, 4096],
    ] {
        for rows in [row(0, 1), (0..8).map(|n| row(n, 64)).collect()] {
            texts.push(format!("{rows}T,0,{c},{t},{d}\n"));
            texts.push(format!("{rows}T,31,{c},{t},{d}\nT,0,1,4096,4096\n"));
        }
    }
    for count in [31, 32, 33] {
        for (c, d) in [(1, 4096), (1, 8), (200, 4096), (1000, 4096), (4096, 4096)] {
            let rows: String = (0..8).map(|n| row(n, 1)).collect();
            let forth: String = (0..count).map(|id| format!("T,{id},{c},4096,{d}\n")).collect();
            let back: String = (0..count).rev().map(|id| format!("T,{id},{c},4096,{d}\n")).collect();
            texts.push(rows.clone() + &forth);
            texts.push(rows + &back);
        }
    }
    texts.into_iter().map(String::into_bytes).collect()
}
