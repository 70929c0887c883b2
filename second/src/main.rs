//! `second check`, `second shift PLAN`, `second entry TEXT...`: what gapcheck, gapshift and the driver of the C entry read and write.

use second::{entry, listing::listing, shift::answers};
use std::io::{self, Read, Write};
use std::process::ExitCode;

const USAGE: &str = "usage: second check < PLAN | second shift PLAN < CALLS | second entry TEXT...";

fn main() -> ExitCode {
    let arguments: Vec<String> = std::env::args().skip(1).collect();
    let arguments: Vec<&str> = arguments.iter().map(String::as_str).collect();
    let done = match arguments.as_slice() {
        ["check"] => check(),
        ["shift", plan] => shift(plan),
        ["entry", texts @ ..] => entries(texts),
        _ => Err(io::Error::new(io::ErrorKind::InvalidInput, USAGE)),
    };
    match done {
        Ok(()) => ExitCode::SUCCESS,
        Err(error) => {
            eprintln!("second: {error}");
            ExitCode::FAILURE
        }
    }
}

fn check() -> io::Result<()> {
    write_out(listing(&standard_input()?).as_bytes())
}

fn shift(plan: &str) -> io::Result<()> {
    let plan = std::fs::read(plan)?;
    write_out(answers(&plan, &standard_input()?).as_bytes())
}

/// For each text one record for each size of buffer.
fn entries(texts: &[&str]) -> io::Result<()> {
    for path in texts {
        let text = std::fs::read(path)?;
        for size in entry::SIZES {
            write_out(&entry::record(&text, size))?;
        }
    }
    Ok(())
}

fn standard_input() -> io::Result<Vec<u8>> {
    let mut bytes = Vec::new();
    io::stdin().read_to_end(&mut bytes)?;
    Ok(bytes)
}

fn write_out(bytes: &[u8]) -> io::Result<()> {
    io::stdout().write_all(bytes)
}
