//! `compare FOLDER GAPCHECK GAPSHIFT ENTRY SECOND`: runs the proved programs, the driver of the C entry and the second program on
//! the cases in FOLDER, and compares what they write byte for byte. It counts what the outputs say, and fails if a kind of
//! answer that the rules know did not occur. The last line is 'N passed, M failed'.

use second::entry::{RECORDS_LENGTH, SIZES};
use second::tally::Tally;
use std::fs::{self, File};
use std::io;
use std::path::{Path, PathBuf};
use std::process::{Command, ExitCode, Stdio};

/// So many texts are given to the driver of the C entry at once.
const BATCH: usize = 200;

struct Programs {
    gapcheck: PathBuf,
    gapshift: PathBuf,
    entry: PathBuf,
    second: PathBuf,
}

#[derive(Default)]
struct Score {
    passed: usize,
    failed: usize,
}

impl Score {
    fn add(&mut self, is_same: bool, name: &str, case: &Path) {
        if is_same {
            self.passed += 1;
        } else {
            self.failed += 1;
            println!("{name}: the programs differ, or write nothing, on {}", case.display());
        }
    }
}

fn main() -> ExitCode {
    let arguments: Vec<PathBuf> = std::env::args_os().skip(1).map(PathBuf::from).collect();
    let [folder, gapcheck, gapshift, entry, second] = arguments.as_slice() else {
        eprintln!("usage: compare FOLDER GAPCHECK GAPSHIFT ENTRY SECOND");
        return ExitCode::FAILURE;
    };
    let [gapcheck, gapshift, entry, second] = [gapcheck, gapshift, entry, second].map(PathBuf::clone);
    let programs = Programs { gapcheck, gapshift, entry, second };
    match compare_all(&programs, folder) {
        Ok(Score { passed, failed }) => {
            println!("{passed} passed, {failed} failed");
            if failed == 0 {
                ExitCode::SUCCESS
            } else {
                ExitCode::FAILURE
            }
        }
        Err(error) => {
            eprintln!("compare: {error}");
            ExitCode::FAILURE
        }
    }
}

fn compare_all(programs: &Programs, folder: &Path) -> io::Result<Score> {
    let mut score = Score::default();
    let mut tally = Tally::default();
    let plans = files(&folder.join("plans"), "plan")?;
    for plan in &plans {
        compare_listings(programs, plan, &mut score, &mut tally)?;
    }
    for batch in plans.chunks(BATCH) {
        compare_entries(programs, batch, &mut score, &mut tally)?;
    }
    let shifts = files(&folder.join("shifts"), "calls")?;
    for calls in &shifts {
        compare_shifts(programs, calls, &mut score, &mut tally)?;
    }
    println!("{} plan texts, each through gapcheck and the C entry, and {} shifts", plans.len(), shifts.len());
    print!("{tally}");
    for missing in tally.missing() {
        score.failed += 1;
        println!("never occurred: {missing}");
    }
    Ok(score)
}

/// The files of a folder that have this extension, sorted.
fn files(folder: &Path, extension: &str) -> io::Result<Vec<PathBuf>> {
    let entries: Vec<PathBuf> = fs::read_dir(folder)?.map(|entry| entry.map(|entry| entry.path())).collect::<io::Result<_>>()?;
    let mut files: Vec<PathBuf> = entries.into_iter().filter(|path| path.extension().is_some_and(|end| end == extension)).collect();
    files.sort();
    Ok(files)
}

/// What a program writes and the status it ends with.
#[derive(PartialEq, Eq)]
struct Outcome {
    output: Vec<u8>,
    status: Option<i32>,
}

fn run(command: &mut Command, input: Stdio) -> io::Result<Outcome> {
    let done = command.stdin(input).stderr(Stdio::inherit()).output()?;
    Ok(Outcome { output: done.stdout, status: done.status.code() })
}

/// Two outcomes agree if they are the same, with status 0 and something written.
fn agree(proved: &Outcome, second: &Outcome) -> bool {
    proved == second && proved.status == Some(0) && !proved.output.is_empty()
}

fn compare_listings(programs: &Programs, plan: &Path, score: &mut Score, tally: &mut Tally) -> io::Result<()> {
    let proved = run(&mut Command::new(&programs.gapcheck), File::open(plan)?.into())?;
    let second = run(Command::new(&programs.second).arg("check"), File::open(plan)?.into())?;
    score.add(agree(&proved, &second), "gapcheck", plan);
    tally.count_listing(&String::from_utf8_lossy(&proved.output), &fs::read(plan)?);
    Ok(())
}

fn compare_shifts(programs: &Programs, calls: &Path, score: &mut Score, tally: &mut Tally) -> io::Result<()> {
    let plan = calls.with_extension("plan");
    let proved = run(Command::new(&programs.gapshift).arg(&plan), File::open(calls)?.into())?;
    let second = run(Command::new(&programs.second).arg("shift").arg(&plan), File::open(calls)?.into())?;
    score.add(agree(&proved, &second), "gapshift", calls);
    tally.count_answers(&String::from_utf8_lossy(&proved.output), &fs::read(calls)?);
    Ok(())
}

/// The records of each text, for all sizes of buffers, have to be the same.
fn compare_entries(programs: &Programs, texts: &[PathBuf], score: &mut Score, tally: &mut Tally) -> io::Result<()> {
    let proved = run(Command::new(&programs.entry).args(texts), Stdio::null())?;
    let second = run(Command::new(&programs.second).arg("entry").args(texts), Stdio::null())?;
    for (index, text) in texts.iter().enumerate() {
        let records = index * RECORDS_LENGTH..(index + 1) * RECORDS_LENGTH;
        let of_proved = proved.output.get(records.clone());
        let is_same = of_proved.is_some() && of_proved == second.output.get(records);
        score.add(is_same, "the C entry", text);
        let mut rest = of_proved.unwrap_or_default();
        for size in SIZES {
            let Some((length, behind)) = rest.split_first_chunk() else { break };
            tally.count_entry(size, u64::from_le_bytes(*length));
            rest = behind.get(size..).unwrap_or_default();
        }
    }
    let ended_well = proved.status == Some(0) && second.status == Some(0) && proved.output.len() == second.output.len();
    if !ended_well {
        score.failed += 1;
        println!("the C entry: the programs did not end as they should, from {} on", texts[0].display());
    }
    Ok(())
}
