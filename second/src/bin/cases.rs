//! `cases FOLDER SEED PLANS SHIFTS`: writes plan texts into FOLDER/plans and shifts into FOLDER/shifts.

use second::cases::{plans, shifts, Random};
use std::path::Path;
use std::process::ExitCode;
use std::{env, fs, io};

fn main() -> ExitCode {
    let arguments: Vec<String> = env::args().skip(1).collect();
    let [folder, numbers @ ..] = arguments.as_slice() else {
        return usage();
    };
    let numbers: Result<Vec<u64>, _> = numbers.iter().map(|word| word.parse()).collect();
    let Ok(&[seed, plans, shifts]) = numbers.as_deref() else {
        return usage();
    };
    match write_all(Path::new(folder), seed, plans as usize, shifts as usize) {
        Ok(()) => ExitCode::SUCCESS,
        Err(error) => {
            eprintln!("cases: {folder}: {error}");
            ExitCode::FAILURE
        }
    }
}

fn usage() -> ExitCode {
    eprintln!("usage: cases FOLDER SEED PLANS SHIFTS");
    ExitCode::FAILURE
}

fn write_all(folder: &Path, seed: u64, plan_count: usize, shift_count: usize) -> io::Result<()> {
    let mut random = Random::new(seed);
    let plan_folder = folder.join("plans");
    fs::create_dir_all(&plan_folder)?;
    for (index, case) in plans(&mut random, plan_count).iter().enumerate() {
        fs::write(plan_folder.join(format!("{index:05}-{}.plan", case.kind)), &case.text)?;
    }
    let shift_folder = folder.join("shifts");
    fs::create_dir_all(&shift_folder)?;
    for (index, case) in shifts(&mut random, shift_count).iter().enumerate() {
        let stem = shift_folder.join(format!("{index:05}-{}", case.kind));
        fs::write(stem.with_extension("plan"), &case.plan)?;
        fs::write(stem.with_extension("calls"), &case.calls)?;
    }
    Ok(())
}
