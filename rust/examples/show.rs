//! Prints what a packed schedule holds, with the words of its sheet, after the proved call has tested it:
//!
//!     cargo run --offline --example show -- ../examples/base.sheet ../examples/base.schedule
//!
//! The lines are those of the program `schedule`. The status is 0, 1 if the schedule is refused, 2 if a
//! file cannot be read.

use gidzelma::{read_schedule_vec, Malformed, Schedule, Words};
use std::process::ExitCode;
use std::{env, fs};

fn print(words: &Words, records: &[u8]) -> Result<(), Malformed> {
    let schedule = Schedule::of_records(records)?;
    for name in schedule.names() {
        println!("T {}", words.spell(name));
    }
    for item in schedule.items() {
        println!("{}", words.line(&item?));
    }
    Ok(())
}

/// The status, or what cannot be read.
fn show(sheet: &str, schedule: &str) -> Result<u8, String> {
    let bytes = |file: &str| fs::read(file).map_err(|error| format!("{file}: {error}"));
    let (packed, sheet) = (bytes(schedule)?, bytes(sheet)?);
    let words = Words::read(&sheet).ok_or("the words of the sheet cannot be read")?;
    match read_schedule_vec(words.len(), &packed) {
        Ok(records) => {
            print(&words, &records).map_err(|malformed| malformed.to_string())?;
            Ok(0)
        }
        Err(refusal) => {
            println!("refused {}", refusal.number());
            Ok(1)
        }
    }
}

fn main() -> ExitCode {
    let files: Vec<String> = env::args().skip(1).collect();
    let [sheet, schedule] = files.as_slice() else {
        eprintln!("usage: show SHEET SCHEDULE");
        return ExitCode::from(2);
    };
    match show(sheet, schedule) {
        Ok(status) => ExitCode::from(status),
        Err(why) => {
            eprintln!("show: {why}");
            ExitCode::from(2)
        }
    }
}
