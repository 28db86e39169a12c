//! Prints what the program `schedule` prints, with a listing of the size that is needed:
//!
//!     cargo run --offline --example lines -- ../examples/base.sheet
//!
//! With several files a line `== FILE` stands before each answer. The status is 0 if all were accepted,
//! 1 if one was refused, 2 if one cannot be read.

use gidzelma::{schedule_vec, Malformed, Name, Refused, Row, RowLimit, Schedule, Words};
use std::process::ExitCode;
use std::{env, fs};

fn print_schedule(words: &Words, packed: &[u8]) -> Result<(), Malformed> {
    let schedule = Schedule::read(packed)?;
    for name in schedule.names() {
        println!("T {}", words.spell(name));
    }
    for item in schedule.items() {
        println!("{}", words.line(&item?));
    }
    Ok(())
}

fn print_refusal(sheet: &[u8], refused: &Refused) {
    println!("refused {}", refused.refusal.number());
    let Some(words) = Words::read(sheet) else {
        return; // no rows either
    };
    for Row {
        kind,
        subject,
        other,
        word,
    } in &refused.rows
    {
        let spelled = |name: &Name| words.spell(name);
        let other = other.as_ref().map_or("-".to_string(), spelled);
        let word = word.map_or("-".to_string(), |word| words.spelled(word));
        println!(
            "D {} {} {other} {word}",
            kind.number(),
            words.spell(subject)
        );
    }
    if refused.more {
        println!("more");
    }
}

/// The status of one sheet.
fn answer(sheet: &[u8]) -> u8 {
    match (schedule_vec(sheet, RowLimit::default()), Words::read(sheet)) {
        (Ok(packed), Some(words)) => match print_schedule(&words, &packed) {
            Ok(()) => 0,
            Err(malformed) => {
                eprintln!("lines: {malformed}");
                2
            }
        },
        (Ok(_), None) => {
            eprintln!("lines: the words of an accepted sheet cannot be read");
            2
        }
        (Err(refused), _) => {
            print_refusal(sheet, &refused);
            1
        }
    }
}

fn main() -> ExitCode {
    let files: Vec<String> = env::args().skip(1).collect();
    let mut worst = 0;
    for file in &files {
        if files.len() > 1 {
            println!("== {file}");
        }
        let status = match fs::read(file) {
            Ok(sheet) => answer(&sheet),
            Err(error) => {
                eprintln!("lines: {file}: {error}");
                2
            }
        };
        worst = worst.max(status);
    }
    ExitCode::from(worst)
}
