//! Prints what a tariff charges for each item of a packed schedule, with the words of its sheet, and the sum,
//! which is the proved call's:
//!
//!     cargo run --offline --example tariff -- ../examples/base.sheet ../examples/base.schedule real:2:1250 line:0:100
//!
//! A row of the tariff is its sort, its number of parents and its rate in hundredths. The status is 0, 1 if the
//! tariff or the schedule is refused, 2 if something cannot be read.

use gidzelma::{tariff, Schedule, Sort, TariffRow, Words};
use std::process::ExitCode;
use std::{env, fs};

/// A row of a tariff, such as `virtual:2:-5`.
fn row_of(text: &str) -> Option<TariffRow> {
    let mut parts = text.split(':');
    let sort = match parts.next()? {
        "real" => Sort::Real,
        "virtual" => Sort::Virtual,
        "line" => Sort::Line,
        _ => return None,
    };
    let row = TariffRow {
        sort,
        parents: parts.next()?.parse().ok()?,
        rate: parts.next()?.parse().ok()?,
    };
    parts.next().is_none().then_some(row)
}

/// Hundredths as they are printed. The sign is written by itself: the whole part of -5 is 0, which has none.
fn printed(hundredths: i64) -> String {
    let sign = if hundredths < 0 { "-" } else { "" };
    let size = hundredths.unsigned_abs();
    format!("{sign}{}.{:02}", size / 100, size % 100)
}

/// The status, or what cannot be read.
fn charge(sheet: &str, schedule: &str, rows: &[TariffRow]) -> Result<u8, String> {
    let bytes = |file: &str| fs::read(file).map_err(|error| format!("{file}: {error}"));
    let (packed, sheet) = (bytes(schedule)?, bytes(sheet)?);
    let words = Words::read(&sheet).ok_or("the words of the sheet cannot be read")?;
    let numbers: Vec<i32> = rows.iter().flat_map(TariffRow::numbers).collect();
    let total = match tariff(&numbers, words.len(), &packed) {
        Ok(total) => total,
        Err(refusal) => {
            println!("refused {}", refusal.number());
            return Ok(1);
        }
    };
    let schedule = Schedule::read(&packed).map_err(|malformed| malformed.to_string())?;
    for item in schedule.items() {
        let item = item.map_err(|malformed| malformed.to_string())?;
        let reached = rows.iter().filter(|row| row.charges(&item));
        let charged = reached.map(|row| i64::from(row.rate)).sum();
        println!("{} {}", printed(charged), words.line(&item));
    }
    println!("total {}", printed(total));
    Ok(0)
}

fn main() -> ExitCode {
    let given: Vec<String> = env::args().skip(1).collect();
    let [sheet, schedule, rows @ ..] = given.as_slice() else {
        eprintln!("usage: tariff SHEET SCHEDULE [SORT:PARENTS:RATE...]");
        return ExitCode::from(2);
    };
    let rows: Option<Vec<TariffRow>> = rows.iter().map(|row| row_of(row)).collect();
    let done = match rows {
        Some(rows) => charge(sheet, schedule, &rows),
        None => Err("a row is a sort, a number of parents, a rate: real:2:1250".to_string()),
    };
    match done {
        Ok(status) => ExitCode::from(status),
        Err(why) => {
            eprintln!("tariff: {why}");
            ExitCode::from(2)
        }
    }
}
