//! The oracle: what the Rust says of a sheet. See README.md.

mod sheet;
mod worker;

use std::io::{self, BufRead, BufWriter, Read, Write};
use std::process::exit;

#[global_allocator]
static ALLOCATOR: worker::Counted = worker::Counted;

/// The Rust untouched.
mod rust {
    use cascade_rust as cascade;
    include!("run.rs");
    include!("pairs.rs");
}

/// With 01's equality of declarations.
mod by_01 {
    use cascade_01 as cascade;
    include!("run.rs");
}

/// Untouched but for the text of the error for a duplicate.
mod rust_rows {
    use cascade_rust_rows as cascade;
    include!("run.rs");
}

/// With 01's equality, and the text of the error for a duplicate replaced.
mod by_01_rows {
    use cascade_01_rows as cascade;
    include!("run.rs");
}

const USAGE: &str = "usage: oracle [OPTION...] [FILE]
  FILE                 a sheet; standard input if absent
  --order              organize_type_map alone
  --equality rust|01   how declarations are compared (rust)
  --duplicates rust|row  what makes the error for a duplicate (rust)
  --numbers            print `refused N` for 1 and 3 to 7, not `unreadable`
  --listing N          bytes of the listing, for refusal 10 (65536)
  --milliseconds N     processor time for a sheet (2000)
  --mebibytes N        memory for a sheet (512)
  --stack N            KiB of stack for a sheet (8192)
  --batch              many sheets, each led by its length in four bytes, the
                       highest first; after each answer a line `.`
  --pairs              lines `LEFT | RIGHT` to lines `INTERSECTION | DIFFERENCE`";

pub struct Settings {
    order: bool,
    equality_01: bool,
    duplicate_rows: bool,
    numbers: bool,
    listing: usize,
}

fn usage() -> ! {
    eprintln!("{USAGE}");
    exit(2)
}

fn fail(what: &str) -> ! {
    eprintln!("oracle: {what}");
    exit(2)
}

fn answer(bytes: &[u8], settings: &Settings) -> String {
    let sheet = match sheet::read(bytes) {
        Ok(sheet) => sheet,
        Err(number) if settings.numbers => return format!("refused {number}\n"),
        Err(_) => return "unreadable\n".to_string(),
    };
    match (settings.equality_01, settings.duplicate_rows) {
        (false, false) => rust::run(&sheet, settings),
        (true, false) => by_01::run(&sheet, settings),
        (false, true) => rust_rows::run(&sheet, settings),
        (true, true) => by_01_rows::run(&sheet, settings),
    }
}

/// The sheets of a batch.
fn split(bytes: &[u8]) -> Option<Vec<Vec<u8>>> {
    let mut out = Vec::new();
    let mut rest = bytes;
    while !rest.is_empty() {
        let (length, after) = rest.split_first_chunk::<4>()?;
        let length = u32::from_be_bytes(*length) as usize;
        out.push(after.get(..length)?.to_vec());
        rest = &after[length..];
    }
    Some(out)
}

fn pairs() {
    let mut out = BufWriter::new(io::stdout().lock());
    for line in io::stdin().lock().lines() {
        let line = line.unwrap_or_else(|_| fail("a line that is no text"));
        let text = rust::pair(&line).unwrap_or_else(|| fail(&format!("no pair: {line}")));
        if writeln!(out, "{text}").is_err() {
            return;
        }
    }
}

fn main() {
    let mut settings = Settings {
        order: false,
        equality_01: false,
        duplicate_rows: false,
        numbers: false,
        listing: 65_536,
    };
    let mut limits = worker::Limits {
        milliseconds: 2000,
        memory: 512 << 20,
        stack: 8 << 20,
    };
    let (mut batch, mut file) = (false, None);
    let mut arguments = std::env::args().skip(1);
    while let Some(argument) = arguments.next() {
        let mut value = || arguments.next().unwrap_or_else(|| usage());
        match argument.as_str() {
            "--order" => settings.order = true,
            "--equality" => {
                settings.equality_01 = match value().as_str() {
                    "rust" => false,
                    "01" => true,
                    _ => usage(),
                }
            }
            "--duplicates" => {
                settings.duplicate_rows = match value().as_str() {
                    "rust" => false,
                    "row" => true,
                    _ => usage(),
                }
            }
            "--numbers" => settings.numbers = true,
            "--listing" => settings.listing = value().parse().unwrap_or_else(|_| usage()),
            "--milliseconds" => limits.milliseconds = value().parse().unwrap_or_else(|_| usage()),
            "--mebibytes" => {
                limits.memory = value().parse::<usize>().unwrap_or_else(|_| usage()) << 20
            }
            "--stack" => limits.stack = value().parse::<u64>().unwrap_or_else(|_| usage()) << 10,
            "--batch" => batch = true,
            "--pairs" => return pairs(),
            _ if argument.starts_with('-') || file.is_some() => usage(),
            _ => file = Some(argument),
        }
    }
    let mut bytes = Vec::new();
    let got = match &file {
        Some(path) => std::fs::read(path).map(|read| bytes = read),
        None => io::stdin().read_to_end(&mut bytes).map(|_| ()),
    };
    if let Err(error) = got {
        fail(&format!("{}: {error}", file.as_deref().unwrap_or("standard input")));
    }
    let sheets = if batch {
        split(&bytes).unwrap_or_else(|| fail("a batch that ends within a sheet"))
    } else {
        vec![bytes]
    };
    let mut out = BufWriter::new(io::stdout().lock());
    let end = if batch { ".\n" } else { "" };
    let one = |bytes: &[u8]| answer(bytes, &settings);
    // The first backtrace of a process is slow; children inherit what it found.
    let warm = || drop(cascade_rust::error::InternalError::new());
    worker::answer_all(&sheets, &limits, &one, warm, |text| {
        if write!(out, "{text}{end}").is_err() {
            exit(1);
        }
    });
}
