//! Times our call, or the Rust's functions, on one sheet. See bench/README.md.
//!
//!     bench SIDE CALL FILE MILLISECONDS     repeats for so long
//!     bench SIDE CALL FILE once             one repetition, for callgrind
//!
//! SIDE is `ours`, `anchor` (the same calls in C), `rust` (with 01's equality), `whole` (the same, the reading of the sheet and the
//! building of the type map within the clock) or `untouched`; CALL is `order`, `schedule`, or, for
//! the Rust, `apply`: apply_associate_annotations alone.
//! Prints: the number, how many items, repetitions, the least nanoseconds, their median.
#![allow(dead_code)]

#[path = "@DRIVER@/sheet.rs"]
mod sheet;

use std::hint::black_box;
use std::time::{Duration, Instant};

/// The Rust with 01's equality of declarations.
mod by_01 {
    use cascade_01 as cascade;
    include!("@DRIVER@/run.rs");
    include!("timed.rs");
}

/// The Rust untouched.
mod untouched {
    use cascade_rust as cascade;
    include!("@DRIVER@/run.rs");
    include!("timed.rs");
}

mod ours;

/// What run.rs asks for.
pub struct Settings {
    order: bool,
    listing: usize,
}

#[derive(Clone, Copy, PartialEq)]
pub enum Work {
    Order,
    Apply,
    Schedule,
}

/// What a side found: the number, and how many items.
#[derive(Clone, Copy)]
pub struct Found {
    number: u32,
    items: usize,
}

/// A side: prepared once for a sheet, then run many times. `run` gives the clock's time.
pub trait Side {
    /// The work without the clock, and what it found.
    fn find(&mut self) -> Found;
    /// The work once; what is made is dropped behind the clock.
    fn run(&mut self) -> Duration;
}

/// Repeats until the time is over; the repetitions in ascending order.
fn repeat(side: &mut dyn Side, budget: Duration) -> Vec<u128> {
    let mut out = Vec::new();
    let begin = Instant::now();
    while out.is_empty() || begin.elapsed() < budget {
        out.push(side.run().as_nanos());
    }
    out.sort();
    out
}

fn main() {
    let words: Vec<String> = std::env::args().skip(1).collect();
    let [side, work, file, time] = words.as_slice() else {
        panic!("usage: bench SIDE CALL FILE MILLISECONDS|once");
    };
    let work = match work.as_str() {
        "order" => Work::Order,
        "apply" => Work::Apply,
        "schedule" => Work::Schedule,
        _ => panic!("no such call: {work}"),
    };
    let bytes = std::fs::read(file).expect("the sheet");
    let mut side: Box<dyn Side> = match side.as_str() {
        "ours" => Box::new(ours::Ours::new(&bytes, ours::By::Proof, work)),
        "anchor" => Box::new(ours::Ours::new(&bytes, ours::By::Hand, work)),
        "rust" => Box::new(by_01::Rust::new(&bytes, work)),
        "whole" => Box::new(by_01::Whole::new(&bytes, work)),
        "untouched" => Box::new(untouched::Rust::new(&bytes, work)),
        _ => panic!("no such side: {side}"),
    };
    let found = side.find();
    let runs = match time.as_str() {
        "once" => vec![side.run().as_nanos()],
        number => {
            let milliseconds = number.parse().expect("milliseconds");
            repeat(side.as_mut(), Duration::from_millis(milliseconds))
        }
    };
    let (least, median) = (runs[0], runs[runs.len() / 2]);
    let Found { number, items } = black_box(found);
    println!("{number} {items} {} {least} {median}", runs.len());
}
