//! Access schedules of dosing controllers, from Rust: the proved calls behind safe functions.
//!
//! A call turns a *sheet* (a bit-packed type map) into a bit-packed listing, or answers with one of eleven
//! refusals; two further calls turn a packed schedule into records of two bytes a field, and back, and one
//! sums what a tariff charges for its items. The calls are compiled Rattle; what each answers, and what it
//! leaves in the slices that it is lent, is proved for every input. What this package adds is not proved: the
//! owning calls, the rows of a tariff, and the readers of words, rows, listings and records, which are tested,
//! and which take any bytes without a panic.
//!
//! | to have | use |
//! |---|---|
//! | a schedule, or the order of its types, as bytes | [`schedule_vec`], [`order_vec`] |
//! | the same without allocation, in lent slices | [`schedule`], [`order`] |
//! | a schedule tested and read, field by field, and written | [`read_schedule_vec`], [`write_schedule_vec`], and [`read_schedule`], [`write_schedule`] in lent slices |
//! | what a schedule or its records hold | [`Schedule`], and [`Words`] of the sheet to spell it |
//! | what a tariff charges for a schedule | [`tariff`], over the numbers of its [`TariffRow`]s |
//! | why a sheet is turned back | [`Refused`] with its [`Row`]s, up to a [`RowLimit`], or [`Answer::rows`] |
//!
//! ```
//! use gidzelma::{schedule_vec, Item, RowLimit, Schedule, Words};
//!
//! # fn main() -> Result<(), Box<dyn std::error::Error>> {
//! let sheet = std::fs::read("../examples/base.sheet")?;
//! let packed = schedule_vec(&sheet, RowLimit::default())?;
//!
//! let words = Words::read(&sheet).expect("a sheet that is accepted has words");
//! let schedule = Schedule::read(&packed)?;
//! let types: Vec<String> = schedule.names().iter().map(|name| words.spell(name)).collect();
//! assert_eq!(types, ["base", "resource", "file"]);
//!
//! for item in schedule.items() {
//!     match item? {
//!         Item::Resource(made) => {
//!             assert_eq!(words.spell(&made.name()), "base.file");
//!             assert_eq!(made.parents.len(), 2);
//!         }
//!         Item::Extension(line) => assert_eq!(words.spell(&line.owner), "base"),
//!     }
//! }
//! # Ok(())
//! # }
//! ```
//!
//! A schedule that somebody sends is first read by the proved call, which tests every field of it:
//!
//! ```
//! use gidzelma::{read_schedule_vec, Schedule, Words};
//!
//! # fn main() -> Result<(), Box<dyn std::error::Error>> {
//! let words = Words::read(&std::fs::read("../examples/base.sheet")?).expect("words");
//! let packed = std::fs::read("../examples/base.schedule")?;
//! let records = read_schedule_vec(words.len(), &packed)?;
//!
//! let mut lines = vec![];
//! for item in Schedule::of_records(&records)?.items() {
//!     lines.push(words.line(&item?));
//! }
//! assert_eq!(lines, ["R base.file 0 file,resource makelist", "E base 00 file"]);
//! # Ok(())
//! # }
//! ```
//!
//! A tariff has rows, which add up: each charges the items of its sort from a number of parents on.
//!
//! ```
//! use gidzelma::{tariff, Sort, TariffRow};
//!
//! # fn main() -> Result<(), Box<dyn std::error::Error>> {
//! let rows = [
//!     TariffRow { sort: Sort::Real, parents: 2, rate: 1250 },
//!     TariffRow { sort: Sort::Real, parents: 3, rate: 400 },
//!     TariffRow { sort: Sort::Line, parents: 0, rate: -5 },
//! ];
//! let numbers: Vec<i32> = rows.iter().flat_map(TariffRow::numbers).collect();
//! let packed = std::fs::read("../examples/base.schedule")?;
//! assert_eq!(tariff(&numbers, 4, &packed)?, 1245); // in hundredths; 4 is the number of words
//! # Ok(())
//! # }
//! ```
//!
//! # Threads
//!
//! The calls keep nothing, so that threads may call at the same time. They need stack, on the maps that
//! were tried up to 1.04 MB for a schedule that is refused with 9, and 0.05 MB for any other and for an order;
//! less than 0.01 MB between a schedule and its records, and for a tariff; a thread that has less is ended by
//! a signal. A thread of [`std::thread::spawn`] has 2 MiB; this one has more:
//!
//! ```
//! let sheet = std::fs::read("../examples/base.sheet").unwrap();
//! let thread = std::thread::Builder::new()
//!     .stack_size(gidzelma::STACK_LEN)
//!     .spawn(move || gidzelma::schedule_vec(&sheet, gidzelma::RowLimit::default()))
//!     .unwrap();
//! assert_eq!(thread.join().unwrap().unwrap().len(), 16);
//! ```

#![deny(missing_docs)]

mod calls;
mod listing;
mod names;
mod refusal;
mod rows;
mod tariff;

pub use calls::{
    order, order_vec, read_schedule, read_schedule_vec, schedule, schedule_vec, tariff,
    write_schedule, write_schedule_vec, Answer, Refused,
};
pub use listing::{read_order, Extension, Item, Items, Malformed, Mark, Resource, Schedule};
pub use names::{Name, Words};
pub use refusal::Refusal;
pub use rows::{Kind, Row, RowLimit, Rows};
pub use tariff::{Sort, TariffRow};

/// The bytes of the longest sheet that is read; a longer one is refused by 1.
pub const SHEET_MAX: usize = 40_960;

/// The bytes of a diagnosis row.
pub const ROW_LEN: usize = 6;

/// The largest row limit; the least is 1.
pub const ROWS_MAX: usize = 256;

/// The row limit of the programs, and of `RowLimit::default()`.
pub const ROWS_SHOWN: usize = 64;

/// The bytes that always suffice for an order.
pub const ORDER_MAX: usize = 137;

/// The bytes that always suffice for a schedule, by a proved bound. The longest that was found has
/// 239,675 bytes, and those of ordinary maps a few hundred.
pub const SCHEDULE_MAX: usize = 20_949_739;

/// The bytes of a record: a field of a schedule, the high byte first.
pub const RECORD_LEN: usize = 2;

/// The bytes of records for each byte of a schedule that always suffice: a field has a bit at least. The
/// records of ordinary maps take three to four times the bytes of the schedule.
pub const RECORDS_PER_BYTE: usize = 16;

/// The numbers of a row of a tariff.
pub const TARIFF_ROW_LEN: usize = 3;

/// The numbers that a tariff has at most, those of 33 rows; a longer one is refused by 14.
pub const TARIFF_MAX: usize = 99;

/// The greatest rate of a row, in hundredths; the least is `-RATE_MAX`.
pub const RATE_MAX: i32 = 99_999;

/// The bytes of stack that suffice for a call.
pub const STACK_LEN: usize = 4 << 20;
