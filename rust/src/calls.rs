//! The calls themselves: `include/gidzelma.h` behind safe functions.

use crate::{Refusal, Row, RowLimit, Rows, RECORDS_PER_BYTE};
use std::error::Error;
use std::fmt;

/// What a call that takes a sheet answers.
#[derive(Clone, Copy, Debug, PartialEq, Eq)]
pub enum Answer {
    /// The listing's first `size` bytes are the answer. The rest of it, and the diagnosis slice,
    /// are as before.
    Accepted {
        /// How many bytes were written.
        size: usize,
    },
    /// Turned back by one of 1 to 7, or 17; both slices are as before.
    Refused(Refusal),
    /// Turned back by 8 or 9: the diagnosis slice's first `6 * rows` bytes are its rows. All else is as
    /// before.
    Diagnosed {
        /// Which of the two.
        refusal: Refusal,
        /// How many rows were written.
        rows: usize,
        /// Whether there are more than these, beyond the row limit.
        more: bool,
    },
    /// Turned back by 10: a listing of `size` bytes would do. Both slices are as before.
    TooShort {
        /// How many bytes are needed.
        size: usize,
    },
}

impl Answer {
    /// The number: 0 for acceptance, else that of the refusal.
    pub fn number(self) -> u32 {
        self.refusal().map_or(0, Refusal::number)
    }

    /// The refusal, or `None` for acceptance.
    pub fn refusal(self) -> Option<Refusal> {
        match self {
            Answer::Accepted { .. } => None,
            Answer::Refused(refusal) | Answer::Diagnosed { refusal, .. } => Some(refusal),
            Answer::TooShort { .. } => Some(Refusal::ListingTooShort),
        }
    }

    /// The rows that the call left in its diagnosis slice; none but after 8 and 9.
    pub fn rows(self, diagnosis: &[u8]) -> Rows<'_> {
        match self {
            Answer::Diagnosed { rows, .. } => Rows::of(diagnosis, rows),
            _ => Rows::of(diagnosis, 0),
        }
    }
}

/// A sheet that is turned back, with the rows of its diagnosis.
#[derive(Clone, Debug, PartialEq, Eq)]
pub struct Refused {
    /// Why.
    pub refusal: Refusal,
    /// The rows, after 8 and 9, up to the row limit.
    pub rows: Vec<Row>,
    /// Whether there are more rows than these.
    pub more: bool,
}

impl fmt::Display for Refused {
    fn fmt(&self, to: &mut fmt::Formatter<'_>) -> fmt::Result {
        self.refusal.fmt(to)?;
        match (self.rows.len(), self.more) {
            (0, _) => Ok(()),
            (1, false) => to.write_str(" (1 row)"),
            (rows, false) => write!(to, " ({rows} rows)"),
            (rows, true) => write!(to, " ({rows} rows, and there are more)"),
        }
    }
}

impl Error for Refused {}

impl From<Refused> for Refusal {
    fn from(refused: Refused) -> Refusal {
        refused.refusal
    }
}

type Call = unsafe extern "C" fn(
    *const u8,
    usize,
    u32,
    *mut u8,
    usize,
    *mut u8,
    usize,
    *mut u32,
    usize,
) -> u32;

extern "C" {
    fn gidzelma_schedule(
        sheet: *const u8,
        sheet_len: usize,
        rows: u32,
        listing: *mut u8,
        listing_len: usize,
        diagnosis: *mut u8,
        diagnosis_len: usize,
        parts: *mut u32,
        parts_len: usize,
    ) -> u32;
    fn gidzelma_order(
        sheet: *const u8,
        sheet_len: usize,
        rows: u32,
        listing: *mut u8,
        listing_len: usize,
        diagnosis: *mut u8,
        diagnosis_len: usize,
        parts: *mut u32,
        parts_len: usize,
    ) -> u32;
    fn gidzelma_read_schedule(
        w: usize,
        schedule: *const u8,
        schedule_len: usize,
        records: *mut u8,
        records_len: usize,
        parts: *mut u32,
        parts_len: usize,
    ) -> u32;
    fn gidzelma_write_schedule(
        w: usize,
        records: *const u8,
        records_len: usize,
        schedule: *mut u8,
        schedule_len: usize,
        parts: *mut u32,
        parts_len: usize,
    ) -> u32;
    fn gidzelma_tariff(
        tariff: *const i32,
        tariff_len: usize,
        w: usize,
        schedule: *const u8,
        schedule_len: usize,
        total: *mut i64,
    ) -> u32;
}

type Conversion =
    unsafe extern "C" fn(usize, *const u8, usize, *mut u8, usize, *mut u32, usize) -> u32;

/// The schedule call: the order of a sheet's types and the items of its access schedule, packed, in a lent
/// listing. One that is too short is answered with the size that is needed.
///
/// The items stand in one order: by the name of their type, then by word, then the type's own resources by
/// their parents, the inherited one, the extension line. Where two sheets that differ only in how they list
/// types and parents are accepted, the bytes written are equal.
///
/// ```
/// use gidzelma::{schedule, Answer, RowLimit};
/// let sheet = std::fs::read("../examples/base.sheet").unwrap();
/// let (limit, mut listing) = (RowLimit::default(), [0; 1024]);
/// let mut diagnosis = [0; RowLimit::MAX.diagnosis_len()]; // suffices under every limit
/// let answer = schedule(&sheet, limit, &mut listing, &mut diagnosis);
/// assert_eq!(answer, Answer::Accepted { size: 16 });
/// assert_eq!(schedule(&sheet, limit, &mut [], &mut diagnosis), Answer::TooShort { size: 16 });
/// ```
pub fn schedule(sheet: &[u8], limit: RowLimit, listing: &mut [u8], diagnosis: &mut [u8]) -> Answer {
    answer(gidzelma_schedule, sheet, limit, listing, diagnosis)
}

/// The order-only call: the number of a sheet's types and their names, in order and packed, in a lent
/// listing.
pub fn order(sheet: &[u8], limit: RowLimit, listing: &mut [u8], diagnosis: &mut [u8]) -> Answer {
    answer(gidzelma_order, sheet, limit, listing, diagnosis)
}

/// The packed access schedule of a sheet, or why there is none. The listing grows to the size that is
/// needed, so that refusal 10 does not come; of a diagnosis up to `limit` rows are told.
///
/// ```
/// use gidzelma::{schedule_vec, Refusal, RowLimit};
/// let sheet = std::fs::read("../examples/base.sheet").unwrap();
/// assert_eq!(schedule_vec(&sheet, RowLimit::default()).unwrap().len(), 16);
///
/// let refused = schedule_vec(&sheet[..20], RowLimit::default()).unwrap_err();
/// assert_eq!(refused.refusal, Refusal::FieldPastEnd);
/// assert_eq!(refused.to_string(), "refused 3: a field passes the end of the sheet");
/// ```
pub fn schedule_vec(sheet: &[u8], limit: RowLimit) -> Result<Vec<u8>, Refused> {
    grown(schedule, sheet, limit, FIRST_LENT)
}

/// The packed order of a sheet's types, or why there is none, likewise.
pub fn order_vec(sheet: &[u8], limit: RowLimit) -> Result<Vec<u8>, Refused> {
    grown(order, sheet, limit, crate::ORDER_MAX)
}

/// The bytes that are lent first for a schedule, which suffice for ordinary maps.
const FIRST_LENT: usize = 4096;

/// A call on a listing that grows, once, to the size that is needed.
fn grown(
    call: fn(&[u8], RowLimit, &mut [u8], &mut [u8]) -> Answer,
    sheet: &[u8],
    limit: RowLimit,
    first: usize,
) -> Result<Vec<u8>, Refused> {
    let mut listing = vec![0; first];
    let mut diagnosis = [0; RowLimit::MAX.diagnosis_len()];
    let mut answer = call(sheet, limit, &mut listing, &mut diagnosis);
    if let Answer::TooShort { size } = answer {
        listing.resize(size, 0);
        answer = call(sheet, limit, &mut listing, &mut diagnosis);
    }
    let refusal = match answer {
        Answer::Accepted { size } => {
            listing.truncate(size);
            listing.shrink_to_fit();
            return Ok(listing);
        }
        Answer::Refused(refusal) | Answer::Diagnosed { refusal, .. } => refusal,
        Answer::TooShort { .. } => Refusal::ListingTooShort,
    };
    Err(Refused {
        refusal,
        rows: answer.rows(&diagnosis).collect(),
        more: matches!(answer, Answer::Diagnosed { more: true, .. }),
    })
}

fn answer(
    call: Call,
    sheet: &[u8],
    limit: RowLimit,
    listing: &mut [u8],
    diagnosis: &mut [u8],
) -> Answer {
    // Three are lent, so 255, the answer to fewer, does not come.
    let mut parts = [0u32; 3];
    // SAFETY: pointers and lengths are those of slices, so they are not null, good for their
    // lengths, and do not overlap where one is written. The calls keep none of them.
    let number = unsafe {
        call(
            sheet.as_ptr(),
            sheet.len(),
            limit.number(),
            listing.as_mut_ptr(),
            listing.len(),
            diagnosis.as_mut_ptr(),
            diagnosis.len(),
            parts.as_mut_ptr(),
            parts.len(),
        )
    };
    let [size, rows, flag] = parts;
    match number {
        0 => Answer::Accepted {
            size: size as usize,
        },
        8 | 9 => Answer::Diagnosed {
            refusal: Refusal::from(number),
            rows: rows as usize,
            more: flag == 1,
        },
        10 => Answer::TooShort {
            size: size as usize,
        },
        _ => Answer::Refused(Refusal::from(number)),
    }
}

/// Reads a packed schedule into lent records, two bytes a field, and tells how many bytes it wrote. `w` is
/// the number of words of its sheet. [`RECORDS_PER_BYTE`] times the bytes of the schedule always suffice;
/// what is not written stays, and a refusal, 11 or 12, writes nothing.
///
/// ```
/// use gidzelma::{read_schedule, Refusal};
/// let packed = std::fs::read("../examples/base.schedule").unwrap();
/// let mut records = [0; 64];
/// assert_eq!(read_schedule(4, &packed, &mut records), Ok(52));
/// assert_eq!(records[..4], [0, 3, 0, 0]); // three types, the first with the word 0
/// assert_eq!(read_schedule(4, &packed, &mut [0; 51]), Err(Refusal::SchedulePastEnd));
/// assert_eq!(read_schedule(2, &packed, &mut records), Err(Refusal::ScheduleNotAllowed));
/// ```
pub fn read_schedule(w: usize, schedule: &[u8], records: &mut [u8]) -> Result<usize, Refusal> {
    converted(gidzelma_read_schedule, w, schedule, records)
}

/// Writes records as a packed schedule into lent bytes, and tells how many it wrote. As many bytes as the
/// records have always suffice; what is not written stays, and a refusal, 11 or 12, writes nothing.
pub fn write_schedule(w: usize, records: &[u8], schedule: &mut [u8]) -> Result<usize, Refusal> {
    converted(gidzelma_write_schedule, w, records, schedule)
}

/// The records of a packed schedule, or why it is none: a refusal of 12, or of 11 where it ends early.
///
/// ```
/// use gidzelma::{read_schedule_vec, write_schedule_vec, Refusal};
/// let packed = std::fs::read("../examples/base.schedule").unwrap();
/// let records = read_schedule_vec(4, &packed)?;
/// assert_eq!(write_schedule_vec(4, &records)?, packed);
/// assert_eq!(read_schedule_vec(4, &packed[..15]), Err(Refusal::SchedulePastEnd));
/// # Ok::<(), Refusal>(())
/// ```
pub fn read_schedule_vec(w: usize, schedule: &[u8]) -> Result<Vec<u8>, Refusal> {
    let mut records = vec![0; RECORDS_PER_BYTE * schedule.len()];
    let size = read_schedule(w, schedule, &mut records)?;
    records.truncate(size);
    records.shrink_to_fit();
    Ok(records)
}

/// The packed schedule of records, or why they are none.
pub fn write_schedule_vec(w: usize, records: &[u8]) -> Result<Vec<u8>, Refusal> {
    let mut schedule = vec![0; records.len()];
    let size = write_schedule(w, records, &mut schedule)?;
    schedule.truncate(size);
    schedule.shrink_to_fit();
    Ok(schedule)
}

fn converted(
    call: Conversion,
    w: usize,
    given: &[u8],
    output: &mut [u8],
) -> Result<usize, Refusal> {
    // Three are lent, so 255, the answer to fewer, does not come.
    let mut parts = [0u32; 3];
    // SAFETY: as in `answer`.
    let number = unsafe {
        call(
            w,
            given.as_ptr(),
            given.len(),
            output.as_mut_ptr(),
            output.len(),
            parts.as_mut_ptr(),
            parts.len(),
        )
    };
    match number {
        0 => Ok(parts[0] as usize),
        _ => Err(Refusal::from(number)),
    }
}

/// What a tariff charges for the items of a packed schedule, in hundredths, or why there is no sum. The
/// tariff is numbers, three a row, as [`TariffRow::numbers`](crate::TariffRow::numbers) has them; `w` is the
/// number of words of the schedule's sheet.
///
/// A row adds its rate for each item of its sort that has at least as many parents as the row names; the order
/// of the rows makes no difference. The tariff is tested first: 14, 15, 16; then the schedule is read as
/// [`read_schedule`] reads it, also for an empty tariff: 12, and 11 where it ends early. The sum is exact, and
/// lies within 104,854,951,440 of 0, whatever the tariff and the schedule.
///
/// ```
/// use gidzelma::{tariff, Refusal};
/// let packed = std::fs::read("../examples/base.schedule").unwrap();
/// // 12.50 for a resource of 2 parents or more, 4.00 besides from 3 parents on, 1.00 for an extension line
/// assert_eq!(tariff(&[0, 2, 1250, 0, 3, 400, 2, 0, 100], 4, &packed), Ok(1350));
/// assert_eq!(tariff(&[], 4, &packed), Ok(0));
/// assert_eq!(tariff(&[0, 1, 1250], 4, &packed), Err(Refusal::TariffNotAllowed));
/// assert_eq!(tariff(&[], 4, &packed[..15]), Err(Refusal::SchedulePastEnd));
/// ```
pub fn tariff(tariff: &[i32], w: usize, schedule: &[u8]) -> Result<i64, Refusal> {
    let mut total = 0;
    // SAFETY: as in `answer`; `total` is a variable of this function, which no slice overlaps.
    let number = unsafe {
        gidzelma_tariff(
            tariff.as_ptr(),
            tariff.len(),
            w,
            schedule.as_ptr(),
            schedule.len(),
            &mut total,
        )
    };
    match number {
        0 => Ok(total),
        _ => Err(Refusal::from(number)),
    }
}
