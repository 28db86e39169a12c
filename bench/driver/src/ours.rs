//! Our side: the exported calls on the bytes of a sheet. The anchor's calls in C have the same form but for the row limit, which
//! they do not take.

use crate::{Found, Side, Work};
use std::hint::black_box;
use std::time::{Duration, Instant};

/// The row limit under which both sides write: that of the Rust's side.
const ROWS: u32 = 256;

type Exported = unsafe extern "C" fn(
    *const u8,
    usize,
    u32,
    *mut u8,
    usize,
    *mut u8,
    usize,
    *mut u32,
    usize,
) -> u32;

type Anchor =
    unsafe extern "C" fn(*const u8, usize, *mut u8, usize, *mut u8, usize, *mut u32, usize) -> u32;

/// A call of ours, or of the anchor.
#[derive(Clone, Copy)]
enum Call {
    Exported(Exported),
    Anchor(Anchor),
}

macro_rules! linked {
    ($name:ident $($rows:tt)*) => {
        extern "C" {
            fn $name(
                sheet: *const u8, sheet_len: usize, $($rows)* listing: *mut u8, listing_len: usize,
                diagnosis: *mut u8, diagnosis_len: usize, parts: *mut u32, parts_len: usize,
            ) -> u32;
        }
    };
}

linked!(gidzelma_order rows: u32,);
#[cfg(feature = "schedule")]
linked!(gidzelma_schedule rows: u32,);
#[cfg(feature = "anchor")]
linked!(fast_order);
#[cfg(feature = "anchor")]
linked!(fast_schedule);

/// Who wrote the call: we, with its proof, or the anchor's author, in C.
pub enum By {
    Proof,
    Hand,
}

pub struct Ours {
    call: Call,
    work: Work,
    sheet: Vec<u8>,
    listing: Vec<u8>,
    diagnosis: Vec<u8>,
    parts: [u32; 3],
}

fn call_of(by: By, work: Work) -> Call {
    match (by, work) {
        (By::Proof, Work::Order) => Call::Exported(gidzelma_order),
        #[cfg(feature = "schedule")]
        (By::Proof, Work::Schedule) => Call::Exported(gidzelma_schedule),
        #[cfg(feature = "anchor")]
        (By::Hand, Work::Order) => Call::Anchor(fast_order),
        #[cfg(feature = "anchor")]
        (By::Hand, Work::Schedule) => Call::Anchor(fast_schedule),
        _ => panic!("the library has no such call"),
    }
}

impl Ours {
    /// The listing takes the longest schedule that was found, 239,675 bytes.
    pub fn new(bytes: &[u8], by: By, work: Work) -> Ours {
        Ours {
            call: call_of(by, work),
            work,
            sheet: bytes.to_vec(),
            listing: vec![0; 1 << 18],
            diagnosis: vec![0; 6 * ROWS as usize],
            parts: [0; 3],
        }
    }

    #[inline(never)]
    fn timed_call(&mut self) -> u32 {
        black_box(self.call())
    }

    #[inline(always)]
    fn call(&mut self) -> u32 {
        let (sheet, listing) = (black_box(&self.sheet), &mut self.listing);
        let (diagnosis, parts) = (&mut self.diagnosis, &mut self.parts);
        let (lent, room) = (listing.as_mut_ptr(), listing.len());
        let (rows, rows_len) = (diagnosis.as_mut_ptr(), diagnosis.len());
        let (told, count) = (parts.as_mut_ptr(), parts.len());
        let (given, size) = (sheet.as_ptr(), sheet.len());
        // SAFETY: pointers and lengths of four slices that do not overlap.
        unsafe {
            match self.call {
                Call::Exported(call) => {
                    call(given, size, ROWS, lent, room, rows, rows_len, told, count)
                }
                Call::Anchor(call) => call(given, size, lent, room, rows, rows_len, told, count),
            }
        }
    }

    fn field(&self, at: &mut usize, width: usize) -> usize {
        let bit = |at: usize| usize::from(self.listing[at / 8] >> (7 - at % 8) & 1);
        *at += width;
        (*at - width..*at).fold(0, |sum, at| sum << 1 | bit(at))
    }

    /// The item count that stands behind the names.
    fn items(&self) -> usize {
        let mut at = 0;
        for _ in 0..self.field(&mut at, 7) {
            self.field(&mut at, 8);
            if self.field(&mut at, 1) == 1 {
                self.field(&mut at, 8);
            }
        }
        self.field(&mut at, 16)
    }
}

impl Side for Ours {
    fn find(&mut self) -> Found {
        let number = self.call();
        let items = if number == 0 && self.work == Work::Schedule {
            self.items()
        } else {
            0
        };
        Found { number, items }
    }

    fn run(&mut self) -> Duration {
        let begin = Instant::now();
        self.timed_call();
        begin.elapsed()
    }
}
