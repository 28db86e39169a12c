//! The refusals.

use std::error::Error;
use std::fmt;

/// Why a sheet is turned back, by 1 to 10 and 17, a schedule or its records, by 11 and 12, or a tariff, by 14 to 16.
/// `docs/FORMAT.md`, 7.2, 12.3 and 13.2, has the condition of each.
#[derive(Clone, Copy, Debug, PartialEq, Eq, PartialOrd, Ord, Hash)]
#[non_exhaustive]
pub enum Refusal {
    /// 1: the sheet has more than [`SHEET_MAX`](crate::SHEET_MAX) bytes.
    SheetTooLong,
    /// 2: the diagnosis slice has fewer bytes than the [`RowLimit`](crate::RowLimit) needs.
    DiagnosisTooShort,
    /// 3: a field passes the end of the sheet.
    FieldPastEnd,
    /// 4: a field has a value that is not allowed.
    ValueNotAllowed,
    /// 5: the words don't ascend, or lack `resource` or `self`.
    BadWords,
    /// 6: something stands twice.
    Twice,
    /// 7: the sheet does not end where its last field does.
    BadFill,
    /// 8: the types have no order; the rows of the diagnosis say why.
    NoOrder,
    /// 9: what a type associates cannot be made; the rows of the diagnosis say why.
    RefusedInSynthesis,
    /// 10: the schedule, or the order, is longer than the listing.
    ListingTooShort,
    /// 11: a field, or its record, passes the end of the schedule or of the records.
    SchedulePastEnd,
    /// 12: a schedule has a number of words or a field that is not allowed, or does not end where its
    /// last field does.
    ScheduleNotAllowed,
    /// 14: the tariff has more than [`TARIFF_MAX`](crate::TARIFF_MAX) numbers.
    TariffTooLong,
    /// 15: a sort, a number of parents or a rate of the tariff is not allowed, or its last row is broken.
    TariffNotAllowed,
    /// 16: two rows of the tariff have one sort and one number of parents.
    TariffTwice,
    /// 17: the row limit is 0 or over [`ROWS_MAX`](crate::ROWS_MAX), which no [`RowLimit`](crate::RowLimit) is.
    RowLimitNotAllowed,
    /// A number that this version of the package does not know.
    Other(u32),
}

impl Refusal {
    /// The number: 1 to 12, 14 to 17, or that of [`Refusal::Other`].
    ///
    /// ```
    /// use gidzelma::Refusal;
    /// assert_eq!(Refusal::NoOrder.number(), 8);
    /// assert_eq!(Refusal::from(8), Refusal::NoOrder);
    /// assert_eq!(Refusal::NoOrder.to_string(), "refused 8: the types have no order");
    /// ```
    pub fn number(self) -> u32 {
        match self {
            Refusal::SheetTooLong => 1,
            Refusal::DiagnosisTooShort => 2,
            Refusal::FieldPastEnd => 3,
            Refusal::ValueNotAllowed => 4,
            Refusal::BadWords => 5,
            Refusal::Twice => 6,
            Refusal::BadFill => 7,
            Refusal::NoOrder => 8,
            Refusal::RefusedInSynthesis => 9,
            Refusal::ListingTooShort => 10,
            Refusal::SchedulePastEnd => 11,
            Refusal::ScheduleNotAllowed => 12,
            Refusal::TariffTooLong => 14,
            Refusal::TariffNotAllowed => 15,
            Refusal::TariffTwice => 16,
            Refusal::RowLimitNotAllowed => 17,
            Refusal::Other(number) => number,
        }
    }

    /// In words, a line for each.
    #[rustfmt::skip]
    fn said(self) -> &'static str {
        match self {
            Refusal::SheetTooLong => "the sheet is too long",
            Refusal::DiagnosisTooShort => "the diagnosis slice is too short",
            Refusal::FieldPastEnd => "a field passes the end of the sheet",
            Refusal::ValueNotAllowed => "a value that is not allowed",
            Refusal::BadWords => "the words do not ascend, or one that is needed is missing",
            Refusal::Twice => "something stands twice",
            Refusal::BadFill => "the sheet does not end where its last field does",
            Refusal::NoOrder => "the types have no order",
            Refusal::RefusedInSynthesis => "what a type associates cannot be made",
            Refusal::ListingTooShort => "the schedule is longer than the listing",
            Refusal::SchedulePastEnd => "a field, or its record, passes the end",
            Refusal::ScheduleNotAllowed => "no schedule has such a value, or such an end",
            Refusal::TariffTooLong => "the tariff is too long",
            Refusal::TariffNotAllowed => "a row of the tariff is not allowed, or the last one is broken",
            Refusal::TariffTwice => "two rows of the tariff have one sort and one number of parents",
            Refusal::RowLimitNotAllowed => "the row limit is not allowed",
            Refusal::Other(_) => "a number that this version does not know",
        }
    }
}

impl From<u32> for Refusal {
    fn from(number: u32) -> Refusal {
        match number {
            1 => Refusal::SheetTooLong,
            2 => Refusal::DiagnosisTooShort,
            3 => Refusal::FieldPastEnd,
            4 => Refusal::ValueNotAllowed,
            5 => Refusal::BadWords,
            6 => Refusal::Twice,
            7 => Refusal::BadFill,
            8 => Refusal::NoOrder,
            9 => Refusal::RefusedInSynthesis,
            10 => Refusal::ListingTooShort,
            11 => Refusal::SchedulePastEnd,
            12 => Refusal::ScheduleNotAllowed,
            14 => Refusal::TariffTooLong,
            15 => Refusal::TariffNotAllowed,
            16 => Refusal::TariffTwice,
            17 => Refusal::RowLimitNotAllowed,
            _ => Refusal::Other(number),
        }
    }
}

impl fmt::Display for Refusal {
    fn fmt(&self, to: &mut fmt::Formatter<'_>) -> fmt::Result {
        write!(to, "refused {}: {}", self.number(), self.said())
    }
}

impl Error for Refusal {}
