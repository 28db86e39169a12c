//! The rows of a diagnosis, after refusals 8 and 9.

use crate::{Name, ROWS_MAX, ROWS_SHOWN, ROW_LEN};
use std::fmt;
use std::iter::{FusedIterator, Take};
use std::slice::ChunksExact;

/// The byte of what is absent.
const ABSENT: u8 = 255;

/// How many rows of a diagnosis a call writes at most: 1 to [`ROWS_MAX`]. Where the diagnosis slice suffices, the number
/// that it answers and the size are the same under every limit, and the rows under a smaller one are the first of those
/// under a larger one.
///
/// ```
/// use gidzelma::{RowLimit, ROWS_MAX};
/// let limit = RowLimit::new(100).unwrap();
/// assert_eq!((limit.rows(), limit.diagnosis_len()), (100, 600));
/// assert_eq!(RowLimit::new(ROWS_MAX), Some(RowLimit::MAX));
/// assert!(RowLimit::new(0).is_none() && RowLimit::new(ROWS_MAX + 1).is_none());
/// ```
#[derive(Clone, Copy, Debug, PartialEq, Eq, PartialOrd, Ord, Hash)]
pub struct RowLimit(u32);

impl RowLimit {
    /// The largest one.
    pub const MAX: RowLimit = RowLimit(ROWS_MAX as u32);

    /// A limit of so many rows, or `None` where that is not allowed.
    pub const fn new(rows: usize) -> Option<RowLimit> {
        if 1 <= rows && rows <= ROWS_MAX {
            Some(RowLimit(rows as u32))
        } else {
            None
        }
    }

    /// How many rows.
    pub const fn rows(self) -> usize {
        self.0 as usize
    }

    /// The bytes that a diagnosis slice needs; a shorter one is refused by 2.
    pub const fn diagnosis_len(self) -> usize {
        self.rows() * ROW_LEN
    }

    /// As the exported calls take it.
    pub(crate) const fn number(self) -> u32 {
        self.0
    }
}

/// That of the programs, [`ROWS_SHOWN`].
impl Default for RowLimit {
    fn default() -> RowLimit {
        RowLimit(ROWS_SHOWN as u32)
    }
}

/// What a row says of its subject.
#[derive(Clone, Copy, Debug, PartialEq, Eq, PartialOrd, Ord, Hash)]
#[non_exhaustive]
pub enum Kind {
    /// 1: the subject inherits `self`, the other name.
    InheritsSelf,
    /// 2: the subject inherits the other name, which closes a cycle.
    Cycle,
    /// 3: the subject inherits the other name, which is not declared.
    UndeclaredParent,
    /// 4: the other name, a class of the word, is not declared.
    UnknownClass,
    /// 5: the other name, a class of the word, is no resource.
    NoResource,
    /// 6: the subject's resource of the word is there already.
    Duplicate,
    /// A number that this version of the package does not know.
    Other(u8),
}

impl Kind {
    /// The number: 1 to 6, or that of [`Kind::Other`].
    pub fn number(self) -> u8 {
        match self {
            Kind::InheritsSelf => 1,
            Kind::Cycle => 2,
            Kind::UndeclaredParent => 3,
            Kind::UnknownClass => 4,
            Kind::NoResource => 5,
            Kind::Duplicate => 6,
            Kind::Other(number) => number,
        }
    }
}

impl From<u8> for Kind {
    fn from(number: u8) -> Kind {
        match number {
            1 => Kind::InheritsSelf,
            2 => Kind::Cycle,
            3 => Kind::UndeclaredParent,
            4 => Kind::UnknownClass,
            5 => Kind::NoResource,
            6 => Kind::Duplicate,
            _ => Kind::Other(number),
        }
    }
}

impl fmt::Display for Kind {
    fn fmt(&self, to: &mut fmt::Formatter<'_>) -> fmt::Result {
        to.write_str(match self {
            Kind::InheritsSelf => "inherits self",
            Kind::Cycle => "cycle",
            Kind::UndeclaredParent => "undeclared parent",
            Kind::UnknownClass => "unknown class",
            Kind::NoResource => "class that is no resource",
            Kind::Duplicate => "duplicate",
            Kind::Other(_) => "a kind that this version does not know",
        })
    }
}

/// A row of a diagnosis. Its words are numbers, which [`Words`](crate::Words) of the sheet spells.
#[derive(Clone, Copy, Debug, PartialEq, Eq, Hash)]
pub struct Row {
    /// What it says.
    pub kind: Kind,
    /// The type that it is about.
    pub subject: Name,
    /// The other name: a parent or a class.
    pub other: Option<Name>,
    /// The resource word.
    pub word: Option<u8>,
}

impl From<[u8; ROW_LEN]> for Row {
    fn from([kind, one, two, other, another, word]: [u8; ROW_LEN]) -> Row {
        Row {
            kind: Kind::from(kind),
            subject: name_of(one, two),
            other: (other != ABSENT).then(|| name_of(other, another)),
            word: (word != ABSENT).then_some(word),
        }
    }
}

fn name_of(first: u8, second: u8) -> Name {
    if second == ABSENT {
        Name::one(first)
    } else {
        Name::two(first, second)
    }
}

/// The rows of a diagnosis slice, in order.
#[derive(Clone, Debug)]
pub struct Rows<'a>(Take<ChunksExact<'a, u8>>);

impl<'a> Rows<'a> {
    /// The first `count` rows of a diagnosis slice, or as many as it has.
    ///
    /// ```
    /// use gidzelma::{Kind, Name, Row, Rows};
    /// let rows: Vec<Row> = Rows::of(&[2, 0, 255, 1, 255, 255], 1).collect();
    /// let want = Row { kind: Kind::Cycle, subject: Name::one(0), other: Some(Name::one(1)), word: None };
    /// assert_eq!(rows, [want]);
    /// ```
    pub fn of(diagnosis: &'a [u8], count: usize) -> Rows<'a> {
        Rows(diagnosis.chunks_exact(ROW_LEN).take(count))
    }
}

impl Iterator for Rows<'_> {
    type Item = Row;

    fn next(&mut self) -> Option<Row> {
        let bytes: [u8; ROW_LEN] = self.0.next()?.try_into().ok()?;
        Some(Row::from(bytes))
    }

    fn size_hint(&self) -> (usize, Option<usize>) {
        self.0.size_hint()
    }
}

impl ExactSizeIterator for Rows<'_> {}

impl FusedIterator for Rows<'_> {}
