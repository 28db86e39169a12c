//! What the calls write, read: `docs/FORMAT.md`, sections 6 and 12.

use crate::{Name, RECORD_LEN};
use std::error::Error;
use std::fmt;
use std::iter::FusedIterator;

const TYPES_MAX: u16 = 64;
const PARENTS: std::ops::RangeInclusive<u16> = 2..=17;
const MARKS_MAX: u16 = 448;

/// Bytes that are no schedule, no order or no records of a schedule. What the calls write never is.
#[derive(Clone, Copy, Debug, PartialEq, Eq, Hash)]
#[non_exhaustive]
pub enum Malformed {
    /// A field passes the end.
    PastEnd,
    /// A field has a value that is not allowed.
    NotAllowed,
    /// The last bits are not zero, or more bytes follow.
    BadFill,
}

impl fmt::Display for Malformed {
    fn fmt(&self, to: &mut fmt::Formatter<'_>) -> fmt::Result {
        to.write_str(match self {
            Malformed::PastEnd => "a field passes the end",
            Malformed::NotAllowed => "a field has a value that is not allowed",
            Malformed::BadFill => "the bytes do not end where their last field does",
        })
    }
}

impl Error for Malformed {}

/// A cursor over fields, the highest bit of each byte first.
#[derive(Clone, Debug)]
pub(crate) struct Fields<'a> {
    bytes: &'a [u8],
    at: usize,
    /// Whether each field stands in a record of 16 bits, or in its own width.
    recorded: bool,
}

impl<'a> Fields<'a> {
    pub(crate) fn packed(bytes: &'a [u8]) -> Fields<'a> {
        Fields {
            bytes,
            at: 0,
            recorded: false,
        }
    }

    fn recorded(bytes: &'a [u8]) -> Fields<'a> {
        Fields {
            bytes,
            at: 0,
            recorded: true,
        }
    }

    /// A field of up to 16 bits.
    pub(crate) fn take(&mut self, width: usize) -> Result<u16, Malformed> {
        let value = self.bits(if self.recorded { 8 * RECORD_LEN } else { width })?;
        if u32::from(value) >> width != 0 {
            return Err(Malformed::NotAllowed);
        }
        Ok(value)
    }

    fn bits(&mut self, width: usize) -> Result<u16, Malformed> {
        let mut value = 0;
        for at in self.at..self.at + width {
            let byte = self.bytes.get(at / 8).ok_or(Malformed::PastEnd)?;
            value = value << 1 | u16::from(byte >> (7 - at % 8) & 1);
        }
        self.at += width;
        Ok(value)
    }

    fn flag(&mut self) -> Result<bool, Malformed> {
        Ok(self.take(1)? == 1)
    }

    pub(crate) fn byte(&mut self) -> Result<u8, Malformed> {
        let [_, low] = self.take(8)?.to_be_bytes();
        Ok(low)
    }

    /// A name of a type: a word, and a second one behind a flag.
    fn name(&mut self) -> Result<Name, Malformed> {
        let first = self.byte()?;
        if self.flag()? {
            Ok(Name::two(first, self.byte()?))
        } else {
            Ok(Name::one(first))
        }
    }

    /// The count of types and their names.
    fn names(&mut self) -> Result<Vec<Name>, Malformed> {
        let count = self.take(7)?;
        if count > TYPES_MAX {
            return Err(Malformed::NotAllowed);
        }
        (0..count).map(|_| self.name()).collect()
    }

    /// The name of a parent: its count of words, and the words.
    fn parent(&mut self) -> Result<Name, Malformed> {
        match self.take(2)? {
            1 => Ok(Name::one(self.byte()?)),
            2 => Ok(Name::two(self.byte()?, self.byte()?)),
            3 => Ok(Name::three(self.byte()?, self.byte()?, self.byte()?)),
            _ => Err(Malformed::NotAllowed),
        }
    }

    fn mark(&mut self) -> Result<Mark, Malformed> {
        if self.flag()? {
            Ok(Mark::Derive(self.byte()?))
        } else {
            Ok(Mark::Makelist)
        }
    }

    fn item(&mut self) -> Result<Item, Malformed> {
        if self.flag()? {
            self.extension().map(Item::Extension)
        } else {
            self.resource().map(Item::Resource)
        }
    }

    fn resource(&mut self) -> Result<Resource, Malformed> {
        let (owner, word, is_virtual) = (self.name()?, self.byte()?, self.flag()?);
        let count = self.take(5)?;
        if !PARENTS.contains(&count) {
            return Err(Malformed::NotAllowed);
        }
        let parents = (0..count)
            .map(|_| self.parent())
            .collect::<Result<_, _>>()?;
        let count = self.take(9)?;
        if count > MARKS_MAX {
            return Err(Malformed::NotAllowed);
        }
        let marks = (0..count).map(|_| self.mark()).collect::<Result<_, _>>()?;
        Ok(Resource {
            owner,
            word,
            is_virtual,
            parents,
            marks,
        })
    }

    fn extension(&mut self) -> Result<Extension, Malformed> {
        Ok(Extension {
            owner: self.name()?,
            is_virtual: self.flag()?,
            is_trait: self.flag()?,
            word: self.byte()?,
        })
    }

    /// Whether nothing is left but the zero bits that fill the last byte. No more was taken than there is.
    fn end(&self) -> Result<(), Malformed> {
        match (&self.bytes[self.at / 8..], self.at % 8) {
            ([], 0) => Ok(()),
            (&[last], taken @ 1..) if last << taken == 0 => Ok(()),
            _ => Err(Malformed::BadFill),
        }
    }
}

/// A mark of a resource.
#[derive(Clone, Copy, Debug, PartialEq, Eq, PartialOrd, Ord, Hash)]
pub enum Mark {
    /// `makelist`
    Makelist,
    /// `derive` with its tag.
    Derive(u8),
}

/// As the programs print it: `makelist`, `derive:7`.
impl fmt::Display for Mark {
    fn fmt(&self, to: &mut fmt::Formatter<'_>) -> fmt::Result {
        match self {
            Mark::Makelist => to.write_str("makelist"),
            Mark::Derive(tag) => write!(to, "derive:{tag}"),
        }
    }
}

/// A synthesized resource.
#[derive(Clone, Debug, PartialEq, Eq, Hash)]
pub struct Resource {
    /// The type that it is made for.
    pub owner: Name,
    /// Its word.
    pub word: u8,
    /// Whether it is virtual.
    pub is_virtual: bool,
    /// Its parents, in order.
    pub parents: Vec<Name>,
    /// Its marks, in order.
    pub marks: Vec<Mark>,
}

impl Resource {
    /// Its own name: that of its type, and its word.
    pub fn name(&self) -> Name {
        match *self.owner.words() {
            [first] => Name::two(first, self.word),
            [first, second, ..] => Name::three(first, second, self.word),
            [] => Name::one(self.word),
        }
    }
}

/// An extension line.
#[derive(Clone, Copy, Debug, PartialEq, Eq, Hash)]
pub struct Extension {
    /// The type.
    pub owner: Name,
    /// Whether the type is virtual.
    pub is_virtual: bool,
    /// Whether the type is a trait.
    pub is_trait: bool,
    /// The resource word.
    pub word: u8,
}

/// A line of a schedule.
#[derive(Clone, Debug, PartialEq, Eq, Hash)]
pub enum Item {
    /// A synthesized resource.
    Resource(Resource),
    /// An extension line.
    Extension(Extension),
}

/// A schedule, being read, packed or from its records. Any bytes may be given: those that are no schedule
/// are told by [`Malformed`], here or while the items are read. How many words there are is not known
/// here, so no word is too high; [`read_schedule`](crate::read_schedule) tests that too.
///
/// ```
/// use gidzelma::{Item, Malformed, Schedule};
/// let packed = std::fs::read("../examples/base.schedule").unwrap();
/// let schedule = Schedule::read(&packed)?;
/// let items = schedule.items().collect::<Result<Vec<Item>, Malformed>>()?;
/// assert_eq!((schedule.names().len(), schedule.count(), items.len()), (3, 2, 2));
///
/// let cut = Schedule::read(&packed[..9])?;
/// assert_eq!(cut.items().collect::<Vec<_>>(), [Err(Malformed::PastEnd)]);
/// # Ok::<(), Malformed>(())
/// ```
#[derive(Clone, Debug)]
pub struct Schedule<'a> {
    names: Vec<Name>,
    count: u16,
    rest: Fields<'a>,
}

impl<'a> Schedule<'a> {
    /// Reads the names and the count of items of a packed schedule.
    pub fn read(packed: &'a [u8]) -> Result<Schedule<'a>, Malformed> {
        Schedule::begun(Fields::packed(packed))
    }

    /// The same of the records of a schedule.
    ///
    /// ```
    /// use gidzelma::{read_schedule_vec, Item, Malformed, Schedule};
    /// let packed = std::fs::read("../examples/base.schedule").unwrap();
    /// let records = read_schedule_vec(4, &packed).unwrap();
    /// let schedule = Schedule::of_records(&records)?;
    /// let items = schedule.items().collect::<Result<Vec<Item>, Malformed>>()?;
    /// assert_eq!((schedule.names().len(), schedule.count(), items.len()), (3, 2, 2));
    /// # Ok::<(), Malformed>(())
    /// ```
    pub fn of_records(records: &'a [u8]) -> Result<Schedule<'a>, Malformed> {
        Schedule::begun(Fields::recorded(records))
    }

    fn begun(mut rest: Fields<'a>) -> Result<Schedule<'a>, Malformed> {
        let names = rest.names()?;
        let count = rest.take(16)?;
        Ok(Schedule { names, count, rest })
    }

    /// The names of the types, in order.
    pub fn names(&self) -> &[Name] {
        &self.names
    }

    /// How many items it says to have.
    pub fn count(&self) -> usize {
        usize::from(self.count)
    }

    /// The items, in order. The first that cannot be read is told, and nothing follows it; so is, behind
    /// the last item, what does not end where it should.
    pub fn items(&self) -> Items<'a> {
        Items {
            left: Some(self.count),
            fields: self.rest.clone(),
        }
    }
}

/// The items of a schedule, as they are read.
#[derive(Clone, Debug)]
pub struct Items<'a> {
    /// How many are left; `None` behind the end.
    left: Option<u16>,
    fields: Fields<'a>,
}

impl Iterator for Items<'_> {
    type Item = Result<Item, Malformed>;

    fn next(&mut self) -> Option<Self::Item> {
        let left = self.left.take()?;
        if left == 0 {
            return self.fields.end().err().map(Err);
        }
        let item = self.fields.item();
        if item.is_ok() {
            self.left = Some(left - 1);
        }
        Some(item)
    }

    fn size_hint(&self) -> (usize, Option<usize>) {
        (0, Some(self.left.map_or(0, |left| usize::from(left) + 1)))
    }
}

impl FusedIterator for Items<'_> {}

/// The names of the types, from what the order-only call writes.
///
/// ```
/// use gidzelma::{order_vec, read_order, Name, RowLimit};
/// let sheet = std::fs::read("../examples/base.sheet").unwrap();
/// let names = read_order(&order_vec(&sheet, RowLimit::default())?)?;
/// assert_eq!(names, [Name::one(0), Name::one(2), Name::one(1)]);
/// # Ok::<(), Box<dyn std::error::Error>>(())
/// ```
pub fn read_order(packed: &[u8]) -> Result<Vec<Name>, Malformed> {
    let mut fields = Fields::packed(packed);
    let names = fields.names()?;
    fields.end()?;
    Ok(names)
}
