//! The rows of a tariff: `docs/FORMAT.md`, section 13.

use crate::{Item, TARIFF_ROW_LEN};

/// Which items a row of a tariff charges.
#[derive(Clone, Copy, Debug, PartialEq, Eq, PartialOrd, Ord, Hash)]
pub enum Sort {
    /// 0: resources that are not virtual.
    Real,
    /// 1: virtual resources.
    Virtual,
    /// 2: extension lines, those of virtual types too.
    Line,
}

impl Sort {
    /// The number: 0 to 2.
    pub fn number(self) -> i32 {
        match self {
            Sort::Real => 0,
            Sort::Virtual => 1,
            Sort::Line => 2,
        }
    }

    /// The sort of an item.
    pub fn of(item: &Item) -> Sort {
        match item {
            Item::Resource(made) if made.is_virtual => Sort::Virtual,
            Item::Resource(_) => Sort::Real,
            Item::Extension(_) => Sort::Line,
        }
    }
}

/// A row of a tariff. What a row may have is tested by [`tariff`](crate::tariff()).
#[derive(Clone, Copy, Debug, PartialEq, Eq, PartialOrd, Ord, Hash)]
pub struct TariffRow {
    /// Which items it charges.
    pub sort: Sort,
    /// From how many parents on it charges them: 2 to 17; of extension lines, which have none, 0.
    pub parents: u8,
    /// What it charges for each, in hundredths, from `-RATE_MAX` to [`RATE_MAX`](crate::RATE_MAX); below 0
    /// it is a credit.
    pub rate: i32,
}

impl TariffRow {
    /// Its numbers, as [`tariff`](crate::tariff()) takes them: sort, parents, rate.
    ///
    /// ```
    /// use gidzelma::{Sort, TariffRow};
    /// let row = TariffRow { sort: Sort::Virtual, parents: 3, rate: -5 };
    /// assert_eq!(row.numbers(), [1, 3, -5]);
    /// ```
    pub fn numbers(&self) -> [i32; TARIFF_ROW_LEN] {
        [self.sort.number(), i32::from(self.parents), self.rate]
    }

    /// Whether it charges an item: one of its sort that has as many parents as it names, or more. With this
    /// a sum can be laid out item by item.
    ///
    /// ```
    /// use gidzelma::{Item, Schedule, Sort, TariffRow};
    /// let packed = std::fs::read("../examples/base.schedule").unwrap();
    /// let row = TariffRow { sort: Sort::Real, parents: 2, rate: 1250 };
    /// let charged: Result<Vec<bool>, _> =
    ///     Schedule::read(&packed)?.items().map(|item| item.map(|item| row.charges(&item))).collect();
    /// assert_eq!(charged?, [true, false]); // the resource, and not the extension line
    /// # Ok::<(), gidzelma::Malformed>(())
    /// ```
    pub fn charges(&self, item: &Item) -> bool {
        let parents = match item {
            Item::Resource(made) => made.parents.len(),
            Item::Extension(_) => 0,
        };
        self.sort == Sort::of(item) && usize::from(self.parents) <= parents
    }
}
