//! The call that sums what a tariff charges, and the rows of a tariff.

use gidzelma::{
    tariff, write_schedule_vec, Extension, Item, Name, Refusal, Resource, Schedule, Sort,
    TariffRow, RATE_MAX, TARIFF_MAX, TARIFF_ROW_LEN,
};

const PACKED: &[u8] = include_bytes!("../../examples/base.schedule");
const W: usize = 4;

const REAL: i32 = 0;
const VIRTUAL: i32 = 1;
const LINE: i32 = 2;

/// The packed schedule of values, a record each, over two words.
fn packed(values: &[u16]) -> Vec<u8> {
    let records: Vec<u8> = values
        .iter()
        .flat_map(|value| value.to_be_bytes())
        .collect();
    write_schedule_vec(2, &records).unwrap()
}

/// The values of a resource with so many parents of one word.
fn resource(is_virtual: bool, parents: u16) -> Vec<u16> {
    let mut values = vec![0, 0, 0, 1, u16::from(is_virtual), parents];
    values.extend((0..parents).flat_map(|_| [1, 0]));
    values.push(0);
    values
}

/// Those of an extension line, with its virtual and its trait flag.
fn line(is_virtual: u16, is_trait: u16) -> Vec<u16> {
    vec![1, 0, 0, is_virtual, is_trait, 1]
}

/// A schedule of items, no type being listed.
fn schedule(items: &[Vec<u16>]) -> Vec<u8> {
    packed(&[&[0, items.len() as u16], &items.concat()[..]].concat())
}

/// `base.file` has two parents and is not virtual, and `base` has an extension line.
#[test]
fn the_example() {
    for (rates, want) in [
        (&[][..], 0),
        (&[REAL, 2, 1250], 1250),
        (&[REAL, 3, 400], 0),
        (&[VIRTUAL, 2, 700], 0),
        (&[LINE, 0, 100], 100),
        (
            &[REAL, 2, 1250, REAL, 3, 400, VIRTUAL, 2, 700, LINE, 0, 100],
            1350,
        ),
        (&[REAL, 2, -6, LINE, 0, 1], -5),
    ] {
        assert_eq!(tariff(rates, W, PACKED), Ok(want), "{rates:?}");
    }
}

/// A row charges from its number of parents on, and every row that is reached charges.
#[test]
fn reached() {
    for (sort, other, is_virtual) in [(REAL, VIRTUAL, false), (VIRTUAL, REAL, true)] {
        let all: Vec<i32> = (2..=17)
            .flat_map(|parents| [sort, parents, 1 << (parents - 2)])
            .collect();
        for parents in 2..=17 {
            let given = schedule(&[resource(is_virtual, parents)]);
            assert_eq!(tariff(&all, 2, &given), Ok((1 << (parents - 1)) - 1));
            for number in 2..=17 {
                let charged = i64::from(number <= i32::from(parents));
                assert_eq!(tariff(&[sort, number, 1], 2, &given), Ok(charged));
                assert_eq!(tariff(&[other, number, 1], 2, &given), Ok(0));
            }
            assert_eq!(tariff(&[LINE, 0, 1], 2, &given), Ok(0));
        }
    }
    let lines = schedule(&[line(0, 0), line(0, 1), line(1, 0), line(1, 1)]);
    assert_eq!(tariff(&[LINE, 0, 7], 2, &lines), Ok(28));
    assert_eq!(tariff(&[REAL, 2, 7, VIRTUAL, 2, 7], 2, &lines), Ok(0));
}

/// The order of the rows moves nothing, be the tariff taken or refused.
#[test]
fn order_of_rows() {
    let given = schedule(&[resource(false, 4), resource(true, 17), line(0, 0)]);
    let good = [
        [0, 2, 5],
        [0, 5, 70],
        [1, 17, -300],
        [2, 0, 11],
        [1, 2, 900],
    ];
    let twice = [[0, 2, 5], [1, 2, 6], [0, 2, 7], [2, 0, 8], [1, 3, 9]];
    let bad = [[0, 2, 5], [0, 2, 6], [2, 1, 7], [1, 2, 8], [1, 3, 9]];
    for (rows, want) in [
        (good, Ok(616)),
        (twice, Err(Refusal::TariffTwice)),
        (bad, Err(Refusal::TariffNotAllowed)),
    ] {
        for turned in 0..rows.len() {
            let mut rows = rows;
            rows.rotate_left(turned);
            assert_eq!(tariff(&rows.concat(), 2, &given), want);
            rows.reverse();
            assert_eq!(tariff(&rows.concat(), 2, &given), want);
        }
    }
}

/// The limits of a row.
#[test]
fn rows_that_are_allowed() {
    let given = schedule(&[]);
    let bad = Err(Refusal::TariffNotAllowed);
    for number in [i32::MIN, -1, 0, 1, 2, 3, 16, 17, 18, i32::MAX] {
        let want = if (2..=17).contains(&number) {
            Ok(0)
        } else {
            bad
        };
        assert_eq!(tariff(&[REAL, number, 1], 2, &given), want);
        assert_eq!(tariff(&[VIRTUAL, number, 1], 2, &given), want);
        let want = if number == 0 { Ok(0) } else { bad };
        assert_eq!(tariff(&[LINE, number, 1], 2, &given), want);
    }
    for sort in [i32::MIN, -1, 3, i32::MAX] {
        for number in [0, 2] {
            assert_eq!(tariff(&[sort, number, 1], 2, &given), bad);
        }
    }
    for rate in [-RATE_MAX, 0, RATE_MAX] {
        assert_eq!(tariff(&[REAL, 2, rate], 2, &given), Ok(0));
    }
    for rate in [i32::MIN, -RATE_MAX - 1, RATE_MAX + 1, i32::MAX] {
        assert_eq!(tariff(&[REAL, 2, rate], 2, &given), bad);
    }
}

/// 14, 15, 16, then W, then the schedule.
#[test]
fn order_of_tests() {
    let (too_long, bad) = (Refusal::TariffTooLong, Refusal::TariffNotAllowed);
    let numbers = [too_long, bad, Refusal::TariffTwice].map(Refusal::number);
    assert_eq!(numbers, [14, 15, 16]);
    // 100 numbers are too many, broken as they are; 98 are broken
    assert_eq!(tariff(&[0; TARIFF_MAX + 1], W, PACKED), Err(too_long));
    assert_eq!(tariff(&[0; TARIFF_MAX - 1], W, PACKED), Err(bad));
    assert_eq!(tariff(&[0; 300], 0, &[]), Err(too_long));
    // a broken row, behind two that have one key too
    for broken in [&[REAL][..], &[REAL, 2], &[7, 7]] {
        let rates = [&[REAL, 2, 1, REAL, 2, 1], broken].concat();
        assert_eq!(tariff(&rates, W, PACKED), Err(bad));
    }
    // a bad rate beside two rows with one key, before and behind them
    let twice = [REAL, 2, 1, REAL, 2, 2];
    let rate = [LINE, 0, RATE_MAX + 1];
    assert_eq!(tariff(&twice, W, PACKED), Err(Refusal::TariffTwice));
    for rows in [[&rate[..], &twice], [&twice, &rate]] {
        assert_eq!(tariff(&rows.concat(), W, PACKED), Err(bad));
    }
    // the tariff before W, W before the schedule, which an empty tariff has read too
    assert_eq!(tariff(&rate, 0, &[]), Err(bad));
    assert_eq!(tariff(&twice, 0, &[]), Err(Refusal::TariffTwice));
    for rates in [&[][..], &[REAL, 2, 1]] {
        let not_allowed = Err(Refusal::ScheduleNotAllowed);
        for w in [0, 1, 2, 201, usize::MAX] {
            assert_eq!(tariff(rates, w, PACKED), not_allowed);
        }
        assert_eq!(tariff(rates, 0, &[]), not_allowed);
        for length in 0..PACKED.len() {
            let cut = tariff(rates, W, &PACKED[..length]);
            assert_eq!(cut, Err(Refusal::SchedulePastEnd));
        }
        assert_eq!(tariff(rates, W, &[PACKED, &[0]].concat()), not_allowed);
        let mut filled = PACKED.to_vec();
        filled[15] |= 1;
        assert_eq!(tariff(rates, W, &filled), not_allowed);
    }
}

/// All rows that there can be are 33, and so many are taken.
#[test]
fn the_longest_tariff() {
    let rows: Vec<i32> = [REAL, VIRTUAL]
        .iter()
        .flat_map(|&sort| (2..=17).flat_map(move |parents| [sort, parents, -RATE_MAX]))
        .chain([LINE, 0, -RATE_MAX])
        .collect();
    assert_eq!(rows.len(), TARIFF_MAX);
    let given = schedule(&[resource(true, 17), line(1, 1)]);
    assert_eq!(tariff(&rows, 2, &given), Ok(-17 * i64::from(RATE_MAX)));
}

/// The most items, each charged by the most rows at the greatest rate; no other sum is as far from 0.
#[test]
fn the_greatest_sum() {
    let mut given = vec![0, 65_535];
    for _ in 0..65_535 {
        given.extend(resource(false, 17));
    }
    let given = packed(&given);
    for rate in [RATE_MAX, -RATE_MAX] {
        let rates: Vec<i32> = (2..=17).flat_map(|parents| [REAL, parents, rate]).collect();
        let want = 65_535 * 16 * i64::from(rate);
        assert_eq!(want.abs(), 104_854_951_440);
        assert_eq!(tariff(&rates, 2, &given), Ok(want));
    }
}

/// A sum laid out item by item, by the rows of this package, is that of the call.
#[test]
fn item_by_item() {
    let sorts = [
        (Sort::Real, REAL),
        (Sort::Virtual, VIRTUAL),
        (Sort::Line, LINE),
    ];
    for (sort, number) in sorts {
        assert_eq!(sort.number(), number);
    }
    let row = |sort, parents, rate| TariffRow {
        sort,
        parents,
        rate,
    };
    let rows = [
        row(Sort::Real, 2, 100),
        row(Sort::Real, 4, 10),
        row(Sort::Virtual, 3, -7),
        row(Sort::Line, 0, 1),
    ];
    let numbers: Vec<i32> = rows.iter().flat_map(TariffRow::numbers).collect();
    assert_eq!(numbers.len(), TARIFF_ROW_LEN * rows.len());
    let mut items = vec![line(1, 0)];
    for parents in 2..=17 {
        items.extend([resource(false, parents), resource(true, parents)]);
    }
    let given = schedule(&items);
    let mut sum = 0;
    for item in Schedule::read(&given).unwrap().items() {
        let item = item.unwrap();
        let reached = rows.iter().filter(|row| row.charges(&item));
        sum += reached.map(|row| i64::from(row.rate)).sum::<i64>();
    }
    assert_eq!(sum, 1 + 16 * 100 + 14 * 10 - 15 * 7);
    assert_eq!(tariff(&numbers, 2, &given), Ok(sum));
}

/// The sort of an extension line is its own, whatever its flags.
#[test]
fn sorts() {
    let made = |is_virtual| {
        Item::Resource(Resource {
            owner: Name::one(0),
            word: 1,
            is_virtual,
            parents: vec![Name::one(1); 2],
            marks: vec![],
        })
    };
    let line = Item::Extension(Extension {
        owner: Name::one(0),
        is_virtual: true,
        is_trait: false,
        word: 1,
    });
    assert_eq!(Sort::of(&made(false)), Sort::Real);
    assert_eq!(Sort::of(&made(true)), Sort::Virtual);
    assert_eq!(Sort::of(&line), Sort::Line);
    let row = TariffRow {
        sort: Sort::Line,
        parents: 1, // which no tariff may have
        rate: 1,
    };
    assert!(!row.charges(&line) && !row.charges(&made(true)));
}
