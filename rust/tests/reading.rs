//! The readers of words, rows, listings and records, also on bytes that no call wrote.

use gidzelma::{
    order_vec, read_order, schedule_vec, Extension, Item, Malformed, Mark, Name, Resource, Row,
    RowLimit, Rows, Schedule, Words, ROWS_MAX,
};

const BASE: &[u8] = include_bytes!("../../examples/base.sheet");
const PACKED: &[u8] = include_bytes!("../../examples/base.schedule");

fn items(packed: &[u8]) -> Result<Vec<Item>, Malformed> {
    Schedule::read(packed)?.items().collect()
}

#[test]
fn the_example() {
    assert_eq!(schedule_vec(BASE, RowLimit::default()).unwrap(), PACKED);
    let schedule = Schedule::read(PACKED).unwrap();
    let names = [Name::one(0), Name::one(2), Name::one(1)];
    assert_eq!(schedule.names(), names);
    assert_eq!(
        read_order(&order_vec(BASE, RowLimit::default()).unwrap()).unwrap(),
        names
    );
    let resource = Resource {
        owner: Name::one(0),
        word: 1,
        is_virtual: false,
        parents: vec![Name::one(1), Name::one(2)],
        marks: vec![Mark::Makelist],
    };
    let line = Extension {
        owner: Name::one(0),
        is_virtual: false,
        is_trait: false,
        word: 1,
    };
    assert_eq!(resource.name(), Name::two(0, 1));
    assert_eq!(
        items(PACKED).unwrap(),
        [Item::Resource(resource), Item::Extension(line)]
    );
}

/// The bytes of a text of hexadecimal digits.
fn hex(text: &str) -> Vec<u8> {
    (0..text.len())
        .step_by(2)
        .map(|at| u8::from_str_radix(&text[at..at + 2], 16).unwrap())
        .collect()
}

/// `p` nests `q.f`, which has a mark, and `t` under `p` associates `p.f`: both `t.f` have the same parents, and
/// the own one goes first, however the records and the parents are listed.
#[test]
fn one_order() {
    let sheet = hex(concat!(
        "1060b305c02e287265736f75726365239b2b63305d0200c0100001401000804002840204",
        "014020212201010000"
    ));
    let relisted = hex(concat!(
        "1060b305c02e287265736f75726365239b2b63305d020280804021220101005004002010",
        "00a10081001802000000"
    ));
    let packed = schedule_vec(&sheet, RowLimit::default()).unwrap();
    let words = Words::read(&sheet).unwrap();
    let lines: Vec<String> = items(&packed)
        .unwrap()
        .iter()
        .map(|item| words.line(item))
        .collect();
    let own = "R t.f 0 p.f,resource -";
    let inherited = "R t.f 0 p.f,resource makelist";
    assert_eq!(lines, [own, inherited, "E t 00 f"]);
    assert_eq!(
        schedule_vec(&relisted, RowLimit::default()).unwrap(),
        packed
    );
}

/// Cut short, with a byte more, or with a bit of the fill.
#[test]
fn ends() {
    for length in 0..PACKED.len() {
        assert_eq!(items(&PACKED[..length]), Err(Malformed::PastEnd));
    }
    let mut more = PACKED.to_vec();
    more.push(0);
    assert_eq!(items(&more), Err(Malformed::BadFill));
    let mut filled = PACKED.to_vec();
    filled[15] |= 1;
    assert_eq!(items(&filled), Err(Malformed::BadFill));
    assert_eq!(read_order(&[0]), Ok(vec![]));
    assert_eq!(read_order(&[1]), Err(Malformed::BadFill));
    assert_eq!(read_order(&[0, 0]), Err(Malformed::BadFill));
    assert_eq!(read_order(&[130]), Err(Malformed::NotAllowed));
    assert_eq!(items(&[0, 0, 0]), Ok(vec![]));
}

/// Behind what cannot be read, and behind the end, nothing comes.
#[test]
fn fused() {
    for packed in [PACKED, &PACKED[..9], &[0, 0, 1]] {
        let mut all = Schedule::read(packed).unwrap().items();
        let (_, most) = all.size_hint();
        assert!(all.by_ref().count() <= most.unwrap());
        assert!(all.next().is_none() && all.next().is_none());
        assert_eq!(all.size_hint(), (0, Some(0)));
    }
}

/// Numbers that look random, the same in each run.
struct Draws(u64);

impl Draws {
    fn next(&mut self) -> usize {
        self.0 ^= self.0 << 13;
        self.0 ^= self.0 >> 7;
        self.0 ^= self.0 << 17;
        (self.0 >> 16) as usize
    }
}

/// All that reads, on any bytes.
fn read_all(bytes: &[u8]) -> usize {
    let words = Words::read(bytes);
    let mut seen = words.iter().flat_map(Words::iter).count();
    for count in [0, 1, ROWS_MAX, usize::MAX] {
        let rows = Rows::of(bytes, count);
        assert_eq!(rows.len(), count.min(bytes.len() / 6));
        seen += rows.map(|row| row.subject.to_string().len()).sum::<usize>();
    }
    seen += read_order(bytes).map_or(0, |names| names.len());
    for schedule in [Schedule::read(bytes), Schedule::of_records(bytes)]
        .into_iter()
        .flatten()
    {
        seen += schedule.items().filter(Result::is_ok).count();
    }
    seen
}

/// Foreign bytes: random ones, and the example's with changed bits, cut or continued.
#[test]
fn foreign_bytes() {
    let mut draws = Draws(0x9E37_79B9_7F4A_7C15);
    let mut seen = 0;
    for round in 0..20_000 {
        let mut bytes: Vec<u8> = match round % 4 {
            0 => (0..draws.next() % 80).map(|_| draws.next() as u8).collect(),
            1 => (0..draws.next() % 400)
                .map(|_| (draws.next() % 3) as u8)
                .collect(),
            2 => BASE.to_vec(),
            _ => PACKED.to_vec(),
        };
        if !bytes.is_empty() {
            for _ in 0..draws.next() % 4 {
                let at = draws.next() % bytes.len();
                bytes[at] ^= 1 << (draws.next() % 8);
            }
            bytes.truncate(draws.next() % (2 * bytes.len()) + 1);
        }
        seen += read_all(&bytes);
    }
    assert!(seen > 20_000);
    read_all(&[255; 100_000]);
    read_all(&[0; 100_000]);
}

/// The most items that a count can tell, in bytes that lack them.
#[test]
fn count_without_items() {
    let schedule = Schedule::read(&[1, 255, 254, 0]).unwrap();
    assert_eq!((schedule.names().len(), schedule.count()), (0, 65_535));
    assert_eq!(
        schedule.items().collect::<Vec<_>>(),
        [Err(Malformed::PastEnd)]
    );
    assert_eq!(Schedule::read(&[1, 255]).unwrap_err(), Malformed::PastEnd);
}

#[test]
fn values_that_are_not_allowed() {
    // no type, one item: a resource `@0`, word 0, not virtual, with so many parents of so many words
    let with = |parents: u8, words: u8| {
        let mut bits = vec![0; 7 + 15];
        bits.push(1);
        bits.extend([0; 1 + 8 + 1 + 8 + 1]);
        bits.extend((0..5).rev().map(|at| parents >> at & 1));
        for _ in 0..parents {
            bits.extend([words >> 1 & 1, words & 1]);
            bits.extend(vec![0; 8 * usize::from(words)]);
        }
        bits.extend([0; 9]);
        let byte = |byte: &[u8]| (0..8).fold(0, |sum, at| sum << 1 | byte.get(at).unwrap_or(&0));
        bits.chunks(8).map(byte).collect::<Vec<u8>>()
    };
    for parents in 0..32 {
        let want = (2..=17).contains(&parents);
        assert_eq!(items(&with(parents, 1)).is_ok(), want, "{parents} parents");
    }
    assert_eq!(items(&with(2, 0)), Err(Malformed::NotAllowed));
    assert!(items(&with(2, 2)).is_ok() && items(&with(2, 3)).is_ok());
}

/// A slice that is longer or shorter than its rows.
#[test]
fn rows() {
    let length = RowLimit::MAX.diagnosis_len() + 5;
    let bytes: Vec<u8> = (0..=255).cycle().take(length).collect();
    assert_eq!(Rows::of(&bytes, usize::MAX).len(), ROWS_MAX);
    assert_eq!(Rows::of(&bytes[..11], 2).len(), 1);
    assert_eq!(Rows::of(&[], 1).len(), 0);
    let row = Row::from([6, 3, 4, 255, 255, 9]);
    assert_eq!(
        (row.subject, row.other, row.word),
        (Name::two(3, 4), None, Some(9))
    );
    assert_eq!(row.kind.to_string(), "duplicate");
    let absent = Row::from([255; 6]);
    assert_eq!(absent.subject.to_string(), "@255");
    assert_eq!((absent.other, absent.word), (None, None));
}

#[test]
fn names() {
    let mut all = [
        Name::one(1),
        Name::three(0, 1, 0),
        Name::two(0, 1),
        Name::one(0),
        Name::two(0, 0),
    ];
    all.sort();
    let shown: Vec<String> = all.iter().map(Name::to_string).collect();
    assert_eq!(shown, ["@0", "@0.@0", "@0.@1", "@0.@1.@0", "@1"]);
}

#[test]
fn words() {
    let words = Words::read(BASE).unwrap();
    assert_eq!((words.len(), words.is_empty()), (4, false));
    assert_eq!((words.get(3), words.get(4)), (Some("self"), None));
    assert_eq!(words.spell(&Name::three(0, 1, 200)), "base.file.@200");
    for length in 0..24 {
        assert_eq!(Words::read(&BASE[..length]), None);
    }
    assert!(Words::read(&BASE[..24]).is_some());
}
