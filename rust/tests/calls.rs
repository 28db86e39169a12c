//! The calls on 01's worked example and on slices that are too short.

use gidzelma::{
    order, order_vec, schedule, schedule_vec, Answer, Kind, Name, Refusal, Row, RowLimit, ROWS_MAX,
    ROWS_SHOWN,
};

const BASE: &[u8] = include_bytes!("../../examples/base.sheet");

type Call = fn(&[u8], RowLimit, &mut [u8], &mut [u8]) -> Answer;

/// The bytes that suffice under every limit, and those of the limit of the programs.
const LONG: usize = RowLimit::MAX.diagnosis_len();
const SHOWN: usize = 6 * ROWS_SHOWN;

/// A sheet of fields, each a width and a value.
fn fields(some: &[(usize, u32)]) -> Vec<u8> {
    let bits: Vec<u8> = some
        .iter()
        .flat_map(|&(width, value)| (0..width).rev().map(move |at| (value >> at & 1) as u8))
        .collect();
    bits.chunks(8)
        .map(|byte| {
            byte.iter()
                .enumerate()
                .fold(0, |sum, (at, bit)| sum | bit << (7 - at))
        })
        .collect()
}

/// `a` inherits itself; `resource` and `self` are the other words.
fn own_parent() -> Vec<u8> {
    let mut all = vec![(4, 1), (8, 3)];
    for word in ["a", "resource", "self"] {
        all.push((5, word.len() as u32));
        all.extend(word.bytes().map(|byte| (8, u32::from(byte))));
    }
    // one domain `a`, its parent `a`; no annotation, no mark; no extension
    all.extend([
        (7, 1),
        (8, 0),
        (1, 0),
        (2, 0),
        (1, 0),
        (1, 0),
        (4, 1),
        (8, 0),
        (1, 0),
    ]);
    all.extend([(4, 0), (3, 0), (6, 0)]);
    fields(&all)
}

/// A call on slices filled with a byte, and what it left in them.
fn ask(call: Call, sheet: &[u8], listing: usize, diagnosis: usize) -> (Answer, Vec<u8>, Vec<u8>) {
    ask_under(RowLimit::default(), call, sheet, listing, diagnosis)
}

/// The same under another row limit.
fn ask_under(
    limit: RowLimit,
    call: Call,
    sheet: &[u8],
    listing: usize,
    diagnosis: usize,
) -> (Answer, Vec<u8>, Vec<u8>) {
    let (mut listing, mut diagnosis) = (vec![0xA5; listing], vec![0xA5; diagnosis]);
    let answer = call(sheet, limit, &mut listing, &mut diagnosis);
    (answer, listing, diagnosis)
}

fn untouched(bytes: &[u8]) -> bool {
    bytes.iter().all(|&byte| byte == 0xA5)
}

/// Every listing from empty to past the needed size, and every shorter diagnosis slice by 1.
fn lengths(call: Call, sheet: &[u8], want: &[u8]) {
    for length in 0..want.len() + 9 {
        let (answer, listing, diagnosis) = ask(call, sheet, length, LONG);
        assert!(untouched(&diagnosis));
        if length < want.len() {
            assert_eq!(answer, Answer::TooShort { size: want.len() });
            assert_eq!(answer.number(), 10);
            assert!(untouched(&listing));
        } else {
            assert_eq!(answer, Answer::Accepted { size: want.len() });
            assert_eq!(answer.number(), 0);
            assert_eq!(&listing[..want.len()], want);
            assert!(untouched(&listing[want.len()..]));
        }
    }
    for length in [0, 1, SHOWN - 1] {
        let (answer, listing, diagnosis) = ask(call, sheet, want.len(), length);
        assert_eq!(answer, Answer::Refused(Refusal::DiagnosisTooShort));
        assert!(untouched(&listing) && untouched(&diagnosis));
    }
}

/// The refusals of a sheet alone, by either call.
fn refusals(call: Call) {
    let mut more = BASE.to_vec();
    more.push(0);
    for (sheet, number) in [(&[][..], 3), (&[0x20], 4), (&more, 7), (&[0; 40_961], 1)] {
        let (answer, listing, diagnosis) = ask(call, sheet, 100, SHOWN);
        assert_eq!(answer, Answer::Refused(Refusal::from(number)));
        assert_eq!(answer.number(), number);
        assert!(untouched(&listing) && untouched(&diagnosis));
    }
    let (answer, listing, diagnosis) = ask(call, &own_parent(), 100, SHOWN + 5);
    assert_eq!(
        answer,
        Answer::Diagnosed {
            refusal: Refusal::NoOrder,
            rows: 1,
            more: false
        }
    );
    assert!(untouched(&listing));
    assert_eq!(diagnosis[..6], [2, 0, 255, 0, 255, 255]);
    let a = Name::one(0);
    let row = Row {
        kind: Kind::Cycle,
        subject: a,
        other: Some(a),
        word: None,
    };
    assert_eq!(answer.rows(&diagnosis).collect::<Vec<_>>(), [row]);
    assert!(untouched(&diagnosis[6..]));
}

/// Types in a ring, so many, each with as many parents as there are: their rows are more than any limit.
fn ring(count: u32) -> Vec<u8> {
    let mut all = vec![(4, 1), (8, count + 2)];
    let words: Vec<String> = (0..count).map(|at| format!("a{at}")).collect();
    for word in words.iter().map(String::as_str).chain(["resource", "self"]) {
        all.push((5, word.len() as u32));
        all.extend(word.bytes().map(|byte| (8, u32::from(byte))));
    }
    all.push((7, count));
    for at in 0..count {
        // a domain whose parent, eight times, is the next one
        all.extend([(8, at), (1, 0), (2, 0), (1, 0), (1, 0), (4, 8)]);
        all.extend((0..8).flat_map(|_| [(8, (at + 1) % count), (1, 0)]));
        all.extend([(4, 0), (3, 0)]);
    }
    all.push((6, 0));
    fields(&all)
}

/// Rows up to the limit, the flag behind them, and no byte behind six a row.
fn limits(call: Call) {
    let sheet = ring(5);
    let (_, _, whole) = ask_under(RowLimit::MAX, call, &sheet, 9, LONG);
    assert_eq!(whole.len(), 6 * ROWS_MAX);
    for rows in [1, 2, 63, 64, 65, 255, 256] {
        let limit = RowLimit::new(rows).unwrap();
        assert_eq!((limit.rows(), limit.diagnosis_len()), (rows, 6 * rows));
        for more in [0, 1, 700] {
            let (answer, listing, diagnosis) =
                ask_under(limit, call, &sheet, 9, limit.diagnosis_len() + more);
            let refusal = Refusal::NoOrder;
            let want = Answer::Diagnosed {
                refusal,
                rows,
                more: true,
            };
            assert_eq!(answer, want);
            assert!(untouched(&listing));
            assert_eq!(diagnosis[..6 * rows], whole[..6 * rows]);
            assert!(untouched(&diagnosis[6 * rows..]));
        }
        let (answer, _, diagnosis) = ask_under(limit, call, &sheet, 9, limit.diagnosis_len() - 1);
        assert_eq!(answer, Answer::Refused(Refusal::DiagnosisTooShort));
        assert!(untouched(&diagnosis));
    }
}

#[test]
fn row_limits() {
    limits(order);
    limits(schedule);
    for rows in [0, 257, 1 << 32, (1 << 32) + 64, usize::MAX] {
        assert_eq!(RowLimit::new(rows), None);
    }
    assert_eq!(RowLimit::default().rows(), ROWS_SHOWN);
    assert_eq!(RowLimit::MAX.rows(), ROWS_MAX);
    let refused = schedule_vec(&ring(5), RowLimit::new(7).unwrap()).unwrap_err();
    assert_eq!((refused.rows.len(), refused.more), (7, true));
    assert_eq!(
        refused.to_string(),
        "refused 8: the types have no order (7 rows, and there are more)"
    );
}

/// The words of the example are `base`, `file`, `resource`, `self`; the order `base`, `resource`,
/// `file`.
fn names() -> Vec<(usize, u32)> {
    vec![(7, 3), (8, 0), (1, 0), (8, 2), (1, 0), (8, 1), (1, 0)]
}

#[test]
fn order_of_the_example() {
    lengths(order, BASE, &fields(&names()));
}

#[test]
fn order_refuses() {
    refusals(order);
}

/// `R base.file 0 file,resource makelist` and `E base 00 file` behind the names.
#[test]
fn schedule_of_the_example() {
    let mut all = names();
    all.push((16, 2));
    // the resource: base, file, not virtual; the parents file and resource; one mark
    all.extend([(1, 0), (8, 0), (1, 0), (8, 1), (1, 0), (5, 2)]);
    all.extend([(2, 1), (8, 1), (2, 1), (8, 2), (9, 1), (1, 0)]);
    // the extension line: base, 00, file
    all.extend([(1, 1), (8, 0), (1, 0), (1, 0), (1, 0), (8, 1)]);
    lengths(schedule, BASE, &fields(&all));
}

#[test]
fn schedule_refuses() {
    refusals(schedule);
}

/// `base` of the example associates `file`; without the type `file` its class is unknown.
fn without_file() -> Vec<u8> {
    let mut all = vec![(4, 1), (8, 4)];
    for word in ["base", "file", "resource", "self"] {
        all.push((5, word.len() as u32));
        all.extend(word.bytes().map(|byte| (8, u32::from(byte))));
    }
    // one domain `base` with one Associate of one word, `file`
    all.extend([(7, 1), (8, 0), (1, 0), (2, 0), (1, 0), (1, 0), (4, 0)]);
    all.extend([(4, 1), (3, 1), (4, 1), (8, 1), (1, 0), (3, 0), (6, 0)]);
    fields(&all)
}

#[test]
fn unknown_class() {
    let (answer, listing, diagnosis) = ask(schedule, &without_file(), 100, SHOWN);
    let want = Answer::Diagnosed {
        refusal: Refusal::RefusedInSynthesis,
        rows: 1,
        more: false,
    };
    assert_eq!(answer, want);
    assert!(untouched(&listing));
    assert_eq!(diagnosis[..6], [4, 0, 255, 1, 255, 1]);
    assert!(untouched(&diagnosis[6..]));
}

/// The owning calls give what the others write, and the refusal with its rows.
#[test]
fn owning_calls() {
    for (call, owning) in [
        (schedule as Call, schedule_vec as fn(&[u8], RowLimit) -> _),
        (order, order_vec),
    ] {
        let limit = RowLimit::default();
        let (answer, listing, _) = ask(call, BASE, 100, LONG);
        let Answer::Accepted { size } = answer else {
            panic!("{answer:?}")
        };
        assert_eq!(owning(BASE, limit).unwrap(), listing[..size]);

        let refused = owning(&own_parent(), limit).unwrap_err();
        assert_eq!((refused.refusal, refused.more), (Refusal::NoOrder, false));
        assert_eq!(refused.rows.len(), 1);
        assert_eq!(
            refused.to_string(),
            "refused 8: the types have no order (1 row)"
        );
        assert_eq!(Refusal::from(refused), Refusal::NoOrder);
        assert_eq!(
            owning(&[0x20], limit).unwrap_err().refusal,
            Refusal::ValueNotAllowed
        );
    }
    let refused = schedule_vec(&without_file(), RowLimit::default()).unwrap_err();
    let row = Row {
        kind: Kind::UnknownClass,
        subject: Name::one(0),
        other: Some(Name::one(1)),
        word: Some(1),
    };
    assert_eq!(refused.rows, [row]);
    assert!(order_vec(&without_file(), RowLimit::default()).is_ok());
}

/// `count` resources, each of which associates all of them.
fn crowd(count: u32) -> Vec<u8> {
    let words: Vec<String> = (0..count).map(|at| format!("t{at:02}")).collect();
    let mut all = vec![(4, 1), (8, count + 2)];
    for word in ["resource", "self"]
        .into_iter()
        .chain(words.iter().map(String::as_str))
    {
        all.push((5, word.len() as u32));
        all.extend(word.bytes().map(|byte| (8, u32::from(byte))));
    }
    all.push((7, count));
    for at in 0..count {
        // a resource with no parent, which associates fifteen at a time
        all.extend([(8, at + 2), (1, 0), (2, 1), (1, 0), (1, 0), (4, 0)]);
        all.push((4, count.div_ceil(15)));
        for from in (0..count).step_by(15) {
            let end = count.min(from + 15);
            all.extend([(3, 1), (4, end - from)]);
            all.extend((from..end).flat_map(|word| [(8, word + 2), (1, 0)]));
        }
        all.push((3, 0));
    }
    all.push((6, 0));
    fields(&all)
}

/// A schedule that is longer than what the owning call lends first.
#[test]
fn grows() {
    let packed = schedule_vec(&crowd(30), RowLimit::default()).unwrap();
    assert!(packed.len() > 4096);
    let (answer, listing, _) = ask(schedule, &crowd(30), packed.len(), SHOWN);
    assert_eq!((answer.number(), listing), (0, packed));
}

/// Each number is that of its refusal, each kind that of its kind, and a number that is not known stays.
#[test]
fn numbers() {
    for number in 0..300 {
        let refusal = Refusal::from(number);
        assert_eq!(refusal.number(), number);
        let known = !matches!(refusal, Refusal::Other(_));
        assert_eq!(known, matches!(number, 1..=12 | 14..=17));
        assert!(refusal
            .to_string()
            .starts_with(&format!("refused {number}: ")));
    }
    for number in 0..=255 {
        let kind = Kind::from(number);
        assert_eq!(kind.number(), number);
        assert_eq!(!matches!(kind, Kind::Other(_)), (1..=6).contains(&number));
    }
}
