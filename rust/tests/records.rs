//! The calls between a schedule and its records, and the records read.

use gidzelma::{
    read_schedule, read_schedule_vec, write_schedule, write_schedule_vec, Extension, Item,
    Malformed, Mark, Name, Refusal, Resource, Schedule, RECORDS_PER_BYTE, RECORD_LEN,
};

const PACKED: &[u8] = include_bytes!("../../examples/base.schedule");
const W: usize = 4;

/// The records of the example, by their values: the names, the resource, the extension line.
const VALUES: [u16; 26] = [
    3, 0, 0, 2, 0, 1, 0, 2, //
    0, 0, 0, 1, 0, 2, 1, 1, 1, 2, 1, 0, //
    1, 0, 0, 0, 0, 1,
];

fn recorded(values: &[u16]) -> Vec<u8> {
    values
        .iter()
        .flat_map(|value| value.to_be_bytes())
        .collect()
}

type Call = fn(usize, &[u8], &mut [u8]) -> Result<usize, Refusal>;

/// A call on bytes filled with 0xA5, and what it left in them.
fn ask(call: Call, w: usize, given: &[u8], length: usize) -> (Result<usize, Refusal>, Vec<u8>) {
    let mut output = vec![0xA5; length];
    let answer = call(w, given, &mut output);
    (answer, output)
}

fn untouched(bytes: &[u8]) -> bool {
    bytes.iter().all(|&byte| byte == 0xA5)
}

/// Every room from none to past the needed one.
fn rooms(call: Call, given: &[u8], want: &[u8]) {
    for length in 0..want.len() + 9 {
        let (answer, output) = ask(call, W, given, length);
        if length < want.len() {
            assert_eq!(answer, Err(Refusal::SchedulePastEnd));
            assert!(untouched(&output));
        } else {
            assert_eq!(answer, Ok(want.len()));
            assert_eq!(&output[..want.len()], want);
            assert!(untouched(&output[want.len()..]));
        }
    }
}

#[test]
fn rooms_of_the_example() {
    rooms(read_schedule, PACKED, &recorded(&VALUES));
    rooms(write_schedule, &recorded(&VALUES), PACKED);
}

#[test]
fn owning_calls() {
    let records = read_schedule_vec(W, PACKED).unwrap();
    assert_eq!(records, recorded(&VALUES));
    assert_eq!(records.len(), RECORD_LEN * VALUES.len());
    assert_eq!(write_schedule_vec(W, &records).unwrap(), PACKED);
    // no types and no items; the most records for a byte
    assert_eq!(read_schedule_vec(2, &[0; 3]).unwrap(), [0; 4]);
    let marks = [0, 1, 0, 0, 0, 0, 0, 2, 1, 0, 1, 0, 448];
    let full = recorded(&[&marks[..], &[0; 448]].concat());
    let packed = write_schedule_vec(2, &full).unwrap();
    assert!(full.len() <= RECORDS_PER_BYTE * packed.len());
    assert_eq!(read_schedule_vec(2, &packed).unwrap(), full);
}

/// Cut, with a byte more, with a bit of the fill, with another number of words.
#[test]
fn refused() {
    let records = recorded(&VALUES);
    let (past_end, not_allowed) = (Refusal::SchedulePastEnd, Refusal::ScheduleNotAllowed);
    for length in 0..PACKED.len() {
        assert_eq!(read_schedule_vec(W, &PACKED[..length]), Err(past_end));
    }
    for length in 0..records.len() {
        assert_eq!(write_schedule_vec(W, &records[..length]), Err(past_end));
    }
    let with = |bytes: &[u8], byte: u8| [bytes, &[byte]].concat();
    assert_eq!(read_schedule_vec(W, &with(PACKED, 0)), Err(not_allowed));
    assert_eq!(write_schedule_vec(W, &with(&records, 0)), Err(not_allowed));
    let mut filled = PACKED.to_vec();
    filled[15] |= 1;
    assert_eq!(read_schedule_vec(W, &filled), Err(not_allowed));
    for w in [0, 1, 2, 201, 256, usize::MAX] {
        assert_eq!(read_schedule_vec(w, PACKED), Err(not_allowed));
        assert_eq!(write_schedule_vec(w, &records), Err(not_allowed));
    }
    assert!(read_schedule_vec(3, PACKED).is_ok() && read_schedule_vec(200, PACKED).is_ok());
    // W is tested before anything else, both ends before a value
    assert_eq!(ask(read_schedule, 0, &[], 0).0, Err(not_allowed));
    assert_eq!(ask(read_schedule, 2, &[0xFF], 0).0, Err(past_end));
    assert_eq!(ask(read_schedule, 2, &[0xFF], 2).0, Err(not_allowed));
    // a value that is too wide for its field
    assert_eq!(write_schedule_vec(2, &[0, 0x80, 0, 0]), Err(not_allowed));
    assert_eq!(past_end.number(), 11);
    assert_eq!(
        not_allowed.to_string(),
        "refused 12: no schedule has such a value, or such an end"
    );
}

fn items(schedule: Schedule<'_>) -> Result<Vec<Item>, Malformed> {
    schedule.items().collect()
}

/// From records comes what comes from the packed bytes.
#[test]
fn the_same_items() {
    let records = recorded(&VALUES);
    let schedule = Schedule::of_records(&records).unwrap();
    assert_eq!(schedule.names(), Schedule::read(PACKED).unwrap().names());
    assert_eq!(schedule.count(), 2);
    assert_eq!(
        items(schedule).unwrap(),
        items(Schedule::read(PACKED).unwrap()).unwrap()
    );
}

/// A schedule that no call writes: an extension line first, of a type that is not listed.
#[test]
fn foreign() {
    let values = [
        1, 4, 1, 3, 2, //
        1, 0, 1, 0, 1, 1, 199, //
        0, 9, 0, 5, 1, 2, 3, 1, 2, 3, 2, 7, 8, 2, 1, 255, 0,
    ];
    let records = recorded(&values);
    let packed = write_schedule_vec(200, &records).unwrap();
    assert_eq!(read_schedule_vec(200, &packed).unwrap(), records);
    let found = items(Schedule::of_records(&records).unwrap()).unwrap();
    let line = Extension {
        owner: Name::two(0, 0),
        is_virtual: true,
        is_trait: true,
        word: 199,
    };
    let made = Resource {
        owner: Name::one(9),
        word: 5,
        is_virtual: true,
        parents: vec![Name::three(1, 2, 3), Name::two(7, 8)],
        marks: vec![Mark::Derive(255), Mark::Makelist],
    };
    assert_eq!(found, [Item::Extension(line), Item::Resource(made)]);
    assert_eq!(
        read_schedule_vec(199, &packed),
        Err(Refusal::ScheduleNotAllowed)
    );
}

/// Records that are cut, go on, or have a value too wide for its field.
#[test]
fn malformed_records() {
    let records = recorded(&VALUES);
    for length in 0..records.len() {
        let cut = Schedule::of_records(&records[..length]).and_then(items);
        assert_eq!(cut, Err(Malformed::PastEnd));
    }
    let more = [&records[..], &[0]].concat();
    let found = Schedule::of_records(&more).and_then(items);
    assert_eq!(found, Err(Malformed::BadFill));
    for (at, value) in [(0, 65), (0, 128), (1, 256), (2, 2), (8, 2), (13, 18)] {
        let mut values = VALUES;
        values[at] = value;
        let found = Schedule::of_records(&recorded(&values)).and_then(items);
        assert_eq!(found, Err(Malformed::NotAllowed), "{value} at {at}");
    }
}
