//! Two guides compared: sets, schedules, the section that one side alone holds; what refusals leave.
use petrizolu::{
    Answer, Compared, Difference, Differences, HeldByOne, NO_PID, ONLY_FIRST, ONLY_SECOND, OTHER_BYTES, Refused, ScheduleDifferences,
    calls, compare, compare_schedules, crc, held_by_one,
};

/// A section of an EIT with one byte behind its header.
fn section(table_id: u8, version: u8, number: u8, last: u8, byte: u8) -> Vec<u8> {
    let mut section = vec![table_id, 0xF0, 14, 0, 1, 0xC1 | version << 1, number, last, 0, 7, 0x21, 0x74, byte];
    section.extend(crc(&section).to_be_bytes());
    section
}

const PID: Option<u16> = Some(0x0012);

#[test]
fn sets() {
    let all: Vec<Vec<u8>> = (0..3).map(|number| section(0x4E, 1, number, 2, number)).collect();
    let whole = all.concat();
    assert_eq!(compare(&whole, PID, &whole, PID), Ok(Differences { list: vec![], versions: true, lasts: true }));
    let other = [section(0x4E, 1, 1, 2, 9), all[2].clone(), section(0x4E, 1, 3, 2, 0)].concat();
    let list = vec![
        Difference { table_id: 0x4E, number: 0, kind: ONLY_FIRST, place: 0 },
        Difference { table_id: 0x4E, number: 1, kind: OTHER_BYTES, place: 12 },
        Difference { table_id: 0x4E, number: 3, kind: ONLY_SECOND, place: 0 },
    ];
    assert_eq!(compare(&whole, PID, &other, PID), Ok(Differences { list, versions: true, lasts: true }));
    let renewed = section(0x4E, 2, 0, 3, 0);
    let told = compare(&all[0], PID, &renewed, PID).expect("two sets of one key");
    assert_eq!((told.list.len(), told.versions, told.lasts), (1, false, false));
}

#[test]
fn refusals_leave_all() {
    let (one, other) = (section(0x4E, 1, 0, 0, 0), section(0x4E, 1, 0, 0, 1));
    let cases = [
        (&one[..16], 0x12, 0x12, Answer::NOT_WHOLE),
        (&one[..], 0x2000, 0x12, Answer::BAD_PID),
        (&one[..], 0x12, 0x1_0012, Answer::BAD_PID),
        (&one[..], 0x12, 0x13, Answer::OTHER_KEY),
        (&one[..], 0x12, NO_PID, Answer::NO_PID_GIVEN),
        (&one[..], NO_PID, NO_PID, Answer::NO_PID_GIVEN),
        (&one[..], 0x2000, NO_PID, Answer::NO_PID_GIVEN),
        (&one[..16], NO_PID, 0x12, Answer::NOT_WHOLE),
    ];
    for (first, p, q, answer) in cases {
        let (mut list, mut tables) = ([7; 4], [7; 16]);
        let mut compared = Compared { count: 7, versions: 7, lasts: 7 };
        assert_eq!(calls::compare(first, p, &other, q, &mut list, &mut compared), answer);
        assert_eq!((list, compared), ([7; 4], Compared { count: 7, versions: 7, lasts: 7 }));
        let of_schedules = calls::compare_schedules(first, p, &other, q, &mut tables, &mut list, &mut compared);
        assert_eq!((of_schedules, list, tables), (Answer::NOT_WHOLE, [7; 4], [7; 16]), "a present/following set is no schedule");
    }
    let mut list = [7; 3];
    let mut compared = Compared::default();
    assert_eq!(calls::compare(&one, 0x12, &other, 0x12, &mut list, &mut compared), Answer::NO_ROOM);
    assert_eq!((list, compared), ([7; 3], Compared { count: 1, versions: 1, lasts: 1 }));
}

#[test]
fn schedules() {
    let [a, b] = [section(0x50, 1, 0, 0, 0), section(0x51, 1, 0, 0, 0)];
    let renewed = section(0x51, 2, 0, 0, 0);
    let first = [&a[..], &b].concat();
    let second = [&renewed[..], &section(0x5F, 1, 255, 255, 0)].concat();
    let found = compare_schedules(&first, PID, &second, PID).expect("two schedules of one key");
    let mut tables = [0; 16];
    (tables[0], tables[1], tables[15]) = (1, 3 + 4, 2);
    let list = [[0x50, 0, ONLY_FIRST, 0], [0x51, 0, OTHER_BYTES, 5], [0x5F, 255, ONLY_SECOND, 0]];
    let list = list.map(|[table_id, number, kind, place]| Difference { table_id, number, kind, place }).to_vec();
    assert_eq!(found, ScheduleDifferences { tables, differences: Differences { list, versions: false, lasts: true } });
    assert_eq!(compare_schedules(&first, PID, &[b, a].concat(), PID), Err(Refused(Answer::NOT_WHOLE)));
}

#[test]
fn one_section() {
    let [a, b] = [section(0x4E, 1, 0, 1, 0), section(0x4E, 1, 1, 1, 0)];
    let both = [&a[..], &b].concat();
    assert_eq!(held_by_one(&both, &a, 1), Ok(Some((true, &b[..]))));
    assert_eq!(held_by_one(&b, &both, 0), Ok(Some((false, &a[..]))));
    assert_eq!(held_by_one(&both, &[], 1), Ok(Some((true, &b[..]))));
    assert_eq!(held_by_one(&both, &a, 0), Ok(None));
    assert_eq!(held_by_one(&both, &a[..16], 0), Err(Refused(Answer::NOT_WHOLE)));
    let mut held = HeldByOne { side: 7, start: 7, length: 7 };
    assert_eq!(calls::held_by_one(&both, &a, u64::MAX, &mut held), Answer::NO);
    assert_eq!(held, HeldByOne { side: 7, start: 7, length: 7 });
}

/// 256 against 256 numbers would need 512: odd numbers on one side, even ones on the other.
#[test]
fn odd_and_even() {
    let side = |odd: u8| (0..128).flat_map(|half| section(0x4E, 1, 2 * half + odd, 255, 0)).collect::<Vec<u8>>();
    let told = compare(&side(0), PID, &side(1), PID).expect("two sets of one key");
    assert_eq!(told.list.len(), 256);
    assert!((0..=255).all(|n| told.list[n] == Difference { table_id: 0x4E, number: n as u32, kind: 1 + (n % 2) as u32, place: 0 }));
}

/// Two sets of 256 sections of 4,096 bytes, 1 MiB, that differ in the last byte before the last CRC.
#[test]
fn a_mebibyte_in_a_second() {
    let large = |number: u8, last_byte: u8| {
        let mut section = vec![0x42, 0xFF, 0xFD, 0, 1, 0xC1, number, 255];
        section.resize(4091, number);
        section.push(last_byte);
        section.extend(crc(&section).to_be_bytes());
        section
    };
    let first: Vec<u8> = (0..=255).flat_map(|number| large(number, 0)).collect();
    let second: Vec<u8> = (0..=255).flat_map(|number| large(number, u8::from(number == 255))).collect();
    assert_eq!(first.len(), 1 << 20);
    let start = std::time::Instant::now();
    let told = compare(&first, PID, &second, PID).expect("two sets of one key");
    assert!(start.elapsed().as_secs() < 1, "{:?}", start.elapsed());
    assert_eq!(told.list, vec![Difference { table_id: 0x42, number: 255, kind: OTHER_BYTES, place: 4091 }]);
}
