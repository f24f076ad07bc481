//! The events of a section, of a set and of a schedule; pages; what ends a listing early.
use petrizolu::{
    Answer, Complete, DESCRIPTOR, ENTRY_WORDS, EVENT, Eit, Ended, Entry, Listed, Refused, UNDEFINED, calls, crc, date, events,
};

/// 1993-10-13 at 12:45:00 for 01:45:30 (EN 300 468, 5.2.4), running, with so many bytes of descriptors.
fn event(id: u16, descriptors: &[u8]) -> Vec<u8> {
    let [high, low] = (descriptors.len() as u16).to_be_bytes();
    let [a, b] = id.to_be_bytes();
    [&[a, b, 0xC0, 0x79, 0x12, 0x45, 0x00, 0x01, 0x45, 0x30, 0x80 | high, low], descriptors].concat()
}

fn eit(table_id: u8, last_table_id: u8, number: u8, last: u8, events: &[u8]) -> Vec<u8> {
    let [high, low] = (15 + events.len() as u16).to_be_bytes();
    let head = [table_id, 0xF0 | high, low, 0x00, 0x01, 0xCF, number, last, 0x00, 0x01, 0x21, 0x74, last, last_table_id];
    let mut section = [&head, events].concat();
    section.extend(crc(&section).to_be_bytes());
    section
}

const SHORT_EVENT: &[u8] = b"\x4D\x08eng\x03abc\x00";

fn words(section: u32, at: u32) -> [Entry; 2] {
    let event = Entry {
        kind: EVENT,
        section,
        at,
        id: 1,
        length: 10,
        day: 49273,
        time: 45900,
        duration: 6330,
        running_status: 4,
        ..Entry::default()
    };
    [event, Entry { kind: DESCRIPTOR, section, at: at + 12, id: 0x4D, length: 8, ..Entry::default() }]
}

#[test]
fn one_section() {
    let section = eit(0x4E, 0x4E, 3, 3, &event(1, SHORT_EVENT));
    let listing = events(&section).expect("a section");
    assert_eq!((listing.entries.as_slice(), listing.ended), (&words(3, 14)[..], None));
    assert_eq!(listing.entries[1].bytes(&section), b"eng\x03abc\x00");
    assert_eq!(events(&section[..section.len() - 1]), Err(Refused(Answer::MALFORMED)));
}

#[test]
fn pages() {
    let section = eit(0x4E, 0x4E, 3, 3, &event(1, SHORT_EVENT));
    // Words for a whole entry and eleven more.
    for (skip, answer, shown) in [(0, Answer::YES, Some(0)), (1, Answer::YES, Some(1)), (2, Answer::NO, None), (u64::MAX, Answer::NO, None)]
    {
        let mut list = [7; 2 * ENTRY_WORDS - 1];
        let mut listed = Listed::default();
        assert_eq!(calls::events(&section, skip, &mut list, &mut listed), answer);
        assert_eq!(listed, Listed { count: 2, section: 0, place: 0 });
        let first: [u32; ENTRY_WORDS] = list[..ENTRY_WORDS].try_into().expect("twelve words");
        match shown {
            Some(at) => assert_eq!(Entry::of(&first), words(3, 14)[at]),
            None => assert_eq!(first, [7; ENTRY_WORDS]),
        }
        assert_eq!(list[ENTRY_WORDS..], [7; ENTRY_WORDS - 1]);
    }
}

/// What a refusal leaves: every word.
#[test]
fn refusals() {
    let mut list = [7; ENTRY_WORDS];
    let mut listed = Listed { count: 1, section: 2, place: 3 };
    assert_eq!(calls::events(b"\x4E\xF0\x00\x00", 0, &mut list, &mut listed), Answer::MALFORMED);
    assert_eq!((list, listed), ([7; ENTRY_WORDS], Listed { count: 1, section: 2, place: 3 }));
}

#[test]
fn ended_early() {
    let ended = |answer, section, place| Some(Ended { answer, section, place });
    // A descriptor of nine bytes, and eight are there; one byte that is left over; an event that counts too many bytes; no EIT.
    let mut past = SHORT_EVENT.to_vec();
    past[1] = 9;
    let listing = events(&eit(0x4E, 0x4E, 3, 3, &event(1, &past))).expect("a section");
    assert_eq!((listing.entries.len(), listing.ended), (1, ended(Answer::PAST_LOOP, 3, 26)));
    let left = [SHORT_EVENT, &[0x4D]].concat();
    let listing = events(&eit(0x4E, 0x4E, 3, 3, &event(1, &left))).expect("a section");
    assert_eq!((listing.entries.len(), listing.ended), (2, ended(Answer::PAST_LOOP, 3, 36)));
    let mut broken = event(1, SHORT_EVENT);
    broken[11] += 1;
    let listing = events(&eit(0x4E, 0x4E, 3, 3, &broken)).expect("a section");
    assert_eq!((listing.entries.len(), listing.ended), (0, ended(Answer::BROKEN_EIT, 3, 0)));
    let listing = events(&eit(0x42, 0x4E, 3, 3, &[])).expect("a section");
    assert_eq!((listing.entries.len(), listing.ended), (0, ended(Answer::NOT_EIT, 3, 0)));
}

#[test]
fn undefined_times() {
    for place in 4..10 {
        for digit in [0x0A, 0xA0] {
            let mut undefined = event(1, &[]);
            undefined[place] = digit;
            let entry = events(&eit(0x4E, 0x4E, 0, 0, &undefined)).expect("a section").entries[0];
            let [time, duration] = if place < 7 { [UNDEFINED, 6330] } else { [45900, UNDEFINED] };
            assert_eq!((entry.day, entry.time, entry.duration), (49273, time, duration));
        }
    }
}

#[test]
fn a_set() {
    let mut collector = Eit::open(4, 64, 8).expect("opens");
    let [first, second] = [0, 1].map(|number| eit(0x4E, 0x4E, number, 1, &event(1, SHORT_EVENT)));
    assert!(matches!(collector.push(0, Some(0x12), &second), Ok(None)));
    let Ok(Some(Complete::Set(row))) = collector.push(0, Some(0x12), &first) else { panic!("a set is complete") };
    let listing = collector.events(&row).expect("whole");
    // The second came first, into cell 0.
    assert_eq!((listing.entries, listing.ended), ([words(0, 64 + 14), words(1, 14)].concat(), None));
    assert_eq!(collector.bytes(&collector.events(&row).expect("whole").entries[1]), b"eng\x03abc\x00");
    // Another version: what is in the row now was not handed out.
    let mut renewed = first.clone();
    renewed[5] += 2;
    let end = renewed.len() - 4;
    let sum = crc(&renewed[..end]).to_be_bytes();
    renewed[end..].copy_from_slice(&sum);
    assert!(matches!(collector.push(0, Some(0x12), &renewed), Ok(None)));
    assert_eq!(collector.events(&row).map(|listing| listing.entries.len()), Ok(0));
}

#[test]
fn a_schedule() {
    let mut collector = Eit::open(4, 64, 8).expect("opens");
    let [first, second] = [0x50, 0x51].map(|table_id| eit(table_id, 0x51, 0, 0, &event(1, SHORT_EVENT)));
    assert!(matches!(collector.push(0, Some(0x12), &first), Ok(None)));
    let Ok(Some(Complete::Schedule(row))) = collector.push(0, Some(0x12), &second) else { panic!("a schedule is complete") };
    for (table, expected) in [(0, words(0, 14).to_vec()), (1, words(0, 64 + 14).to_vec()), (2, Vec::new())] {
        assert_eq!(collector.table_events(&row, table).expect("whole").entries, expected);
    }
}

/// Annex C's own example, and the ends of its formulas.
#[test]
fn dates() {
    for (day, expected) in
        [(49273, 19931013), (15079, 19000301), (15078, 0), (51603, 20000229), (65535, 20380422), (65536, 0), (u32::MAX, 0)]
    {
        assert_eq!(date(day), expected);
    }
}
