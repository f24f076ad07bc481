//! The entries of a NIT, a BAT and an SDT, of a section and of a set; pages; why nothing is listed.
use petrizolu::{
    Answer, BAT, DESCRIPTOR, ENTRY_WORDS, Ended, Entry, Listed, Listing, NIT, Refused, SDT, SERVICE, Sets, TRANSPORT_STREAM, calls, crc,
    entries,
};

fn counted(bytes: &[u8]) -> Vec<u8> {
    [&(0xF000 | bytes.len() as u16).to_be_bytes()[..], bytes].concat()
}

/// EN 300 468, 5.2.1 and 5.2.2: descriptors, then transport streams.
fn streams(descriptors: &[u8], streams: &[u8]) -> Vec<u8> {
    [counted(descriptors), counted(streams)].concat()
}

/// Transport stream 1 of network 0x2174 with a service list of one service.
const STREAM: &[u8] = b"\x00\x01\x21\x74\xF0\x05\x41\x03\x00\x01\x01";
/// Service 1 with both flags, running; service 2 with the schedule's flag, scrambled.
const SERVICES: &[u8] = b"\x21\x74\xFF\x00\x01\xFF\x80\x05\x48\x03\x61\x62\x63\x00\x02\xFE\x90\x00";

fn section(table_id: u8, number: u8, last: u8, body: &[u8]) -> Vec<u8> {
    let [high, low] = (9 + body.len() as u16).to_be_bytes();
    let mut section = [&[table_id, 0xF0 | high, low, 0x30, 0x01, 0xC1, number, last], body].concat();
    section.extend(crc(&section).to_be_bytes());
    section
}

fn stream(section: u32, at: u32) -> [Entry; 2] {
    let stream = Entry { kind: TRANSPORT_STREAM, section, at, id: 1, length: 5, original_network_id: 0x2174, ..Entry::default() };
    [stream, Entry { kind: DESCRIPTOR, section, at: at + 6, id: 0x41, length: 3, ..Entry::default() }]
}

#[test]
fn networks_and_bouquets() {
    let network = section(0x40, 2, 2, &streams(b"\x40\x03net", STREAM));
    let name = Entry { kind: DESCRIPTOR, section: 2, at: 10, id: 0x40, length: 3, ..Entry::default() };
    let [of_stream, of_list] = stream(2, 17);
    let listing = entries(NIT, &network).expect("a reader answers");
    assert_eq!(listing, Listing { entries: vec![name, of_stream, of_list], ended: None });
    assert_eq!(name.bytes(&network), b"net");
    let bouquet = section(0x4A, 0, 0, &streams(b"", STREAM));
    assert_eq!(entries(BAT, &bouquet).expect("a reader answers").entries, stream(0, 12));
    assert_eq!(entries(NIT, &section(0x41, 0, 0, &streams(b"", b""))).expect("a reader answers"), Listing::default());
}

#[test]
fn services() {
    let first = Entry {
        kind: SERVICE,
        section: 1,
        at: 11,
        id: 1,
        length: 5,
        original_network_id: 0x2174,
        running_status: 4,
        eit_flags: 3,
        ..Entry::default()
    };
    let name = Entry { kind: DESCRIPTOR, section: 1, at: 16, id: 0x48, length: 3, ..Entry::default() };
    let second = Entry { at: 21, id: 2, length: 0, free_ca_mode: 1, eit_flags: 2, ..first };
    for table_id in [0x42, 0x46] {
        let listing = entries(SDT, &section(table_id, 1, 1, SERVICES)).expect("a reader answers");
        assert_eq!(listing, Listing { entries: vec![first, name, second], ended: None });
    }
}

#[test]
fn why_nothing_is_listed() {
    let network = section(0x40, 2, 2, &streams(b"\x40\x03net", STREAM));
    let none = |answer, place| Ok(Listing { entries: Vec::new(), ended: Some(Ended { answer, section: 2, place }) });
    for reader in [0, BAT, SDT, 4, u32::MAX] {
        assert_eq!(entries(reader, &network), none(Answer::OTHER_TABLE, 0));
    }
    let with = |at: usize, byte: u8| {
        let mut damaged = network.clone();
        damaged[at] = byte;
        entries(NIT, &damaged)
    };
    // The first length, a descriptor of the network, the second length, a transport stream, its descriptor.
    for (at, byte, place) in [(8, 0xFF, 8), (11, 4, 10), (16, 10, 15), (22, 6, 17), (24, 4, 23)] {
        assert_eq!(with(at, byte), none(Answer::BROKEN_LOOP, place), "byte {at}");
    }
    assert_eq!(entries(NIT, &network[..network.len() - 1]), none(Answer::BROKEN_LOOP, 1));
    // What a refusal leaves: the list.
    let mut list = [7; 3 * ENTRY_WORDS];
    let mut listed = Listed { count: 9, section: 9, place: 9 };
    assert_eq!(calls::entries(SDT, &network, 0, &mut list, &mut listed), Answer::OTHER_TABLE);
    assert_eq!((list, listed), ([7; 3 * ENTRY_WORDS], Listed { count: 0, section: 2, place: 0 }));
}

#[test]
fn a_set() {
    let mut sets = Sets::open(2, 64, 4).expect("room");
    let sections = [0, 1].map(|number| section(0x40, number, 1, &streams(b"", STREAM)));
    assert_eq!(sets.push(0, Some(0x10), &sections[1]).map(|row| row.is_some()), Ok(false));
    let row = sets.push(0, Some(0x10), &sections[0]).expect("taken").expect("complete");
    // Section 1 came first: its bytes are in the first cell.
    let listing = sets.entries(NIT, &row).expect("a whole store");
    assert_eq!(listing.entries, [stream(0, 64 + 12), stream(1, 12)].concat());
    assert_eq!(sets.bytes(&listing.entries[1]), [0, 1, 1]);
    let other = sets.entries(SDT, &row).expect("a whole store");
    assert_eq!(other.ended, Some(Ended { answer: Answer::OTHER_TABLE, section: 0, place: 0 }));
    // A page of one entry, and words behind it that stay.
    let state = sets.state();
    assert_eq!((state.used, state.limit), (1, 2));
}

#[test]
fn a_store_that_is_not_open() {
    let mut list = [7; ENTRY_WORDS];
    let untold = Listed { count: 9, section: 9, place: 9 };
    let mut listed = untold;
    let closed = petrizolu::SetsState { limit: 1, ..Default::default() };
    assert_eq!(calls::sets_entries(NIT, &closed, &[], &[], &[], 0, 0, &mut list, &mut listed), Answer::NOT_WHOLE);
    assert_eq!((list, listed), ([7; ENTRY_WORDS], untold));
    assert_eq!(Refused(Answer::NOT_WHOLE).0, Answer::NOT_WHOLE);
}
