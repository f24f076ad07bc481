//! The readers of networks, bouquets and services over a set collector of three rows, two in use, and four cells of 64 bytes; the list has room for six entries.
use crate::{BEFORE, Case, Store, UNTOLD, case, page};
use petrizolu::{Answer, BAT, ENTRY_WORDS, Listed, NIT, SDT, SetsState, calls};
use player::lent::Lent;
use player::sets::Sets;

#[derive(Clone, Copy)]
pub enum Call {
    Set,
    Section,
}
use Call::*;

#[derive(Clone, PartialEq)]
pub struct Damaged {
    sets: Sets,
    section: Vec<u8>,
    reader: u32,
    row: u64,
    skip: u64,
    list: Lent<u32>,
    listed: Listed,
}

/// Network 0x3001 in two sections. The first: descriptor 40 of two bytes at byte 10, the second length at byte 14, stream 1 at byte 16 with descriptor 41 at byte 22, its CRC at
/// byte 26. The second: no descriptor, stream 2 at byte 12, its CRC at byte 18.
const FIRST: &[u8] =
    b"\x40\xF0\x1B\x30\x01\xC1\x00\x01\xF0\x04\x40\x02\x61\x62\xF0\x0A\x00\x01\x21\x74\xF0\x04\x41\x02\x00\x01\xFA\x90\x41\x03";
const SECOND: &[u8] = b"\x40\xF0\x13\x30\x01\xC1\x01\x01\xF0\x00\xF0\x06\x00\x02\x21\x74\xF0\x00\x83\x4D\x3C\x5D";
/// Stream 1 of network 0x2174 in one section: service 1 at byte 11 with descriptor 48 of two bytes at byte 16, its CRC at byte 20.
const SERVICES: &[u8] = b"\x42\xF0\x15\x00\x01\xC1\x00\x00\x21\x74\xFF\x00\x01\xFD\x80\x04\x48\x02\x01\x00\x5A\x12\x60\xC3";

/// What is kept by value after `filled`.
const WHOLE: SetsState = SetsState { limit: 3, size: 64, count: 4, used: 2, evictions: 0, clock: 3 };

impl Store for Damaged {
    type Call = Call;

    /// The network in row 0, in cells 0 and 1; the services in row 1, in cell 2. Both went out.
    fn filled() -> Self {
        let mut sets = Sets::lend(3, 256, 0);
        assert_eq!(sets.open(3, 64, 4), Answer::DONE);
        let answers = [FIRST, SECOND, SERVICES].map(|section| sets.push(0, 0x0010, section));
        assert_eq!(answers, [(Answer::NOTHING, 0), (Answer::SET, 0), (Answer::SET, 1)]);
        assert_eq!(sets.state, WHOLE);
        Self { sets, section: FIRST.to_vec(), reader: NIT, row: 0, skip: 0, list: Lent::new(BEFORE, 6 * ENTRY_WORDS), listed: UNTOLD }
    }

    fn name(call: Call) -> &'static str {
        match call {
            Set => "entries",
            Section => "entries of the section",
        }
    }

    fn call(&mut self, call: Call) -> Answer {
        let Self { sets, section, reader, row, skip, list, listed } = self;
        let before = sets.clone();
        let answer = match call {
            Set => sets.entries(*reader, *row, *skip, list, listed),
            Section => calls::entries(*reader, section, *skip, list, listed),
        };
        assert!(*sets == before, "a question that changed something");
        answer
    }

    /// What is told, and of the entries that are listed their kind, section, place and number.
    fn says(&self) -> String {
        page(self.listed, &self.list)
    }
}

const ALL: &[Call] = &[Set, Section];
const STORE: &[Call] = &[Set];

/// The word of a slot with a kept length of 30 bytes, those of the section in cell 0.
const KEPT: u32 = 30 << 16;

pub const CASES: &[Case<Damaged>] = &[
    case("nothing damaged", ALL, |_| {}),
    case("the services", STORE, |d| (d.reader, d.row) = (SDT, 1)),
    // 10: settings that opening refuses, counts above the limit, a lent slice too short by one.
    case("cell size 11", STORE, |d| d.sets.state.size = 11),
    case("cell size 4097, no cells", STORE, |d| d.sets.state = SetsState { size: 4097, count: 0, ..WHOLE }),
    case("65536 cells", STORE, |d| d.sets.state.count = 65536),
    case("limit 4", STORE, |d| d.sets.state.limit = 4),
    case("4 rows used of 3", STORE, |d| d.sets.state.used = 4),
    case("35 words of heads", STORE, |d| d.sets.heads.lend(35)),
    case("863 words of slots", STORE, |d| d.sets.slots.lend(863)),
    case("255 bytes of cells", STORE, |d| d.sets.cells.lend(255)),
    // 10: a filled slot whose cell number is past the last or whose kept length is not within 12 to the cell size. It comes before 35.
    case("a slot that names cell 4 of 4", STORE, |d| d.sets.slots[32] = KEPT + 4),
    case("a kept length of 11", STORE, |d| d.sets.slots[32] = 11 << 16),
    case("a kept length of 65", STORE, |d| d.sets.slots[33] = 65 << 16),
    case("a kept length of 11 in the other row", STORE, |d| d.sets.slots[320] = 11 << 16),
    case("a kept length of 11, no reader", STORE, |d| (d.sets.slots[32], d.reader) = (11 << 16, 0)),
    // Not 10: what stands in no slot of a row in use; a count at its end.
    case("a kept length of 11 past the last slot", STORE, |d| d.sets.slots[34] = 11 << 16),
    case("a kept length of 11 in a row not in use", STORE, |d| d.sets.slots[608] = 11 << 16),
    case("evictions at their end", STORE, |d| d.sets.state.evictions = u64::MAX),
    // 9: no row of this number, a mark of 0; before 35.
    case("row 2", STORE, |d| d.row = 2),
    case("row 2^64 - 1", STORE, |d| d.row = u64::MAX),
    case("1 row used", STORE, |d| (d.sets.state.used, d.row, d.reader) = (1, 1, SDT)),
    case("a mark of 0", STORE, |d| d.sets.heads[8] = 0),
    case("a mark of 0, no reader", STORE, |d| (d.sets.heads[8], d.reader) = (0, 0)),
    case("a mark of 2^64 - 1", STORE, |d| d.sets.heads[8] = u64::MAX),
    // 41, after 10 and before 9 and 35: 8192 in the head of a row in use, whichever is asked for. Words above it are no 41.
    case("a PID of 8192 in the set's head", ALL, |d| d.sets.heads[0] = 8192),
    case("a PID of 8192 in the other set's head", STORE, |d| d.sets.heads[12] = 8192),
    case("a PID of 8192 in a head not in use", STORE, |d| d.sets.heads[24] = 8192),
    case("a PID of 8192 in the set's head, row 2", STORE, |d| (d.sets.heads[0], d.row) = (8192, 2)),
    case("a PID of 8192 in the set's head, no reader", STORE, |d| (d.sets.heads[0], d.reader) = (8192, 0)),
    case("a PID of 8192 in the set's head, no list", STORE, |d| {
        d.sets.heads[0] = 8192;
        d.list.lend(0);
    }),
    case("a PID of 8192 in the set's head, a kept length of 11", STORE, |d| (d.sets.heads[0], d.sets.slots[32]) = (8192, 11 << 16)),
    case("a PID of 8193 in the set's head", STORE, |d| d.sets.heads[0] = 8193),
    case("a PID of 2^64 - 1 in the set's head", STORE, |d| d.sets.heads[0] = u64::MAX),
    // 35: readers.
    case("no reader", ALL, |d| d.reader = 0),
    case("reader 4", ALL, |d| d.reader = 4),
    case("reader 2^32 - 1", ALL, |d| d.reader = u32::MAX),
    case("the bouquets' reader", ALL, |d| d.reader = BAT),
    case("the services' reader", ALL, |d| d.reader = SDT),
    case("the networks' reader of services", STORE, |d| d.row = 1),
    case("table_id 0x41", ALL, |d| (d.sets.cells[0], d.section[0]) = (0x41, 0x41)),
    case("table_id 0x4A", ALL, |d| (d.sets.cells[0], d.section[0]) = (0x4A, 0x4A)),
    case("table_id 0x4A, the bouquets' reader", ALL, |d| {
        (d.sets.cells[0], d.sets.cells[64], d.section[0], d.reader) = (0x4A, 0x4A, 0x4A, BAT)
    }),
    case("table_id 0x42 in the second section", STORE, |d| d.sets.cells[64] = 0x42),
    case("table_id 0x46, the services' reader", STORE, |d| (d.sets.cells[128], d.row, d.reader) = (0x46, 1, SDT)),
    // The slots of a row in use decide, whatever they name.
    case("no first section", STORE, |d| d.sets.slots[32] = 0),
    case("no section", STORE, |d| (d.sets.slots[32], d.sets.slots[33]) = (0, 0)),
    case("the first section twice", STORE, |d| d.sets.slots[33] = KEPT),
    case("a last_section_number of 0", STORE, |d| d.sets.heads[7] = 0),
    case("a last_section_number of 300", STORE, |d| d.sets.heads[7] = 300),
    case("a kept length of 12", STORE, |d| d.sets.slots[32] = 12 << 16),
    case("a kept length of 29", STORE, |d| d.sets.slots[32] = 29 << 16),
    case("a kept length of 64", STORE, |d| d.sets.slots[32] = 64 << 16),
    // 36, and its place: nothing is listed, whichever section it is.
    case("a section_length of one more", ALL, |d| (d.sets.cells[2], d.section[2]) = (28, 28)),
    case("a first length of 3", ALL, |d| (d.sets.cells[9], d.section[9]) = (3, 3)),
    case("a first length of 5", ALL, |d| (d.sets.cells[9], d.section[9]) = (5, 5)),
    case("a first length of 14", ALL, |d| (d.sets.cells[9], d.section[9]) = (14, 14)),
    case("a first length of 15", ALL, |d| (d.sets.cells[9], d.section[9]) = (15, 15)),
    case("a first length of 4095", ALL, |d| (d.sets.cells[8], d.sets.cells[9], d.section[8], d.section[9]) = (15, 255, 15, 255)),
    case("a network's descriptor of one byte", ALL, |d| (d.sets.cells[11], d.section[11]) = (1, 1)),
    case("a network's descriptor of three bytes", ALL, |d| (d.sets.cells[11], d.section[11]) = (3, 3)),
    case("a second length of 9", ALL, |d| (d.sets.cells[15], d.section[15]) = (9, 9)),
    case("a second length of 11", ALL, |d| (d.sets.cells[15], d.section[15]) = (11, 11)),
    case("a stream that counts 3 bytes", ALL, |d| (d.sets.cells[21], d.section[21]) = (3, 3)),
    case("a stream that counts 5 bytes", ALL, |d| (d.sets.cells[21], d.section[21]) = (5, 5)),
    case("a stream's descriptor of one byte", ALL, |d| (d.sets.cells[23], d.section[23]) = (1, 1)),
    case("a stream's descriptor of three bytes", ALL, |d| (d.sets.cells[23], d.section[23]) = (3, 3)),
    case("a stream of the second section that counts a byte", STORE, |d| d.sets.cells[64 + 17] = 1),
    case("a service that counts 3 bytes", STORE, |d| (d.sets.cells[128 + 15], d.row, d.reader) = (3, 1, SDT)),
    case("a service that counts 5 bytes", STORE, |d| (d.sets.cells[128 + 15], d.row, d.reader) = (5, 1, SDT)),
    case("a service's descriptor of three bytes", STORE, |d| (d.sets.cells[128 + 17], d.row, d.reader) = (3, 1, SDT)),
    case("a section_length of the second section of one more", STORE, |d| d.sets.cells[64 + 2] = 20),
    case("the form bit and the CRC of a kept section", STORE, |d| (d.sets.cells[1], d.sets.cells[29]) = (0, 0)),
    // The page.
    case("71 words of the list", ALL, |d| d.list.lend(71)),
    case("23 words of the list", ALL, |d| d.list.lend(23)),
    case("11 words of the list", ALL, |d| d.list.lend(11)),
    case("no list", ALL, |d| d.list.lend(0)),
    case("skip 1", ALL, |d| d.skip = 1),
    case("skip 2, 12 words of the list", ALL, |d| {
        d.skip = 2;
        d.list.lend(12);
    }),
    case("skip 3", ALL, |d| d.skip = 3),
    case("skip 4", ALL, |d| d.skip = 4),
    case("skip 2^64 - 1", ALL, |d| d.skip = u64::MAX),
    // A section by itself: its form, its numbers and its CRC are not looked at.
    case("no bytes", &[Section], |d| d.section.clear()),
    case("1 byte", &[Section], |d| d.section.truncate(1)),
    case("2 bytes", &[Section], |d| d.section.truncate(2)),
    case("a byte less", &[Section], |d| d.section.truncate(29)),
    case("a byte more", &[Section], |d| d.section.push(0)),
    case("3 bytes", &[Section], |d| d.section = vec![0x40, 0xF0, 0]),
    case("15 bytes", &[Section], |d| d.section = [&[0x40, 0xF0, 12][..], &[0; 12]].concat()),
    case("16 bytes", &[Section], |d| d.section = [&[0x40, 0xF0, 13][..], &[0; 13]].concat()),
    case("services of 14 bytes", &[Section], |d| (d.section, d.reader) = ([&[0x42, 0xF0, 11][..], &[0; 11]].concat(), SDT)),
    case("services of 15 bytes", &[Section], |d| (d.section, d.reader) = ([&[0x42, 0xF0, 12][..], &[0; 12]].concat(), SDT)),
    case("the short form", &[Section], |d| d.section[1] &= 0x7F),
    case("another CRC", &[Section], |d| d.section[29] ^= 1),
    case("section_number 255", &[Section], |d| d.section[6] = 255),
    case("section_number 255, a second length of 9", &[Section], |d| (d.section[6], d.section[15]) = (255, 9)),
];
