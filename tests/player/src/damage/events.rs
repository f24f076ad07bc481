//! The readers of events over an EIT collector of three rows and three schedules, two and one in use, and four cells of 64 bytes; the list has room for five entries.
use crate::{BEFORE, Case, Store, UNTOLD, case, page};
use petrizolu::{Answer, ENTRY_WORDS, EitState, Listed, calls};
use player::eit::Eit;
use player::lent::Lent;

#[derive(Clone, Copy)]
pub enum Call {
    Set,
    Table,
    Section,
}
use Call::*;

#[derive(Clone, PartialEq)]
pub struct Damaged {
    eit: Eit,
    section: Vec<u8>,
    row: u64,
    table: u64,
    skip: u64,
    list: Lent<u32>,
    listed: Listed,
}

/// A present/following set of two sections: event 1 with a descriptor of two bytes (event at byte 14, descriptor at byte 26, its CRC at byte 30), event 2 without one.
const FIRST: &[u8] = b"\x4E\xF0\x1F\x00\x01\xC1\x00\x01\x00\x01\x21\x74\x01\x4E\x00\x01\xC0\x79\x12\x45\x00\x01\x45\x30\x80\x04\x4D\x02\x61\x62\x3F\xE1\x30\x51";
const SECOND: &[u8] =
    b"\x4E\xF0\x1B\x00\x01\xC1\x01\x01\x00\x01\x21\x74\x01\x4E\x00\x02\xC0\x79\x12\x45\x00\x01\x45\x30\x80\x00\xC3\x01\x0C\x54";
/// A schedule of one table of one section: event 3, laid out as event 1.
const SCHEDULE: &[u8] = b"\x50\xF0\x1F\x00\x01\xC1\x00\x00\x00\x01\x21\x74\x00\x50\x00\x03\xC0\x79\x12\x45\x00\x01\x45\x30\x80\x04\x4D\x02\x61\x62\xC3\xA0\xF4\x6B";

/// What is kept by value after `filled`.
const WHOLE: EitState = EitState { limit: 3, size: 64, count: 4, used: 2, evictions: 0, schedules: 1, schedule_evictions: 0, clock: 3 };

impl Store for Damaged {
    type Call = Call;

    /// The set in row 0, in cells 0 and 1; that of the schedule in row 1, in cell 2; the schedule in row 0. All went out.
    fn filled() -> Self {
        let mut eit = Eit::lend(3, 256, 0);
        assert_eq!(eit.open(3, 64, 4), Answer::DONE);
        let answers = [FIRST, SECOND, SCHEDULE].map(|section| eit.push(0, 0x0012, section));
        assert_eq!(answers, [(Answer::NOTHING, 0), (Answer::SET, 0), (Answer::SCHEDULE, 0)]);
        assert_eq!(eit.state, WHOLE);
        Self { eit, section: FIRST.to_vec(), row: 0, table: 0, skip: 0, list: Lent::new(BEFORE, 5 * ENTRY_WORDS), listed: UNTOLD }
    }

    fn name(call: Call) -> &'static str {
        match call {
            Set => "events",
            Table => "events in the schedule",
            Section => "events of the section",
        }
    }

    fn call(&mut self, call: Call) -> Answer {
        let Self { eit, section, row, table, skip, list, listed } = self;
        let before = eit.clone();
        let answer = match call {
            Set => eit.events(*row, *skip, list, listed),
            Table => eit.events_in_schedule(*row, *table, *skip, list, listed),
            Section => calls::events(section, *skip, list, listed),
        };
        assert!(*eit == before, "a question that changed something");
        answer
    }

    /// What is told, and of the entries that are listed whether it is an event or a descriptor, its section, its place and its event_id or tag.
    fn says(&self) -> String {
        page(self.listed, &self.list)
    }
}

const ALL: &[Call] = &[Set, Table, Section];
const STORE: &[Call] = &[Set, Table];

/// The word of a slot with a kept length of 34 bytes, those of the section in cell 0.
const KEPT: u32 = 34 << 16;

pub const CASES: &[Case<Damaged>] = &[
    case("nothing damaged", ALL, |_| {}),
    // 10: settings that opening refuses, counts above the limit, a lent slice too short by one.
    case("cell size 11", STORE, |d| d.eit.state.size = 11),
    case("cell size 4097, no cells", STORE, |d| d.eit.state = EitState { size: 4097, count: 0, ..WHOLE }),
    case("65536 cells", STORE, |d| d.eit.state.count = 65536),
    case("limit 4", STORE, |d| d.eit.state.limit = 4),
    case("4 rows used of 3", STORE, |d| d.eit.state.used = 4),
    case("4 schedules of 3", STORE, |d| d.eit.state.schedules = 4),
    case("35 words of heads", STORE, |d| d.eit.heads.lend(35)),
    case("863 words of slots", STORE, |d| d.eit.slots.lend(863)),
    case("255 bytes of cells", STORE, |d| d.eit.cells.lend(255)),
    case("35 words of schedule heads", STORE, |d| d.eit.schedule_heads.lend(35)),
    case("13823 words of units", STORE, |d| d.eit.units.lend(13823)),
    // 10: a filled slot whose cell number is past the last or whose kept length is not within 12 to the cell size.
    case("a set's slot that names cell 4 of 4", STORE, |d| d.eit.slots[32] = KEPT + 4),
    case("a set's kept length of 11", STORE, |d| d.eit.slots[32] = 11 << 16),
    case("a set's kept length of 65", STORE, |d| d.eit.slots[33] = 65 << 16),
    case("a schedule's slot that names cell 4 of 4", STORE, |d| d.eit.units[32] = KEPT + 4),
    case("a schedule's kept length of 11", STORE, |d| d.eit.units[32] = 11 << 16),
    // Not 10: what stands in no slot of a row in use, in a table that a schedule has not, or in a schedule not in use; counts at their end.
    case("a kept length of 11 past the set's last slot", STORE, |d| d.eit.slots[34] = 11 << 16),
    case("a kept length of 11 in a row not in use", STORE, |d| d.eit.slots[608] = 11 << 16),
    case("a kept length of 11 in a table not present", STORE, |d| d.eit.units[320] = 11 << 16),
    case("evictions at their end", STORE, |d| (d.eit.state.evictions, d.eit.state.schedule_evictions) = (u64::MAX, u64::MAX)),
    // 9: no row or table of this number, a mark of 0, a schedule that is not whole.
    case("row 1", STORE, |d| d.row = 1),
    case("row 2", STORE, |d| d.row = 2),
    case("row 2^64 - 1", STORE, |d| d.row = u64::MAX),
    case("table 1", &[Table], |d| d.table = 1),
    case("table 16", &[Table], |d| d.table = 16),
    case("table 2^64 - 1", &[Table], |d| d.table = u64::MAX),
    case("1 row used", STORE, |d| (d.eit.state.used, d.row) = (1, 1)),
    case("no schedule used", STORE, |d| d.eit.state.schedules = 0),
    case("a mark of 0", STORE, |d| d.eit.heads[8] = 0),
    case("a mark of 2^64 - 1", STORE, |d| d.eit.heads[8] = u64::MAX),
    case("a mark of 0 of the schedule's set", STORE, |d| (d.eit.heads[20], d.row) = (0, 1)),
    case("a mark of 0 of the schedule's set, the schedule", &[Table], |d| d.eit.heads[20] = 0),
    case("a last_table_id of 0x51", STORE, |d| d.eit.schedule_heads[7] = 0x51),
    case("a last_table_id of 0x4F", STORE, |d| d.eit.schedule_heads[7] = 0x4F),
    case("a last_table_id of 0x60", STORE, |d| d.eit.schedule_heads[7] = 0x60),
    case("a table that is not present", STORE, |d| d.eit.units[0] = 0),
    case("a second table, and a last_table_id of 0x51", &[Table], |d| {
        d.eit.schedule_heads[7] = 0x51;
        (d.eit.units[288], d.eit.units[320], d.table) = (1, KEPT, 1);
    }),
    // 41, after 10 and before 9: 8192 in the head of a set or a schedule in use, whichever is asked for. Words above it are no 41.
    case("a PID of 8192 in the set's head", ALL, |d| d.eit.heads[0] = 8192),
    case("a PID of 8192 in the other set's head", STORE, |d| d.eit.heads[12] = 8192),
    case("a PID of 8192 in a set's head not in use", STORE, |d| d.eit.heads[24] = 8192),
    case("a PID of 8192 in the schedule's head", STORE, |d| d.eit.schedule_heads[0] = 8192),
    case("a PID of 8192 in a schedule's head not in use", STORE, |d| d.eit.schedule_heads[12] = 8192),
    case("a PID of 8192 in the schedule's head, row 7", STORE, |d| (d.eit.schedule_heads[0], d.row) = (8192, 7)),
    case("a PID of 8192 in the set's head, no list", STORE, |d| {
        d.eit.heads[0] = 8192;
        d.list.lend(0);
    }),
    case("a PID of 8192 in the set's head, table_id 0x42 in the first section", STORE, |d| (d.eit.heads[0], d.eit.cells[0]) = (8192, 0x42)),
    case("a PID of 8192 in the set's head, a kept length of 11", STORE, |d| (d.eit.heads[0], d.eit.slots[32]) = (8192, 11 << 16)),
    case("a PID of 8193 in the set's head", STORE, |d| d.eit.heads[0] = 8193),
    case("a PID of 2^64 - 1 in the schedule's head", STORE, |d| d.eit.schedule_heads[0] = u64::MAX),
    // The slots of a row in use decide, whatever they name.
    case("no first section", STORE, |d| d.eit.slots[32] = 0),
    case("the first section twice", STORE, |d| d.eit.slots[33] = KEPT),
    case("the table's section past its last number", STORE, |d| d.eit.units[33] = KEPT),
    case("a last_section_number of 0", STORE, |d| d.eit.heads[7] = 0),
    case("a last_section_number of 300", STORE, |d| d.eit.heads[7] = 300),
    case("a kept length of 12", STORE, |d| d.eit.slots[32] = 12 << 16),
    case("a kept length of 18", STORE, |d| d.eit.slots[32] = 18 << 16),
    case("a kept length of 30", STORE, |d| d.eit.slots[32] = 30 << 16),
    // The bytes of cells: 18, 19 and 32, at the first section that has one; those before it stand.
    case("table_id 0x42 in the first section", STORE, |d| d.eit.cells[0] = 0x42),
    case("table_id 0x42 in the second section", STORE, |d| d.eit.cells[64] = 0x42),
    case("table_id 0x42 in the table", STORE, |d| d.eit.cells[128] = 0x42),
    case("an event that counts a byte more", STORE, |d| d.eit.cells[25] = 5),
    case("an event that counts a byte less", STORE, |d| d.eit.cells[25] = 3),
    case("an event of the second section that counts a byte", STORE, |d| d.eit.cells[64 + 25] = 1),
    case("a descriptor of three bytes in the first section", STORE, |d| d.eit.cells[27] = 3),
    case("a descriptor of one byte, and one is left", STORE, |d| d.eit.cells[27] = 1),
    case("a descriptor of no bytes, and another of 98", STORE, |d| d.eit.cells[27] = 0),
    case("a descriptor of three bytes in the table", STORE, |d| d.eit.cells[128 + 27] = 3),
    case("a table_id of no EIT before a descriptor of three bytes", STORE, |d| (d.eit.cells[0], d.eit.cells[27]) = (0x70, 3)),
    case("the length, the form bit and the CRC of a kept section", STORE, |d| {
        (d.eit.cells[1], d.eit.cells[2], d.eit.cells[33]) = (0, 0, 0)
    }),
    // The page.
    case("59 words of the list", ALL, |d| d.list.lend(59)),
    case("23 words of the list", ALL, |d| d.list.lend(23)),
    case("11 words of the list", ALL, |d| d.list.lend(11)),
    case("no list", ALL, |d| d.list.lend(0)),
    case("skip 1", ALL, |d| d.skip = 1),
    case("skip 2, 12 words of the list", ALL, |d| {
        d.skip = 2;
        d.list.lend(12);
    }),
    case("skip 3", ALL, |d| d.skip = 3),
    case("skip 2^64 - 1", ALL, |d| d.skip = u64::MAX),
    case("skip 1, a descriptor of three bytes in the first section", STORE, |d| (d.skip, d.eit.cells[27]) = (1, 3)),
    // A section: 14, 18, 19, 32; its form and its CRC are not looked at.
    case("no bytes", &[Section], |d| d.section.clear()),
    case("2 bytes", &[Section], |d| d.section.truncate(2)),
    case("a byte less", &[Section], |d| d.section.truncate(33)),
    case("a byte more", &[Section], |d| d.section.push(0)),
    case("a long form of 11 bytes", &[Section], |d| {
        d.section.truncate(11);
        d.section[2] = 8;
    }),
    case("a short form of 5 bytes", &[Section], |d| d.section = vec![0x4E, 0x70, 2, 0, 0]),
    case("a short form of 7 bytes, no EIT", &[Section], |d| d.section = vec![0x70, 0x70, 4, 0, 0, 0, 9]),
    case("the short form", &[Section], |d| d.section[1] &= 0x7F),
    case("another CRC", &[Section], |d| d.section[33] ^= 1),
    case("section_number 255", &[Section], |d| d.section[6] = 255),
    case("table_id 0x42", &[Section], |d| d.section[0] = 0x42),
    case("table_id 0x6F", &[Section], |d| d.section[0] = 0x6F),
    case("an event that counts a byte more", &[Section], |d| d.section[25] = 5),
    case("a descriptor of three bytes", &[Section], |d| d.section[27] = 3),
    case("a descriptor of one byte, and one is left", &[Section], |d| d.section[27] = 1),
];
