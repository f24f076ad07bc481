//! Logs: a list of four sections, one of them repeated and one short, by a gate of 4 keys and a collector of 2 keys and 3 cells of 64 bytes, over just the memory that these need. The memory is written over, less of it is
//! lent, settings, list, log and room are otherwise.
use crate::{Case, Store, case};
use petrizolu::{Answer, HEAD_WORDS, LOG_BEFORE, LOG_WITH, LOG_WITHOUT, LogSettings, SLOT_WORDS, calls, crc, listed_section};
use player::lent::{Lent, halves, words};
use player::logs::Memory;

#[derive(Clone, Copy)]
pub enum Call {
    Check,
    Write,
}
use Call::*;

#[derive(Clone, PartialEq)]
pub struct Damaged {
    settings: LogSettings,
    list: Vec<u8>,
    log: Vec<u8>,
    room: Lent<u8>,
    memory: Memory,
    place: u64,
    length: u64,
}

const UNTOLD: u64 = u64::MAX;

/// A long form of one section.
fn table(extension: u8) -> Vec<u8> {
    let mut section = vec![0x42, 0xB0, 10, 0, extension, 0xC3, 0, 0, 0x61];
    section.extend(crc(&section).to_be_bytes());
    section
}

fn memory(byte: u8) -> Memory {
    Memory {
        keys: words(byte, 4),
        changes: words(byte, 4),
        heads: words(byte, 2 * HEAD_WORDS),
        slots: halves(byte, 2 * SLOT_WORDS),
        cells: Lent::new(byte, 3 * 64),
    }
}

impl Store for Damaged {
    type Call = Call;

    /// The log: emitted and a set twice, suppressed, short, 65 bytes.
    fn filled() -> Self {
        let settings = LogSettings { capacity: 4, repeats: 0, change_rule: 2, limit: 2, size: 64, count: 3, pids: LOG_WITH };
        let sections = [table(1), table(2), table(1), vec![0x02, 0xB0, 0x00]];
        let list: Vec<u8> = sections.iter().flat_map(|section| listed_section(0, 0x11, section).expect("short")).collect();
        let mut room = vec![0; 100];
        let mut length = 0;
        let told = calls::log_write(&settings, &list, &mut room, memory(0).lend(), &mut length);
        assert_eq!((told, length), (Answer::DONE, 65));
        room.truncate(65);
        Self { settings, list, log: room, room: Lent::new(0xA5, 66), memory: memory(0), place: UNTOLD, length: UNTOLD }
    }

    fn name(call: Call) -> &'static str {
        match call {
            Check => "check",
            Write => "write",
        }
    }

    fn call(&mut self, call: Call) -> Answer {
        let Self { settings, list, log, room, memory, place, length } = self;
        match call {
            Check => calls::log_check(settings, list, log, memory.lend(), place),
            Write => calls::log_write(settings, list, room, memory.lend(), length),
        }
    }

    fn left(&self, before: &Self) -> String {
        match (self == before, self.memory == before.memory) {
            (true, _) => "as before".into(),
            (_, true) => "the memory as before".into(),
            _ if self.room == before.room => "the room as before".into(),
            _ => "written".into(),
        }
    }

    fn says(&self) -> String {
        match (self.place, self.length) {
            (UNTOLD, UNTOLD) => String::new(),
            (place, UNTOLD) => format!(" place={place}"),
            (_, length) => format!(" length={length}"),
        }
    }
}

const BOTH: &[Call] = &[Check, Write];

/// The two sets of the log, at bytes 13 and 36, as they were before: kind 6, and no PID.
fn bare(log: &mut Vec<u8>) {
    for place in [36, 13] {
        log[place] = 6;
        log.drain(place + 2..place + 4);
    }
}

pub const CASES: &[Case<Damaged>] = &[
    case("nothing damaged", BOTH, |_| {}),
    case("memory of ones", BOTH, |d| d.memory = memory(0xFF)),
    case("memory of any bytes", BOTH, |d| d.memory = memory(0x5A)),
    // 13: less lent by an element of each array.
    case("a key less", BOTH, |d| d.memory.keys.lend(3)),
    case("a change less", BOTH, |d| d.memory.changes.lend(3)),
    case("a head word less", BOTH, |d| d.memory.heads.lend(2 * HEAD_WORDS - 1)),
    case("a slot word less", BOTH, |d| d.memory.slots.lend(2 * SLOT_WORDS - 1)),
    case("a byte of the cells less", BOTH, |d| d.memory.cells.lend(3 * 64 - 1)),
    case("no memory", BOTH, |d| {
        d.memory.keys.lend(0);
        d.memory.changes.lend(0);
        d.memory.heads.lend(0);
        d.memory.slots.lend(0);
        d.memory.cells.lend(0);
    }),
    // 13: settings that opening refuses, or that no memory would do for.
    case("capacity 0", BOTH, |d| d.settings.capacity = 0),
    case("capacity 5", BOTH, |d| d.settings.capacity = 5),
    case("capacity 2^64 - 1", BOTH, |d| d.settings.capacity = u64::MAX),
    case("repeats 1", BOTH, |d| d.settings.repeats = 1),
    case("repeats 2^64 - 1", BOTH, |d| d.settings.repeats = u64::MAX),
    case("change rule 0", BOTH, |d| d.settings.change_rule = 0),
    case("change rule 1", BOTH, |d| d.settings.change_rule = 1),
    case("change rule 3", BOTH, |d| d.settings.change_rule = 3),
    case("change rule 2^32 + 2", BOTH, |d| d.settings.change_rule = (1 << 32) + 2),
    case("limit 0", BOTH, |d| d.settings.limit = 0),
    case("limit 3", BOTH, |d| d.settings.limit = 3),
    case("limit 2^64 / 12 + 1", BOTH, |d| d.settings.limit = u64::MAX / 12 + 1),
    case("limit 2^64 - 1", BOTH, |d| d.settings.limit = u64::MAX),
    case("cell size 11", BOTH, |d| d.settings.size = 11),
    case("cell size 12", BOTH, |d| d.settings.size = 12),
    case("cell size 65", BOTH, |d| d.settings.size = 65),
    case("cell size 4,097", BOTH, |d| d.settings.size = 4097),
    case("cell size 2^64 - 1", BOTH, |d| d.settings.size = u64::MAX),
    case("no cells", BOTH, |d| d.settings.count = 0),
    case("4 cells", BOTH, |d| d.settings.count = 4),
    case("65,536 cells", BOTH, |d| d.settings.count = 65_536),
    case("2^64 - 1 cells", BOTH, |d| d.settings.count = u64::MAX),
    case("pids 3", BOTH, |d| d.settings.pids = 3),
    case("pids 2^32", BOTH, |d| d.settings.pids = 1 << 32),
    case("pids 2^64 - 1", BOTH, |d| d.settings.pids = u64::MAX),
    // 41, after 42 and 10 and before 13; as before sets without a PID were given up a log is checked, and none is written.
    case("without", BOTH, |d| d.settings.pids = LOG_WITHOUT),
    case("without, change rule 3", BOTH, |d| (d.settings.pids, d.settings.change_rule) = (LOG_WITHOUT, 3)),
    case("without, no memory of cells", BOTH, |d| {
        d.settings.pids = LOG_WITHOUT;
        d.memory.cells.lend(0);
    }),
    case("without, a byte less in the list", BOTH, |d| {
        d.settings.pids = LOG_WITHOUT;
        d.list.truncate(d.list.len() - 1);
    }),
    case("without, a section of 4,099 bytes", BOTH, |d| {
        d.settings.pids = LOG_WITHOUT;
        d.list.extend([0, 0, 0x11, 0x10, 0x03]);
    }),
    case("without, no room", &[Write], |d| {
        d.settings.pids = LOG_WITHOUT;
        d.room.lend(0);
    }),
    case("before", BOTH, |d| d.settings.pids = LOG_BEFORE),
    case("before, change rule 3", BOTH, |d| (d.settings.pids, d.settings.change_rule) = (LOG_BEFORE, 3)),
    case("before, a byte less in the list", BOTH, |d| {
        d.settings.pids = LOG_BEFORE;
        d.list.truncate(d.list.len() - 1);
    }),
    case("before, a log of then", &[Check], |d| {
        d.settings.pids = LOG_BEFORE;
        bare(&mut d.log);
    }),
    case("a log of then", &[Check], |d| bare(&mut d.log)),
    case("a log of then, cut inside its first set", &[Check], |d| {
        bare(&mut d.log);
        d.log.truncate(20);
    }),
    case("without, a log of then", &[Check], |d| {
        d.settings.pids = LOG_WITHOUT;
        bare(&mut d.log);
    }),
    // 42 and 10, before 13.
    case("no sections", BOTH, |d| d.list.clear()),
    case("a byte less in the list", BOTH, |d| d.list.truncate(d.list.len() - 1)),
    case("four bytes behind the list", BOTH, |d| d.list.extend([0, 0, 0x11, 0])),
    case("a section of 4,099 bytes that is missing", BOTH, |d| d.list.extend([0, 0, 0x11, 0x10, 0x03])),
    case("a section of 4,099 bytes", BOTH, |d| {
        d.list.extend([0, 0, 0x11, 0x10, 0x03]);
        d.list.extend([0; 4099]);
    }),
    case("a section of 4,098 bytes", BOTH, |d| {
        d.list.extend([0, 0, 0x11, 0x10, 0x02]);
        d.list.extend([0x72; 4098]);
    }),
    case("a byte less in the list, change rule 3", BOTH, |d| {
        d.list.truncate(d.list.len() - 1);
        d.settings.change_rule = 3;
    }),
    case("a section of 4,099 bytes, pids 3", BOTH, |d| {
        d.list.extend([0, 0, 0x11, 0x10, 0x03]);
        d.settings.pids = 3;
    }),
    // 44.
    case("room for just the log", &[Write], |d| d.room.lend(65)),
    case("room for a byte less", &[Write], |d| d.room.lend(64)),
    case("no room", &[Write], |d| d.room.lend(0)),
    case("no sections, no room", &[Write], |d| {
        d.list.clear();
        d.room.lend(0);
    }),
    // 38, 39 and 40.
    case("no log", &[Check], |d| d.log.clear()),
    case("a byte less of the log", &[Check], |d| d.log.truncate(64)),
    case("a record less", &[Check], |d| d.log.truncate(59)),
    case("a record more", &[Check], |d| d.log.extend([3, 0, 0, 0x11, 0, 3])),
    case("a byte more", &[Check], |d| d.log.push(6)),
    case("a byte more of no kind", &[Check], |d| d.log.push(7)),
    case("the first kind 0", &[Check], |d| d.log[0] = 0),
    case("the first kind 2", &[Check], |d| d.log[0] = 2),
    case("the first kind 3", &[Check], |d| d.log[0] = 3),
    case("the first kind 255", &[Check], |d| d.log[0] = 255),
    case("another input in the set", &[Check], |d| d.log[14] = 200),
    case("another PID in the last record", &[Check], |d| (d.log[61], d.log[62]) = (0x23, 0x28)),
    case("another last byte", &[Check], |d| d.log[64] ^= 1),
];
