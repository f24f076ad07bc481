//! Two guides compared: two sets of three sections of 17 bytes that differ in one, two schedules of two tables of one section; the list has room for three differences. Bytes are written over, cut and
//! joined, on either side.
use crate::{Case, Store, case};
use petrizolu::{Answer, Compared, DIFFERENCE_WORDS, HeldByOne, NO_PID, calls};
use player::lent::Lent;

#[derive(Clone, Copy)]
pub enum Call {
    Sets,
    Schedules,
    Held,
}
use Call::*;

#[derive(Clone, PartialEq)]
pub struct Damaged {
    /// Of each side: a set, a schedule, and the PID.
    sets: [Vec<u8>; 2],
    schedules: [Vec<u8>; 2],
    pids: [u32; 2],
    number: u64,
    list: Lent<u32>,
    tables: [u32; 16],
    compared: Compared,
    held: HeldByOne,
}

const BEFORE: u32 = 0xA5A5_A5A5;
const UNTOLD: Compared = Compared { count: u64::MAX, versions: u64::MAX, lasts: u64::MAX };
const UNHELD: HeldByOne = HeldByOne { side: u64::MAX, start: u64::MAX, length: u64::MAX };

/// The bytes of a section: its header of 12, one more, and a CRC that nobody looks at.
const SIZE: usize = 17;

fn section(table_id: u8, number: u8, byte: u8) -> Vec<u8> {
    vec![table_id, 0xF0, 14, 0, 1, 0xC3, number, 2, 0, 7, 0x21, 0x74, byte, 0, 0, 0, 0]
}

impl Store for Damaged {
    type Call = Call;

    /// Numbers 0, 1 and 2 of table 4E, of which the second side has the byte of number 1 otherwise and lacks 2; tables 50 and 51, of which the second side lacks 51.
    fn filled() -> Self {
        let set = |sections: &[(u8, u8)]| sections.iter().flat_map(|&(number, byte)| section(0x4E, number, byte)).collect();
        Self {
            sets: [set(&[(0, 5), (1, 6), (2, 7)]), set(&[(0, 5), (1, 8)])],
            schedules: [[section(0x50, 0, 5), section(0x51, 0, 6)].concat(), section(0x50, 0, 5)],
            pids: [0x12; 2],
            number: 2,
            list: Lent::new(BEFORE, 3 * DIFFERENCE_WORDS),
            tables: [BEFORE; 16],
            compared: UNTOLD,
            held: UNHELD,
        }
    }

    fn name(call: Call) -> &'static str {
        match call {
            Sets => "compare",
            Schedules => "compare schedules",
            Held => "held by one",
        }
    }

    fn call(&mut self, call: Call) -> Answer {
        let Self { sets: [a, b], schedules: [s, t], pids: [p, q], number, list, tables, compared, held } = self;
        match call {
            Sets => calls::compare(a, *p, b, *q, list, compared),
            Schedules => calls::compare_schedules(s, *p, t, *q, tables, list, compared),
            Held => calls::held_by_one(a, b, *number, held),
        }
    }

    fn says(&self) -> String {
        let mut text = String::new();
        if self.compared != UNTOLD {
            let Compared { count, versions, lasts } = self.compared;
            text += &format!(" count={count} versions={versions} lasts={lasts}");
        }
        if self.tables != [BEFORE; 16] {
            text += &format!(" tables={}", self.tables.map(|word| word.to_string()).join(","));
        }
        let (entries, _) = self.list.as_chunks::<DIFFERENCE_WORDS>();
        for [table, number, kind, place] in entries.iter().take_while(|entry| entry[0] != BEFORE) {
            text += &format!(" [{table} {number} {kind} {place}]");
        }
        if self.held != UNHELD {
            let HeldByOne { side, start, length } = self.held;
            text += &format!(" side={side} start={start} length={length}");
        }
        text
    }
}

const ALL: &[Call] = &[Sets, Schedules, Held];
const BOTH: &[Call] = &[Sets, Schedules];
const OF_SETS: &[Call] = &[Sets, Held];

/// The first section of each first side.
fn first(d: &mut Damaged) -> [&mut Vec<u8>; 2] {
    let Damaged { sets: [set, _], schedules: [schedule, _], .. } = d;
    [set, schedule]
}

/// The first section of each second side.
fn second(d: &mut Damaged) -> [&mut Vec<u8>; 2] {
    let Damaged { sets: [_, set], schedules: [_, schedule], .. } = d;
    [set, schedule]
}

pub const CASES: &[Case<Damaged>] = &[
    case("nothing damaged", ALL, |_| {}),
    // 10, on either side: no bytes, bytes behind, cut, the short form, a length too long and too short.
    case("no bytes in the first", ALL, |d| first(d).into_iter().for_each(Vec::clear)),
    case("no bytes in the second", ALL, |d| second(d).into_iter().for_each(Vec::clear)),
    case("a byte behind the first", ALL, |d| first(d).into_iter().for_each(|bytes| bytes.push(0x4E))),
    case("a byte behind the second", ALL, |d| second(d).into_iter().for_each(|bytes| bytes.push(0x4E))),
    case("a byte less in the first", ALL, |d| first(d).into_iter().for_each(|bytes| bytes.truncate(bytes.len() - 1))),
    case("a byte less in the second", ALL, |d| second(d).into_iter().for_each(|bytes| bytes.truncate(bytes.len() - 1))),
    case("the short form in the first", ALL, |d| first(d).into_iter().for_each(|bytes| bytes[1] = 0x70)),
    case("the short form in the second", ALL, |d| second(d).into_iter().for_each(|bytes| bytes[1] = 0x70)),
    case("a section_length of 8, and 11 bytes", ALL, |d| {
        for bytes in first(d) {
            bytes.truncate(11);
            bytes[2] = 8;
        }
    }),
    case("a section_length of 9, and 12 bytes", ALL, |d| {
        for bytes in first(d) {
            bytes.truncate(12);
            bytes[2] = 9;
        }
    }),
    case("a section_length of 15", ALL, |d| first(d).into_iter().for_each(|bytes| bytes[2] = 15)),
    case("a section_length of 4095", ALL, |d| first(d).into_iter().for_each(|bytes| (bytes[1], bytes[2]) = (0xFF, 0xFF))),
    // 10: what the sections of a side share, and their order.
    case("numbers 1, 1 and 2 in the first", OF_SETS, |d| d.sets[0][6] = 1),
    case("numbers 2, 1 and 2 in the first", OF_SETS, |d| d.sets[0][6] = 2),
    case("numbers 0 and 0 in the second", OF_SETS, |d| d.sets[1][SIZE + 6] = 0),
    case("another version in the first's second section", OF_SETS, |d| d.sets[0][SIZE + 5] = 0xC5),
    case("another last number in the first's second section", OF_SETS, |d| d.sets[0][SIZE + 7] = 3),
    case("another table in the first's second section", OF_SETS, |d| d.sets[0][SIZE] = 0x4F),
    case("another service in the first's second section", OF_SETS, |d| d.sets[0][SIZE + 4] = 2),
    case("the first's second section marked next", OF_SETS, |d| d.sets[0][SIZE + 5] = 0xC2),
    case("another stream in the first's second section", OF_SETS, |d| d.sets[0][SIZE + 9] = 8),
    case("another network in the first's second section", OF_SETS, |d| d.sets[0][SIZE + 11] = 0x75),
    case("reserved bits in the first's second section", OF_SETS, |d| d.sets[0][SIZE + 5] = 0x03),
    case("another stream and network in what is no EIT", OF_SETS, |d| {
        (d.sets[0][0], d.sets[0][SIZE], d.sets[0][2 * SIZE], d.sets[0][SIZE + 9], d.sets[0][SIZE + 11]) = (0x42, 0x42, 0x42, 8, 0x75);
        (d.sets[1][0], d.sets[1][SIZE]) = (0x42, 0x42);
    }),
    case("tables 51 and 50 in the first", &[Schedules], |d| (d.schedules[0][0], d.schedules[0][SIZE]) = (0x51, 0x50)),
    case("tables 50 and 60 in the first", &[Schedules], |d| d.schedules[0][SIZE] = 0x60),
    case("tables 50 and 50 in the first, numbers 0 and 0", &[Schedules], |d| d.schedules[0][SIZE] = 0x50),
    case("tables 50 and 50 in the first, numbers 0 and 1", &[Schedules], |d| (d.schedules[0][SIZE], d.schedules[0][SIZE + 6]) = (0x50, 1)),
    case("the same, two versions", &[Schedules], |d| {
        (d.schedules[0][SIZE], d.schedules[0][SIZE + 6], d.schedules[0][SIZE + 5]) = (0x50, 1, 0xC5);
    }),
    case("tables 50 and 51 of two versions and last numbers", &[Schedules], |d| {
        (d.schedules[0][SIZE + 5], d.schedules[0][SIZE + 7]) = (0xC5, 9)
    }),
    case("tables 50 and 51 of two services", &[Schedules], |d| d.schedules[0][SIZE + 4] = 2),
    case("table 4F on both sides", &[Schedules], |d| {
        d.schedules[0].truncate(SIZE);
        (d.schedules[0][0], d.schedules[1][0]) = (0x4F, 0x4F);
    }),
    case("table 70 on both sides", &[Schedules], |d| {
        d.schedules[0].truncate(SIZE);
        (d.schedules[0][0], d.schedules[1][0]) = (0x70, 0x70);
    }),
    // 12, after 10 and before 33.
    case("PID 1FFF of the first", BOTH, |d| d.pids[0] = 0x1FFF),
    case("PID 2000 of the first", BOTH, |d| d.pids[0] = 0x2000),
    case("PID 2000 of the second", BOTH, |d| d.pids[1] = 0x2000),
    case("PID 10012 of the first", BOTH, |d| d.pids[0] = 0x1_0012),
    case("PID FFFFFFFE of both", BOTH, |d| d.pids = [0xFFFF_FFFE; 2]),
    case("PID 2000 of both, a byte behind the first", BOTH, |d| {
        d.pids = [0x2000; 2];
        first(d).into_iter().for_each(|bytes| bytes.push(0));
    }),
    case("PID 2000 of the second, another service in the first", BOTH, |d| {
        d.pids[1] = 0x2000;
        first(d).into_iter().for_each(|bytes| bytes.truncate(SIZE));
        first(d).into_iter().for_each(|bytes| bytes[4] = 2);
    }),
    case("PID 13 of the second", BOTH, |d| d.pids[1] = 0x13),
    // 41, after 10 and before 12, 33 and 34.
    case("no PID of the first", BOTH, |d| d.pids[0] = NO_PID),
    case("no PID of the second", BOTH, |d| d.pids[1] = NO_PID),
    case("no PID of both", BOTH, |d| d.pids = [NO_PID; 2]),
    case("no PID of the first, PID 2000 of the second", BOTH, |d| d.pids = [NO_PID, 0x2000]),
    case("PID 2000 of the first, no PID of the second", BOTH, |d| d.pids = [0x2000, NO_PID]),
    case("no PID of the first, a byte behind the second", BOTH, |d| {
        d.pids[0] = NO_PID;
        second(d).into_iter().for_each(|bytes| bytes.push(0));
    }),
    case("no PID of the second, another service in the first, no list", BOTH, |d| {
        d.pids[1] = NO_PID;
        first(d).into_iter().for_each(|bytes| bytes.truncate(SIZE));
        first(d).into_iter().for_each(|bytes| bytes[4] = 2);
        d.list.lend(0);
    }),
    // 33, before 34.
    case("another service in the first, one section, no list", ALL, |d| {
        first(d).into_iter().for_each(|bytes| bytes.truncate(SIZE));
        first(d).into_iter().for_each(|bytes| bytes[4] = 2);
        d.list.lend(0);
    }),
    case("the first marked next, one section", BOTH, |d| {
        first(d).into_iter().for_each(|bytes| bytes.truncate(SIZE));
        first(d).into_iter().for_each(|bytes| bytes[5] = 0xC2);
    }),
    case("another network in the first, one section", BOTH, |d| {
        first(d).into_iter().for_each(|bytes| bytes.truncate(SIZE));
        first(d).into_iter().for_each(|bytes| bytes[11] = 0x75);
    }),
    case("table 60 in the second", &[Schedules], |d| d.schedules[1][0] = 0x60),
    case("table 5F in the second", &[Schedules], |d| d.schedules[1][0] = 0x5F),
    // 34, and words of the list that are no whole difference.
    case("no list", BOTH, |d| d.list.lend(0)),
    case("3 words of the list", BOTH, |d| d.list.lend(3)),
    case("4 words of the list", BOTH, |d| d.list.lend(4)),
    case("7 words of the list", BOTH, |d| d.list.lend(7)),
    case("8 words of the list", BOTH, |d| d.list.lend(8)),
    case("11 words of the list", BOTH, |d| d.list.lend(11)),
    // Versions and last numbers.
    case("another version in the second, one section each", BOTH, |d| {
        first(d).into_iter().for_each(|bytes| bytes.truncate(SIZE));
        second(d).into_iter().for_each(|bytes| bytes.truncate(SIZE));
        second(d).into_iter().for_each(|bytes| bytes[5] = 0xC5);
    }),
    case("another last number in the second, one section each", BOTH, |d| {
        first(d).into_iter().for_each(|bytes| bytes.truncate(SIZE));
        second(d).into_iter().for_each(|bytes| bytes.truncate(SIZE));
        second(d).into_iter().for_each(|bytes| bytes[7] = 9);
    }),
    case("the last byte of the first section", BOTH, |d| first(d).into_iter().for_each(|bytes| bytes[SIZE - 1] = 1)),
    // One section.
    case("number 0", &[Held], |d| d.number = 0),
    case("number 3", &[Held], |d| d.number = 3),
    case("number 256", &[Held], |d| d.number = 256),
    case("number 2^64 - 1", &[Held], |d| d.number = u64::MAX),
    case("no bytes on either side", &[Held], |d| d.sets = [Vec::new(), Vec::new()]),
    case("another service in the second", &[Held], |d| {
        d.sets[1].truncate(SIZE);
        d.sets[1][4] = 2;
    }),
    case("number 255 in the first", &[Held], |d| (d.sets[0][2 * SIZE + 6], d.number) = (255, 255)),
];
