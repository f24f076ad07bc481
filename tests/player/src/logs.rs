//! Logs: what is asked and told, as text and on a tape, and the library behind it.
use crate::answer::{hex, pid_text};
use crate::lent::{Lent, halves, words};
use petrizolu::calls::{self, RunMemory};
use petrizolu::{Answer as Number, HEAD_WORDS, LogRecord, LogSettings, NO_PID, SLOT_WORDS};
use std::fmt::{self, Display};

/// What a run is lent: rows of the gate, rows of the collector, bytes of its cells.
pub const GATE_ROWS: usize = 65_536;
pub const ROWS: usize = 256;
pub const CELL_BYTES: usize = 1 << 20;

/// Settings of a log.
#[derive(Clone, Copy, Debug, PartialEq, Eq)]
pub struct Settings {
    pub capacity: u32,
    pub repeats: bool,
    pub rule: u8,
    pub limit: u32,
    pub size: u32,
    pub count: u32,
    /// 0 with, 1 without a PID, 2 as before sets without one were given up; others there are not.
    pub pids: u8,
}

#[derive(Clone, Debug)]
pub enum Logs {
    /// The log of a section list, into a room of so many bytes.
    Write { settings: Settings, room: u32, list: Vec<u8> },
    /// Whether a log is that of a section list.
    Check { settings: Settings, list: Vec<u8>, log: Vec<u8> },
    /// The record at a place.
    Read { place: u32, log: Vec<u8> },
    /// The record of a gate's answer to a section.
    Offer { answer: u8, rule: u8, input: u8, pid: u16, section: Vec<u8> },
    /// The record of the set that a section completed.
    Set { input: u8, pid: Option<u16>, section: Vec<u8> },
}

/// What is answered.
#[derive(Clone, Debug, PartialEq, Eq)]
pub enum Told {
    /// 7 tells the bytes.
    Written { number: u8, bytes: Option<Vec<u8>> },
    /// 38, 39 and 40 tell the place.
    Checked { number: u8, place: Option<u64> },
    /// 8 tells the words of the record.
    Read { number: u8, words: Option<[u64; 12]> },
}

impl Told {
    pub fn number(&self) -> u8 {
        match self {
            Told::Written { number, .. } | Told::Checked { number, .. } | Told::Read { number, .. } => *number,
        }
    }
}

/// The memory of a run, with what it held before.
#[derive(Clone, PartialEq)]
pub struct Memory {
    pub keys: Lent<u64>,
    pub changes: Lent<u64>,
    pub heads: Lent<u64>,
    pub slots: Lent<u32>,
    pub cells: Lent<u8>,
}

impl Memory {
    pub fn of(byte: u8) -> Memory {
        Memory {
            keys: words(byte, GATE_ROWS),
            changes: words(byte, GATE_ROWS),
            heads: words(byte, ROWS * HEAD_WORDS),
            slots: halves(byte, ROWS * SLOT_WORDS),
            cells: Lent::new(byte, CELL_BYTES),
        }
    }

    pub fn lend(&mut self) -> RunMemory<'_> {
        RunMemory {
            keys: &mut self.keys,
            changes: &mut self.changes,
            heads: &mut self.heads,
            slots: &mut self.slots,
            cells: &mut self.cells,
        }
    }
}

impl Settings {
    fn words(&self) -> LogSettings {
        LogSettings {
            capacity: self.capacity.into(),
            repeats: self.repeats.into(),
            change_rule: self.rule.into(),
            limit: self.limit.into(),
            size: self.size.into(),
            count: self.count.into(),
            pids: self.pids.into(),
        }
    }
}

/// Not written yet.
const BEFORE: u64 = 0xA5A5_A5A5_A5A5_A5A5;

impl Logs {
    pub fn kind(&self) -> &'static str {
        match self {
            Logs::Write { .. } => "logs write",
            Logs::Check { .. } => "logs check",
            Logs::Read { .. } => "logs read",
            Logs::Offer { .. } => "logs offer",
            Logs::Set { .. } => "logs set",
        }
    }

    /// Asks the library, with the memory that a run is lent; a refusal of its list or settings is held to leave that.
    pub fn ask(&self, memory: &mut Memory) -> Told {
        match self {
            Logs::Write { settings, room, list } => {
                let before = memory.clone();
                let mut bytes = vec![BEFORE as u8; *room as usize];
                let mut length = BEFORE;
                let number = calls::log_write(&settings.words(), list, &mut bytes, memory.lend(), &mut length);
                let written = if number == Number::DONE { length as usize } else { 0 };
                assert_eq!(length != BEFORE, number == Number::DONE, "{number}: what is told of the length");
                assert!(bytes[written..].iter().all(|&byte| byte == BEFORE as u8), "{number}: bytes behind the log were written");
                left_alone(number, &before, memory);
                bytes.truncate(written);
                Told::Written { number: number.0, bytes: (number == Number::DONE).then_some(bytes) }
            }
            Logs::Check { settings, list, log } => {
                let before = memory.clone();
                let mut place = BEFORE;
                let number = calls::log_check(&settings.words(), list, log, memory.lend(), &mut place);
                left_alone(number, &before, memory);
                Told::Checked { number: number.0, place: (place != BEFORE).then_some(place) }
            }
            Logs::Read { place, log } => {
                let mut record = LogRecord { next: BEFORE, ..LogRecord::default() };
                let number = calls::log_read(log, (*place).into(), &mut record);
                let LogRecord { kind, input, pid, table_id, extension, section, version, change, length, current, last, next } = record;
                let words = [kind, input, pid, table_id, extension, section, version, change, length, current, last, next];
                Told::Read { number: number.0, words: (next != BEFORE).then_some(words) }
            }
            Logs::Offer { answer, rule, input, pid, section } => made(13, |record, length| {
                let record = record.try_into().expect("13 bytes");
                calls::log_offer_record(Number(*answer), (*rule).into(), (*input).into(), (*pid).into(), section, record, length)
            }),
            Logs::Set { input, pid, section } => made(10, |record, length| {
                let record = record.try_into().expect("10 bytes");
                calls::log_set_record((*input).into(), pid.map_or(NO_PID, u32::from), section, record, length)
            }),
        }
    }
}

/// The list and the settings are judged before anything is written.
fn left_alone(number: Number, before: &Memory, after: &Memory) {
    let judged_first = matches!(number, Number::OVERLONG_SECTION | Number::NOT_WHOLE | Number::NO_PID_GIVEN | Number::TOO_LITTLE);
    assert!(!judged_first || before == after, "{number}: the memory of the run was written");
}

/// A record that a call made; behind it nothing is written.
fn made(size: usize, call: impl FnOnce(&mut [u8], &mut u64) -> Number) -> Told {
    let mut record = vec![BEFORE as u8; size];
    let mut length = BEFORE;
    let number = call(&mut record, &mut length);
    assert_eq!(length != BEFORE, number == Number::DONE, "{number}: what is told of the length");
    let behind = if number == Number::DONE { length as usize } else { 0 };
    assert!(record[behind..].iter().all(|&byte| byte == BEFORE as u8), "{number}: bytes behind the record were written");
    record.truncate(behind);
    Told::Written { number: number.0, bytes: (number == Number::DONE).then_some(record) }
}

// ---- as text

/// What stands in a script behind the kind; settings and the room by their names.
pub fn parse(
    kind: &str,
    words: &[&str],
    hex: impl Fn(&str) -> Option<Vec<u8>>,
    pid: impl Fn(&str) -> Option<Option<u16>>,
    number: impl Fn(&str, u32) -> Option<u32>,
) -> Option<Logs> {
    let byte = |name: &str, default: u8| u8::try_from(number(name, default.into())?).ok();
    let settings = || {
        Some(Settings {
            capacity: number("cap", 512)?,
            repeats: number("repeats", 0)? == 1,
            rule: byte("rule", 2)?,
            limit: number("limit", 16)?,
            size: number("size", 4096)?,
            count: number("cells", 64)?,
            pids: byte("pids", 0)?,
        })
    };
    let plain: Vec<&str> = words.iter().copied().filter(|word| !word.contains('=')).collect();
    Some(match (kind, &plain[..]) {
        ("write", [list]) => Logs::Write { settings: settings()?, room: number("room", 4096)?, list: hex(list)? },
        ("check", [list, log]) => Logs::Check { settings: settings()?, list: hex(list)?, log: hex(log)? },
        ("read", [place, log]) => Logs::Read { place: place.parse().ok()?, log: hex(log)? },
        ("offer", [answer, input, p, section]) => Logs::Offer {
            answer: answer.parse().ok()?,
            rule: byte("rule", 2)?,
            input: input.parse().ok()?,
            pid: pid(p)??,
            section: hex(section)?,
        },
        ("set", [input, p, section]) => Logs::Set { input: input.parse().ok()?, pid: pid(p)?, section: hex(section)? },
        _ => return None,
    })
}

impl Display for Settings {
    fn fmt(&self, f: &mut fmt::Formatter<'_>) -> fmt::Result {
        let Settings { capacity, repeats, rule, limit, size, count, pids } = self;
        write!(f, " cap={capacity} repeats={} rule={rule} limit={limit} size={size} cells={count} pids={pids}", u8::from(*repeats))
    }
}

impl Display for Logs {
    fn fmt(&self, f: &mut fmt::Formatter<'_>) -> fmt::Result {
        match self {
            Logs::Write { settings, room, list } => write!(f, "{settings} room={room} {}", hex(list)),
            Logs::Check { settings, list, log } => write!(f, "{settings} {} {}", hex(list), hex(log)),
            Logs::Read { place, log } => write!(f, " {place} {}", hex(log)),
            Logs::Offer { answer, rule, input, pid, section } => write!(f, " rule={rule} {answer} {input} {pid:04X} {}", hex(section)),
            Logs::Set { input, pid, section } => write!(f, " {input} {} {}", pid_text(*pid), hex(section)),
        }
    }
}

impl Display for Told {
    fn fmt(&self, f: &mut fmt::Formatter<'_>) -> fmt::Result {
        write!(f, "logs {}", self.number())?;
        match self {
            Told::Written { bytes: Some(bytes), .. } => write!(f, " {}", hex(bytes)),
            Told::Checked { place: Some(place), .. } => write!(f, " place={place}"),
            Told::Read { words: Some(words), .. } => write!(f, " [{}]", words.map(|word| word.to_string()).join(" ")),
            _ => Ok(()),
        }
    }
}

// ---- on a tape

/// What a tape has of each kind; `bytes` reads so many bytes.
pub fn read<E>(first: u8, mut bytes: impl FnMut(usize) -> Result<Vec<u8>, E>) -> Result<Logs, E> {
    let mut number = |size: usize| Ok(bytes(size)?.iter().fold(0, |sum: u32, &byte| sum << 8 | u32::from(byte)));
    if first == 0x73 || first == 0x74 {
        let [answer, rule] = if first == 0x73 { [number(1)?, number(1)?] } else { [0; 2] };
        let (input, pid, length) = (number(1)? as u8, number(2)? as u16, number(2)?);
        let section = bytes(length as usize)?;
        return Ok(match first {
            0x73 => Logs::Offer { answer: answer as u8, rule: rule as u8, input, pid, section },
            _ => Logs::Set { input, pid: Some(pid).filter(|&pid| pid != u16::MAX), section },
        });
    }
    if first == 0x72 {
        let (place, length) = (number(4)?, number(4)?);
        return Ok(Logs::Read { place, log: bytes(length as usize)? });
    }
    let settings = Settings {
        capacity: number(4)?,
        repeats: number(1)? != 0,
        rule: number(1)? as u8,
        limit: number(4)?,
        size: number(4)?,
        count: number(4)?,
        pids: number(1)? as u8,
    };
    let (second, length) = (number(4)?, number(4)?);
    let list = bytes(length as usize)?;
    Ok(match first {
        0x70 => Logs::Write { settings, room: second, list },
        _ => Logs::Check { settings, list, log: bytes(second as usize)? },
    })
}

pub fn write(logs: &Logs, tape: &mut Vec<u8>, no_pid: u16) {
    let length = |bytes: &[u8]| u32::try_from(bytes.len()).expect("at most 4 GiB").to_be_bytes();
    let with_settings = |tape: &mut Vec<u8>, first: u8, settings: &Settings| {
        tape.push(first);
        tape.extend(settings.capacity.to_be_bytes());
        tape.extend([settings.repeats.into(), settings.rule]);
        [settings.limit, settings.size, settings.count].iter().for_each(|number| tape.extend(number.to_be_bytes()));
        tape.push(settings.pids);
    };
    let section_of = |tape: &mut Vec<u8>, input: u8, pid: u16, section: &[u8]| {
        tape.push(input);
        tape.extend(pid.to_be_bytes());
        tape.extend(u16::try_from(section.len()).expect("at most 65,535 bytes").to_be_bytes());
        tape.extend(section);
    };
    match logs {
        Logs::Write { settings, room, list } => {
            with_settings(tape, 0x70, settings);
            tape.extend(room.to_be_bytes());
            tape.extend(length(list));
            tape.extend(list);
        }
        Logs::Check { settings, list, log } => {
            with_settings(tape, 0x71, settings);
            tape.extend(length(log));
            tape.extend(length(list));
            tape.extend(list);
            tape.extend(log);
        }
        Logs::Read { place, log } => {
            tape.push(0x72);
            tape.extend(place.to_be_bytes());
            tape.extend(length(log));
            tape.extend(log);
        }
        Logs::Offer { answer, rule, input, pid, section } => {
            tape.extend([0x73, *answer, *rule]);
            section_of(tape, *input, *pid, section);
        }
        Logs::Set { input, pid, section } => {
            tape.push(0x74);
            section_of(tape, *input, pid.unwrap_or(no_pid), section);
        }
    }
}
