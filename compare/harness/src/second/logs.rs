//! docs/RULES.md, "Logs": the log of a section list, what is wrong with a log, and one record.
use super::Reading;
use super::collector::Collector;
use super::gate::{Follow, Gate, Origin, Parts, Watch, parts};
use super::section::{crc, word};
use crate::faults::Fault;
use crate::lent;
use player::answer::{Judgement, Out};
use player::logs::{CELL_BYTES, GATE_ROWS, Logs, ROWS, Settings, Told};

/// The longest section of a list.
const LONGEST: usize = 4098;

/// A section with the input and the PID that it came on.
pub struct Listed<'a> {
    pub input: u8,
    pub pid: u16,
    pub bytes: &'a [u8],
}

/// A section list: 42 or 10 by its first bad section.
fn sections_in<'a>(reading: &Reading, list: &'a [u8]) -> Result<Vec<Listed<'a>>, u8> {
    match sections_before(reading, list) {
        (sections, None) => Ok(sections),
        (_, Some(number)) => Err(number),
    }
}

/// The sections before the first bad one, and the number that it is refused by.
pub fn sections_before<'a>(reading: &Reading, mut list: &'a [u8]) -> (Vec<Listed<'a>>, Option<u8>) {
    let mut sections = Vec::new();
    while let [input, rest @ ..] = list {
        let [pid_high, pid_low, high, low, bytes @ ..] = rest else { return (sections, Some(10)) };
        let length = usize::from(u16::from_be_bytes([*high, *low]));
        let missing = length > bytes.len();
        let longest = if reading.has(Fault::LogLongestOfACell) { 4096 } else { LONGEST };
        let passed_over = reading.has(Fault::LogOverlongOnBadInput) && !lent::is_input(*input);
        if length > longest && !passed_over && !(missing && reading.has(Fault::LogCutBeforeOverlong)) {
            return (sections, Some(42));
        }
        if missing && !reading.has(Fault::LogListCutTaken) {
            return (sections, Some(10));
        }
        let (bytes, behind) = bytes.split_at(length.min(bytes.len()));
        sections.push(Listed { input: *input, pid: u16::from_be_bytes([*pid_high, *pid_low]), bytes });
        list = behind;
    }
    (sections, None)
}

/// Whether it is asked for without PIDs, which is given up: a log as before is checked still, and none is written.
fn without_pid(reading: &Reading, settings: &Settings, writes: bool) -> bool {
    match settings.pids {
        1 => writes || !reading.has(Fault::LogWithoutAsBefore),
        2 => writes && !reading.has(Fault::LogWrittenAsBefore),
        _ => false,
    }
}

/// What opening the gate, opening the collector and the manner of PIDs ask for, of what the player lends.
fn opens(reading: &Reading, settings: &Settings) -> bool {
    let Settings { capacity, rule, limit, size, count, pids, .. } = *settings;
    let gate = capacity as usize <= GATE_ROWS && (1..=2).contains(&rule);
    let sizes = (12..=4096).contains(&size) && count <= 65_535 && u64::from(size) * u64::from(count) <= CELL_BYTES as u64;
    gate && sizes && limit as usize <= ROWS && (pids < 3 || reading.has(Fault::LogMannerUnjudged))
}

/// The settings that a log can be made by.
fn judged<'a>(reading: &Reading, settings: &Settings, writes: bool, list: &'a [u8]) -> Result<Vec<Listed<'a>>, u8> {
    if !opens(reading, settings) && reading.has(Fault::LogTooLittleFirst) {
        return Err(13);
    }
    let no_pid = without_pid(reading, settings, writes);
    if no_pid && reading.has(Fault::LogNoPidFirst) {
        return Err(41);
    }
    let sections = sections_in(reading, list)?;
    if no_pid && !(reading.has(Fault::LogTooLittleBeforeNoPid) && !opens(reading, settings)) {
        return Err(41);
    }
    if opens(reading, settings) { Ok(sections) } else { Err(13) }
}

/// The run: an opened gate and an opened set collector.
struct Run<'a> {
    settings: &'a Settings,
    gate: Gate,
    watches: Vec<Watch>,
    sets: Collector,
}

impl Run<'_> {
    fn open<'a>(reading: &Reading, settings: &'a Settings) -> Run<'a> {
        Run {
            settings,
            gate: Gate::open(settings.capacity as usize, settings.repeats, Follow::Off, settings.rule.into()),
            watches: (0..lent::INPUTS).map(|_| Watch::unopened(reading)).collect(),
            sets: Collector::open(false, settings.limit as u16, settings.count as u16, settings.size as u16),
        }
    }

    /// The records that a section gives.
    fn take(&mut self, reading: &mut Reading, section: &Listed) -> Vec<Vec<u8>> {
        let Listed { input, pid, bytes } = *section;
        if !lent::is_pid(pid) || !lent::is_input(input) {
            let recorded = reading.has(Fault::LogRefusedRecorded) && lent::is_input(input);
            return if recorded { vec![failed(reading, 4, input, pid, bytes)] } else { Vec::new() };
        }
        let judgement = self.gate.offer(reading, &mut self.watches, Origin { input, pid }, bytes);
        let mut records = vec![offered(reading, judgement.number(), self.settings.rule, input, pid, bytes)];
        if judgement == Judgement::Suppressed && reading.has(Fault::LogSuppressedUnnoted) {
            records.clear();
        }
        let goes_on = match judgement {
            Judgement::Emitted => true,
            Judgement::Suppressed => !reading.has(Fault::LogSuppressedNotPushed),
            Judgement::Mismatch(..) | Judgement::Short(_) => false,
        };
        if !goes_on {
            return records;
        }
        let with_pid = self.settings.pids == 0;
        let pushed = if with_pid || reading.has(Fault::LogPidInKey) { Some(pid) } else { None };
        let (number, out) = self.sets.push(reading, input, pushed, bytes);
        let conflict = number == 22 && reading.has(Fault::LogConflictRecorded);
        if matches!(out, Out::Set(_)) || conflict {
            let at = if reading.has(Fault::LogSetFirst) { 0 } else { records.len() };
            let told = (with_pid || reading.has(Fault::LogKindSixUnused)).then_some(pid);
            records.insert(at, set(reading, input, told, bytes));
        }
        records
    }
}

fn number16(reading: &Reading, number: u16) -> [u8; 2] {
    if reading.has(Fault::LogLowByteFirst) { number.to_le_bytes() } else { number.to_be_bytes() }
}

/// Kind, input and PID.
fn head(reading: &Reading, kind: u8, input: u8, pid: u16) -> Vec<u8> {
    let pid = if reading.has(Fault::LogPidOfTwelveBits) { pid & 0x0FFF } else { pid };
    [&[kind, input][..], &number16(reading, pid)].concat()
}

/// Kinds 3 and 4.
fn failed(reading: &Reading, kind: u8, input: u8, pid: u16, section: &[u8]) -> Vec<u8> {
    let own = section.len() >= 3 && reading.has(Fault::LogSectionLength);
    let length = if own { 3 + (word(section, 1) & 0x0FFF) } else { section.len() as u16 };
    let mut record = head(reading, kind, input, pid);
    record.extend(number16(reading, length));
    record
}

/// The record of an answer of the gate to a section; none of a refusal.
fn offered(reading: &Reading, answer: u8, rule: u8, input: u8, pid: u16, section: &[u8]) -> Vec<u8> {
    let exchanged = reading.has(Fault::LogKindsExchanged);
    match answer {
        31 => failed(reading, if exchanged { 4 } else { 3 }, input, pid, section),
        3 => failed(reading, if exchanged { 3 } else { 4 }, input, pid, section),
        1 | 2 => {
            let rule = if reading.has(Fault::LogChangeByRule1) { 1 } else { rule };
            let Parts { extension, number, version, change } = parts(reading, rule.into(), section);
            let unheaded = reading.has(Fault::LogExtensionOfShortForm) && section.len() >= 5;
            let extension = if unheaded { word(section, 3) } else { extension };
            let version = if reading.has(Fault::LogVersionLeftOut) { 0 } else { version };
            let change = if reading.has(Fault::LogChangeOverAll) { crc(section) } else { change };
            let mut record = head(reading, answer, input, pid);
            record.push(section[0]);
            record.extend(number16(reading, extension));
            record.extend(if reading.has(Fault::LogNumberBehindVersion) { [version, number] } else { [number, version] });
            record.extend(change.to_be_bytes());
            record
        }
        _ => Vec::new(),
    }
}

/// Kind 5, and by the older definition 6: the set that this section completed.
fn set(reading: &Reading, input: u8, pid: Option<u16>, section: &[u8]) -> Vec<u8> {
    let input = if reading.has(Fault::LogSetInputZero) { 0 } else { input };
    let mut record = match pid {
        Some(pid) => head(reading, 5, input, pid),
        None => vec![6, input],
    };
    let current = if reading.has(Fault::LogAlwaysCurrent) { 1 } else { section[5] & 1 };
    let last = if reading.has(Fault::LogNumberForLast) { section[6] } else { section[7] };
    record.push(section[0]);
    record.extend(number16(reading, word(section, 3)));
    record.extend([current, section[5] >> 1 & 0x1F, last]);
    record
}

/// All records that a section list gives, for a log that is checked or written.
pub fn records_of(reading: &mut Reading, settings: &Settings, writes: bool, list: &[u8]) -> Result<Vec<Vec<u8>>, u8> {
    let sections = judged(reading, settings, writes, list)?;
    let mut run = Run::open(reading, settings);
    Ok(sections.iter().flat_map(|section| run.take(reading, section)).collect())
}

/// Bytes of a record with its kind; none of a kind that there is not.
fn size(reading: &Reading, kind: u8) -> Option<usize> {
    Some(match kind {
        6 if reading.has(Fault::LogKindSixUnknown) => return None,
        1 | 2 => 13,
        3 | 4 => 6,
        5 => 10,
        6 => 8,
        _ => return None,
    })
}

/// What is wrong with a log.
#[derive(Clone, Copy, Debug, PartialEq, Eq)]
pub enum Wrong {
    Unknown,
    Cut,
    Differs,
    Missing,
    TooMany,
}

impl Wrong {
    pub fn number(self) -> u8 {
        match self {
            Wrong::Unknown => 38,
            Wrong::Cut => 39,
            Wrong::Differs | Wrong::Missing | Wrong::TooMany => 40,
        }
    }

    /// The word that `check_log` says it by.
    pub fn word(self) -> &'static str {
        match self {
            Wrong::Unknown => "unknown",
            Wrong::Cut => "cut",
            Wrong::Differs => "differs",
            Wrong::Missing => "missing",
            Wrong::TooMany => "too-many",
        }
    }
}

/// The log beside the records that are expected: none where it is right, else what is wrong first, and at which byte a record starts there.
pub fn verdict(reading: &Reading, log: &[u8], expected: &[Vec<u8>]) -> Option<(Wrong, usize)> {
    let mut place = 0;
    let mut expected = expected.iter();
    loop {
        let next = expected.next();
        let rest = &log[place..];
        let Some(&kind) = rest.first() else {
            return next.filter(|_| !reading.has(Fault::LogYesTooSoon)).map(|_| (Wrong::Missing, place));
        };
        if next.is_none() && reading.has(Fault::LogYesGoesOn) {
            return None;
        }
        if next.is_none() && reading.has(Fault::LogTooManyFirst) {
            return Some((Wrong::TooMany, place));
        }
        let other_kind = reading.has(Fault::LogOtherKindUnknown) && next.is_some_and(|next| next[0] != kind);
        let Some(size) = size(reading, kind).filter(|_| !other_kind) else {
            if reading.has(Fault::LogUnknownSkipped) && place + 1 < log.len() {
                place += 1;
                continue;
            }
            return Some((Wrong::Unknown, place + usize::from(reading.has(Fault::LogUnknownLate))));
        };
        if rest.len() < size {
            return Some((if reading.has(Fault::LogCutDiffers) { Wrong::Differs } else { Wrong::Cut }, place));
        }
        let Some(next) = next else { return Some((Wrong::TooMany, place)) };
        let compared = size - usize::from(reading.has(Fault::LogLastByteUncompared));
        if next.len() != size || rest[..compared] != next[..compared] {
            let byte = rest.iter().zip(next).position(|(one, other)| one != other).unwrap_or(0);
            return Some((Wrong::Differs, place + if reading.has(Fault::LogPlaceOfTheByte) { byte } else { 0 }));
        }
        place += size;
    }
}

pub fn answer(reading: &mut Reading, command: &Logs) -> Told {
    match command {
        Logs::Write { settings, room, list } => match records_of(reading, settings, true, list) {
            Err(number) => Told::Written { number, bytes: None },
            Ok(records) => {
                let log = records.concat();
                let full = *room as usize - usize::from(*room > 0 && reading.has(Fault::LogNoRoomAtFull));
                if log.len() > full { Told::Written { number: 44, bytes: None } } else { Told::Written { number: 7, bytes: Some(log) } }
            }
        },
        Logs::Check { settings, list, log } => match records_of(reading, settings, false, list) {
            Err(number) => Told::Checked { number, place: None },
            Ok(records) => match verdict(reading, log, &records) {
                None => Told::Checked { number: 8, place: None },
                Some((wrong, place)) => Told::Checked { number: wrong.number(), place: Some(place as u64) },
            },
        },
        Logs::Read { place, log } => read(reading, *place as usize, log),
        Logs::Offer { section, .. } if section.len() > LONGEST => Told::Written { number: 42, bytes: None },
        Logs::Offer { rule, .. } if !(1..=2).contains(rule) => Told::Written { number: 13, bytes: None },
        Logs::Offer { answer, rule, input, pid, section } => {
            let seen = matches!(answer, 1 | 2);
            let origin = lent::is_input(*input) && lent::is_pid(*pid);
            let none = !origin || (seen && !super::gate::has_parts(reading, section));
            let bytes = if none { Vec::new() } else { offered(reading, *answer, *rule, *input, *pid, section) };
            Told::Written { number: 7, bytes: Some(bytes) }
        }
        Logs::Set { input, pid, section } => {
            let origin = lent::is_input(*input) && pid.map_or(reading.has(Fault::LogSetWithoutPid), lent::is_pid);
            let least = if reading.has(Fault::LogSetOfEightBytes) { 8 } else { 12 };
            let bytes = if origin && section.len() >= least { set(reading, *input, *pid, section) } else { Vec::new() };
            Told::Written { number: 7, bytes: Some(bytes) }
        }
    }
}

/// The record at a place, in twelve words; the last is the place after it.
fn read(reading: &Reading, place: usize, log: &[u8]) -> Told {
    let none = |number| Told::Read { number, words: None };
    let Some(rest) = log.get(place..).filter(|rest| !rest.is_empty()) else { return none(9) };
    let Some(size) = size(reading, rest[0]) else { return none(38) };
    let Some(record) = rest.get(..size) else { return none(39) };
    let [kind, input, body @ ..] = record else { unreachable!("no kind has less than two bytes") };
    let (pid, body) = if *kind == 6 { (8192, body) } else { (u64::from(word(body, 0)), &body[2..]) };
    let pid = if *kind == 6 && reading.has(Fault::LogUnknownPidZero) { 0 } else { pid };
    let at = |at: usize| u64::from(body[at]);
    let number = |at: usize| u64::from(word(body, at));
    let next = (place + size) as u64;
    let (kind, input) = (u64::from(*kind), u64::from(*input));
    let words = match kind {
        1 | 2 => [kind, input, pid, at(0), number(1), at(3), at(4), number(5) << 16 | number(7), 0, 0, 0, next],
        3 | 4 => [kind, input, pid, 0, 0, 0, 0, 0, number(0), 0, 0, next],
        _ => [kind, input, pid, at(0), number(1), 0, at(4), 0, 0, at(3), at(5), next],
    };
    Told::Read { number: 8, words: Some(words) }
}
