//! Two guides compared (docs/RULES.md, "Compared guides").
use super::Reading;
use super::section::crc;
use crate::faults::Fault;
use player::guides::{Copy, Guides, Told};
use std::collections::BTreeMap;

type Section<'a> = &'a [u8];

/// The sections of a side by table_id and number.
type Side<'a> = BTreeMap<(u8, u8), Section<'a>>;

/// PID (none only where one is left out by a fault), table_id (of a schedule the first of its kind), extension, current_next, transport_stream_id, original_network_id; of what is no EIT the last two are 0.
type Key = (Option<u16>, u8, u16, u8, u16, u16);

pub fn answer(reading: &Reading, command: &Guides) -> Told {
    match command {
        Guides::Compare { schedules, words, sides } => compare(reading, *schedules, usize::from(*words) / 4, sides),
        Guides::Held { number, sides: [first, second] } => held(reading, *number, first, second),
    }
}

fn word(section: Section, at: usize) -> u16 {
    u16::from_be_bytes([section[at], section[at + 1]])
}

fn is_eit(table_id: u8) -> bool {
    (0x4E..=0x6F).contains(&table_id)
}

fn version(section: Section) -> u8 {
    section[5] >> 1 & 31
}

/// Long-form sections of 12 bytes or more to the last byte.
fn sections<'a>(reading: &Reading, mut bytes: &'a [u8]) -> Option<Vec<Section<'a>>> {
    let mut found = Vec::new();
    while let [_, form, low, ..] = bytes {
        let size = 3 + (usize::from(form & 0x0F) << 8 | usize::from(*low));
        let long = form & 0x80 != 0 || reading.has(Fault::ShortFormTaken);
        if size > bytes.len() || !long {
            return None;
        }
        let (section, rest) = bytes.split_at(size);
        bytes = rest;
        if size < 12 && reading.has(Fault::ElevenBytesTaken) {
            continue;
        }
        if size < 12 || reading.has(Fault::CrcJudged) && crc(section) != 0 {
            return None;
        }
        found.push(section);
    }
    (bytes.is_empty() || reading.has(Fault::BytesBehindTaken)).then_some(found)
}

/// The key of a side by its first section.
fn key(reading: &Reading, schedules: bool, pid: Option<u16>, section: Section) -> Key {
    let table = if schedules { section[0] & 0xF0 } else { section[0] };
    let stream = |at: usize| if is_eit(section[0]) { word(section, at) } else { 0 };
    let current = if reading.has(Fault::GuideVersionInKey) { section[5] & 0x3F } else { section[5] & 1 };
    let current = if reading.has(Fault::GuideCurrentNextIgnored) { 0 } else { current };
    let network = if reading.has(Fault::GuideNetworkIgnored) { 0 } else { stream(10) };
    let pid = if reading.has(Fault::GuidePidIgnored) { None } else { pid };
    (pid, table, word(section, 3), current, stream(8), network)
}

/// The bytes as a set, or as a schedule; none where they are no such thing.
fn side<'a>(reading: &Reading, schedules: bool, bytes: &'a [u8]) -> Option<Side<'a>> {
    let sections = sections(reading, bytes)?;
    let Some(first) = sections.first() else { return reading.has(Fault::EmptyIsSet).then(Side::new) };
    if schedules && !(0x50..=0x6F).contains(&first[0]) {
        return None;
    }
    let strict = Reading { fault: None, ..reading.clone() };
    let kinds_mixed = reading.has(Fault::KindsMixed);
    for pair in sections.windows(2) {
        let [x, y] = pair else { unreachable!("windows of two") };
        let one_key = |x: Section, y: Section| {
            let [mut j, mut k] = [x, y].map(|section| key(&strict, schedules, None, section));
            if kinds_mixed && schedules {
                (j.1, k.1) = (0, 0);
            }
            j == k
        };
        let same_table = x[0] == y[0];
        let after = x[6] < y[6] || reading.has(Fault::EqualNumbersTaken) && x[6] == y[6];
        let one_version = version(x) == version(y) && x[7] == y[7];
        let later_table = schedules && (x[0] < y[0] || reading.has(Fault::TablesFall) && x[0] > y[0]);
        if !one_key(x, y) || !(later_table || same_table && one_version && after) {
            return None;
        }
    }
    if reading.has(Fault::NumberAboveLast) && sections.iter().any(|section| section[6] > section[7]) {
        return None;
    }
    Some(sections.into_iter().map(|section| ((section[0], section[6]), section)).collect())
}

fn refused(number: u8) -> Told {
    Told::Compared { number, told: None, tables: None, list: Vec::new() }
}

fn is_pid(pid: Option<u16>) -> bool {
    pid.is_none_or(|pid| pid < 8192)
}

fn compare(reading: &Reading, schedules: bool, room: usize, [first, second]: &[Copy; 2]) -> Told {
    let bad_pid = !is_pid(first.pid) || !is_pid(second.pid);
    let no_pid = (first.pid.is_none() || second.pid.is_none()) && !reading.has(Fault::GuideNoPidCompared);
    if no_pid && reading.has(Fault::GuideNoPidFirst) {
        return refused(41);
    }
    if bad_pid && reading.has(Fault::GuidePidFirst) {
        return refused(12);
    }
    let (Some(a), Some(b)) = (side(reading, schedules, &first.bytes), side(reading, schedules, &second.bytes)) else { return refused(10) };
    // A side without sections, where one is taken for a set, has whatever key the other has.
    let (x, y) = match (a.first_key_value(), b.first_key_value()) {
        (Some((_, x)), Some((_, y))) => (x, y),
        (Some((_, x)), None) | (None, Some((_, x))) => (x, x),
        (None, None) => return refused(10),
    };
    if bad_pid && reading.has(Fault::GuideBadPidBeforeNone) {
        return refused(12);
    }
    if no_pid {
        return refused(41);
    }
    let one_key = key(reading, schedules, first.pid, x) == key(reading, schedules, second.pid, y);
    if reading.has(Fault::KeyBeforePid) && !one_key {
        return refused(33);
    }
    if bad_pid {
        return refused(12);
    }
    if !one_key {
        return refused(33);
    }
    let tables = tables(reading, x[0] & 0xF0, &a, &b);
    let list = differences(reading, &a, &b);
    let versions = if schedules { tables.iter().all(|word| word & 4 == 0) } else { version(x) == version(y) };
    let lasts = if schedules { tables.iter().all(|word| word & 8 == 0) } else { x[7] == y[7] };
    let versions = if reading.has(Fault::GuideLastsForVersions) { lasts } else { versions };
    let room = room + usize::from(reading.has(Fault::RoomOneTooMany));
    if list.len() > room {
        let count = if reading.has(Fault::NoRoomUncounted) { 0 } else { list.len() as u64 };
        let shown = if reading.has(Fault::ListedOnNoRoom) { room } else { 0 };
        return Told::Compared {
            number: 34,
            told: Some([count, versions.into(), lasts.into()]),
            tables: None,
            list: list[..shown].to_vec(),
        };
    }
    let number = if list.is_empty() { 9 } else { 8 };
    Told::Compared { number, told: Some([list.len() as u64, versions.into(), lasts.into()]), tables: schedules.then_some(tables), list }
}

/// The sections of one table, by its first section; none where the side has not the table.
fn leader<'a>(side: &Side<'a>, table_id: u8) -> Option<Section<'a>> {
    side.range((table_id, 0)..=(table_id, 255)).next().map(|(_, section)| *section)
}

fn tables(reading: &Reading, first: u8, a: &Side, b: &Side) -> [u32; 16] {
    std::array::from_fn(|t| match (leader(a, first + t as u8), leader(b, first + t as u8)) {
        (None, None) => 0,
        (Some(_), None) => 1,
        (None, Some(_)) => 2,
        (Some(x), Some(y)) => {
            let [version_weight, last_weight] = if reading.has(Fault::TableWordsExchanged) { [8, 4] } else { [4, 8] };
            3 + version_weight * u32::from(version(x) != version(y)) + last_weight * u32::from(x[7] != y[7])
        }
    })
}

fn differences(reading: &Reading, a: &Side, b: &Side) -> Vec<[u32; 4]> {
    let mut both: Vec<(u8, u8)> = a.keys().chain(b.keys()).copied().collect();
    both.sort_unstable();
    both.dedup();
    if reading.has(Fault::TableOfOneSideUnlisted) {
        both.retain(|&(table, _)| leader(a, table).is_some() && leader(b, table).is_some());
    }
    let mut list = Vec::new();
    for at in both {
        let entry = match (a.get(&at), b.get(&at)) {
            (Some(_), None) => [1, 0],
            (None, Some(_)) => [2, 0],
            (Some(x), Some(y)) if x != y => {
                let place = x.iter().zip(*y).take_while(|(x, y)| x == y).count() as u32;
                [3, place + u32::from(reading.has(Fault::PlaceTooHigh))]
            }
            _ => continue,
        };
        list.push([at.0.into(), at.1.into(), entry[0], entry[1]]);
    }
    list
}

fn held(reading: &Reading, number: u16, first: &[u8], second: &[u8]) -> Told {
    let none = |number| Told::Held { number, told: None };
    let set_or_empty = |bytes: &[u8]| bytes.is_empty() || side(reading, false, bytes).is_some();
    if !set_or_empty(first) || !set_or_empty(second) {
        return none(10);
    }
    let place = |bytes: &[u8]| {
        let mut start = 0;
        for section in sections(reading, bytes).unwrap_or_default() {
            if u16::from(section[6]) == number {
                return Some([start as u64, section.len() as u64]);
            }
            start += section.len();
        }
        None
    };
    let told = |side: u64, [start, length]: [u64; 2]| {
        let side = if reading.has(Fault::HeldOfTheOther) { 3 - side } else { side };
        Told::Held { number: 8, told: Some([side, start, length]) }
    };
    match (place(first), place(second)) {
        (Some(place), None) => told(1, place),
        (None, Some(place)) => told(2, place),
        (Some(place), Some(_)) if reading.has(Fault::HeldByBothGiven) => told(1, place),
        _ => none(9),
    }
}
