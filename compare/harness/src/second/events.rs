//! docs/RULES.md, "Entries": what sections of an EIT say, one entry for each event and each descriptor; and the calendar.
use super::Reading;
use super::section::{long_form, refused_by_the_eit, true_length, word};
use crate::faults::Fault;
use player::answer::Answer;
use player::command::{Page, Part as Of};

/// A section that is listed: its number, and where its bytes begin in what is lent.
pub struct Part<'a> {
    pub number: u8,
    pub start: usize,
    pub bytes: &'a [u8],
}

type Words = [u32; 12];

/// What a section says by itself.
pub fn read(reading: &mut Reading, section: &[u8], page: &Page) -> Answer {
    if section.len() < 3 || !true_length(section) || (long_form(section) && section.len() < 12) {
        return Answer::Entries(Of::Eit, 14, None);
    }
    let number = section.get(if reading.has(Fault::NumberFromLast) { 7 } else { 6 }).copied().unwrap_or(0);
    list(reading, vec![Part { number, start: 0, bytes: section }], page)
}

/// What several sections say, one after another. The first that cannot be read to its end ends the listing.
pub fn list(reading: &mut Reading, mut parts: Vec<Part>, page: &Page) -> Answer {
    if reading.has(Fault::LastSectionFirst) {
        parts.reverse();
    }
    let mut all = Vec::new();
    let mut ended = None;
    for part in &parts {
        if let Err((number, place)) = entries(reading, part, &mut all) {
            ended.get_or_insert((number, part.number, place));
            if !reading.has(Fault::LaterSectionsListed) {
                break;
            }
        }
    }
    let skip = usize::from(page.skip) + usize::from(reading.has(Fault::WindowOffByOne));
    let shown: Vec<Words> = all.iter().skip(skip).take(page.room.into()).copied().collect();
    let count = if reading.has(Fault::CountOfThePage) { shown.len() } else { all.len() } as u64;
    match ended {
        Some((number, section, place)) => Answer::Entries(Of::Eit, number, Some(([count, section.into(), place as u64], shown))),
        None => Answer::Entries(Of::Eit, if all.len() > page.skip.into() { 8 } else { 9 }, Some(([count, 0, 0], shown))),
    }
}

/// Adds the entries of one section. `Err` is 18, 19, or 32 with the byte where the descriptor starts that runs past its loop.
fn entries(reading: &mut Reading, part: &Part, all: &mut Vec<Words>) -> Result<(), (u8, usize)> {
    if let Some(number) = refused_by_the_eit(reading, part.bytes) {
        return Err((number, 0));
    }
    let end = part.bytes.len() - 4;
    let mut at = 14;
    while at < end {
        let event = &part.bytes[at..at + 12];
        let words = event_words(reading, part, at, event);
        if words[7] != u32::MAX || !reading.has(Fault::UndefinedUnlisted) {
            all.push(words);
        }
        let stop = at + 12 + usize::from(word(event, 10) & 0x0FFF);
        descriptors(reading, part, at, stop, all)?;
        at = stop;
    }
    Ok(())
}

/// The descriptors of the event at a place, up to where its loop stops.
fn descriptors(reading: &Reading, part: &Part, event: usize, stop: usize, all: &mut Vec<Words>) -> Result<(), (u8, usize)> {
    let mut at = event + 12;
    while at < stop {
        let left = stop - at;
        if left == 1 && reading.has(Fault::OneByteLeft) {
            break;
        }
        let length = if left < 2 { left } else { part.bytes[at + 1].into() };
        let room = left.saturating_sub(2) + usize::from(reading.has(Fault::HandsBackLate));
        if left < 2 || length > room {
            let place = if reading.has(Fault::PlaceOfTheEvent) { event } else { at };
            return Err((32, place + if reading.has(Fault::PlaceInTheCells) { part.start } else { 0 }));
        }
        let mut words = [0; 12];
        words[..5].copy_from_slice(&[2, part.number.into(), (part.start + at) as u32, part.bytes[at].into(), length as u32]);
        all.push(words);
        // A length that counted its own two bytes.
        at += if reading.has(Fault::LengthWithItsBytes) { length.max(2) } else { 2 + length };
    }
    Ok(())
}

/// EN 300 468, 5.2.4: event_id in 16 bits, start_time in 40 (a modified Julian day in 16 and six BCD digits), duration in six BCD digits, running_status in 3 bits,
/// free_CA_mode in 1, descriptors_loop_length in 12.
fn event_words(reading: &Reading, part: &Part, at: usize, event: &[u8]) -> Words {
    let status = event[10];
    let [day, time] = if reading.has(Fault::DayBehindTime) { [7, 2] } else { [2, 4] };
    let [free_ca_mode, running] =
        [if reading.has(Fault::CaOfTheNextBit) { 3 } else { 4 }, if reading.has(Fault::RunningTwoBits) { 6 } else { 5 }];
    [
        1,
        part.number.into(),
        (part.start + at) as u32,
        word(event, 0).into(),
        (word(event, 10) & 0x0FFF).into(),
        0,
        word(event, day).into(),
        seconds(reading, &event[time..time + 3]),
        seconds(reading, &event[7..10]),
        (status >> running).into(),
        (status >> free_ca_mode & 1).into(),
        0,
    ]
}

/// Hours, minutes and seconds in six BCD digits, counted as they are; all ones where a digit is above 9.
fn seconds(reading: &Reading, bytes: &[u8]) -> u32 {
    let highest = if reading.has(Fault::DigitOfTen) { 10 } else { 9 };
    let digits: Vec<u32> = bytes.iter().flat_map(|byte| [byte >> 4, byte & 0x0F]).map(u32::from).collect();
    if digits.iter().any(|&digit| digit > highest) {
        return u32::MAX;
    }
    let [hours, minutes, seconds] = [0, 2, 4].map(|at| 10 * digits[at] + digits[at + 1]);
    3600 * hours + if reading.has(Fault::MinutesOf100) { 100 } else { 60 } * minutes + seconds
}

/// The date of a modified Julian day in decimal digits, by counting from day 0, 1858-11-17; 0 before 1900-03-01, where the formulas of EN 300 468, Annex C, begin, and
/// for what 16 bits do not hold.
pub fn date(reading: &Reading, day: u32) -> u32 {
    let first = if reading.has(Fault::FirstDayLeftOut) { 15080 } else { 15079 };
    if !(first..=65535).contains(&day) {
        return 0;
    }
    let leap = |year: u32| year.is_multiple_of(4) && (!year.is_multiple_of(100) || year.is_multiple_of(400));
    let days = |year: u32, month: u32| match month {
        2 => 28 + u32::from(leap(year)),
        4 | 6 | 9 | 11 => 30,
        _ => 31,
    };
    let [mut year, mut month, mut left] = [1858, 11, 16 + day];
    while left >= days(year, month) {
        left -= days(year, month);
        [year, month] = if month == 12 { [year + 1, 1] } else { [year, month + 1] };
    }
    if month < 3 && reading.has(Fault::DateWithoutK) {
        [year, month] = [year - 1, month + 12];
    }
    10_000 * year + 100 * month + left + 1
}
