//! What sections of a NIT, BAT or SDT say (EN 300 468, 5.2.1 to 5.2.3; docs/RULES.md, "Entries"): one entry for each transport stream, service and descriptor. The first section
//! that has a 35 or a 36 decides, and then nothing is listed.
use super::Reading;
use super::events::Part;
use super::section::word;
use crate::faults::Fault;
use player::answer::Answer;
use player::command::{Page, Part as Of};

type Words = [u32; 12];

/// Why nothing is listed: 35 or 36, and the place.
type Refused = (u8, usize);

/// What a section says by itself.
pub fn read(reading: &Reading, reader: u8, section: &[u8], page: &Page) -> Answer {
    let number = section.get(6).copied().unwrap_or(0);
    list(reading, reader, vec![Part { number, start: 0, bytes: section }], page)
}

/// What several sections say, one after another.
pub fn list(reading: &Reading, reader: u8, parts: Vec<Part>, page: &Page) -> Answer {
    let mut all = Vec::new();
    let mut refused = None;
    for part in &parts {
        match entries(reading, reader, part) {
            Ok(entries) => all.extend(entries),
            Err(why) => {
                refused = Some((part.number, why));
                if !reading.has(Fault::LastBrokenDecides) {
                    break;
                }
            }
        }
    }
    let skip = usize::from(page.skip) + usize::from(reading.has(Fault::TablesPageLate));
    let shown: Vec<Words> = all.iter().skip(skip).take(page.room.into()).copied().collect();
    if let Some((section, (answer, place))) = refused {
        let shown = if reading.has(Fault::ListedBeforeBroken) { shown } else { Vec::new() };
        return Answer::Entries(Of::Sets, answer, Some(([0, section.into(), place as u64], shown)));
    }
    let count = if reading.has(Fault::TablesCountOfThePage) { shown.len() } else { all.len() } as u64;
    Answer::Entries(Of::Sets, if all.len() > page.skip.into() { 8 } else { 9 }, Some(([count, 0, 0], shown)))
}

fn entries(reading: &Reading, reader: u8, part: &Part) -> Result<Vec<Words>, Refused> {
    let table_id = part.bytes.first().copied().unwrap_or(0);
    let services = reader == 3 || reading.has(Fault::ReaderFour) && reader == 4;
    let own = match reader {
        1 => matches!(table_id, 0x40 | 0x41) || table_id == 0x4A && reading.has(Fault::BouquetAsNetwork),
        2 => table_id == 0x4A,
        _ if services => table_id == 0x42 || table_id == 0x46 && !reading.has(Fault::ServiceOtherRefused),
        _ => false,
    };
    if !own && !(reading.has(Fault::BrokenBeforeOther) && wrong_length(part.bytes)) {
        return Err((35, 0));
    }
    if wrong_length(part.bytes) && !(reading.has(Fault::LengthUnjudged) && part.bytes.len() >= 16) {
        return Err((36, 1));
    }
    if services { sdt(reading, part) } else { nit(reading, part) }
}

fn wrong_length(bytes: &[u8]) -> bool {
    bytes.len() < 3 || bytes.len() != 3 + usize::from(word(bytes, 1) & 0x0FFF)
}

/// EN 300 468, 5.2.1 and 5.2.2: network_descriptors_length at byte 8, the descriptors, transport_stream_loop_length, the transport streams, the CRC.
fn nit(reading: &Reading, part: &Part) -> Result<Vec<Words>, Refused> {
    let bytes = part.bytes;
    if bytes.len() < 16 {
        return Err((36, if reading.has(Fault::ShortAtOne) { 1 } else { 8 }));
    }
    let crc = bytes.len() - 4;
    let second = 10 + usize::from(word(bytes, 8) & 0x0FFF);
    if second + 2 > crc {
        return Err((36, 8));
    }
    let mut all = Vec::new();
    let first = Loop { part, reading, owner: if reading.has(Fault::PlaceOfTheLoop) { Some(8) } else { None } };
    first.descriptors(10, second - usize::from(reading.has(Fault::FirstLoopLess) && second > 10), &mut all)?;
    let streams = second + 2;
    let end = streams + usize::from(word(bytes, second) & 0x0FFF);
    let passed = reading.has(Fault::SecondLengthUnjudged) || reading.has(Fault::ByteAfterPassed) && end < crc;
    if end != crc && !passed {
        return Err((36, second));
    }
    let end = if passed && reading.has(Fault::SecondLengthUnjudged) { crc } else { end };
    let header = if reading.has(Fault::HeadersExchanged) { 5 } else { 6 };
    items(reading, part, streams, end, header, &mut all, |at| {
        let network = if reading.has(Fault::NetworkIdTold) { 3 } else { at + 2 };
        [3, word(bytes, at).into(), 0, word(bytes, network).into(), 0, 0, 0]
    })?;
    Ok(all)
}

/// EN 300 468, 5.2.3: original_network_id at byte 8, a byte that is reserved, the services up to the CRC.
fn sdt(reading: &Reading, part: &Part) -> Result<Vec<Words>, Refused> {
    let bytes = part.bytes;
    if bytes.len() < 15 {
        return Err((36, if reading.has(Fault::ServicesShortAtEight) { 8 } else { 11 }));
    }
    let network = word(bytes, if reading.has(Fault::StreamForNetwork) { 3 } else { 8 });
    let header = if reading.has(Fault::HeadersExchanged) { 6 } else { 5 };
    let first = if reading.has(Fault::ServicesFromTen) { 10 } else { 11 };
    let mut all = Vec::new();
    items(reading, part, first, bytes.len() - 4, header, &mut all, |at| {
        let flags = bytes[at + 2];
        let flags = if reading.has(Fault::FlagsExchanged) { (flags & 1) << 1 | flags >> 1 & 1 } else { flags & 3 };
        let status = bytes[at + 3];
        [4, word(bytes, at).into(), 0, network.into(), (status >> 5).into(), (status >> 4 & 1).into(), flags.into()]
    })?;
    Ok(all)
}

/// Transport streams or services from `at` to `end`, each with its descriptors. `says` has kind, id, length (0, told here), original_network_id, running_status, free_CA_mode and flags.
fn items(
    reading: &Reading,
    part: &Part,
    mut at: usize,
    end: usize,
    header: usize,
    all: &mut Vec<Words>,
    says: impl Fn(usize) -> [u32; 7],
) -> Result<(), Refused> {
    while at < end {
        if end - at < header {
            return Err((36, at));
        }
        let bits = if reading.has(Fault::ElevenBits) { 0x07FF } else { 0x0FFF };
        let length = usize::from(word(part.bytes, at + header - 2) & bits);
        let stop = at + header + length;
        if stop > end {
            return Err((36, at));
        }
        let [kind, id, _, network, running, ca, flags] = says(at);
        all.push([kind, part.number.into(), (part.start + at) as u32, id, length as u32, network, 0, 0, 0, running, ca, flags]);
        let owner = reading.has(Fault::PlaceOfTheEntry).then_some(at);
        Loop { part, reading, owner }.descriptors(at + header, stop, all)?;
        at = stop;
    }
    Ok(())
}

struct Loop<'a> {
    part: &'a Part<'a>,
    reading: &'a Reading,
    /// The place that a fault tells for that of a descriptor.
    owner: Option<usize>,
}

impl Loop<'_> {
    /// EN 300 468, 6.1: tag, length, so many bytes.
    fn descriptors(&self, mut at: usize, stop: usize, all: &mut Vec<Words>) -> Result<(), Refused> {
        while at < stop {
            let left = stop - at;
            if left == 1 && self.reading.has(Fault::TablesOneByteLeft) {
                break;
            }
            let length = if left < 2 { 0 } else { usize::from(self.part.bytes[at + 1]) };
            if left < 2 || 2 + length > left {
                return Err((36, self.owner.unwrap_or(at)));
            }
            let place = (self.part.start + at) as u32;
            all.push([2, self.part.number.into(), place, self.part.bytes[at].into(), length as u32, 0, 0, 0, 0, 0, 0, 0]);
            at += 2 + length;
        }
        Ok(())
    }
}
