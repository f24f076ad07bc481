//! docs/RULES.md, "Layouts": what the bytes of a section say.
use super::{Difference, Reading};
use crate::faults::Fault;

/// The CRC of ISO/IEC 13818-1, Annex A, bit by bit.
pub fn crc(bytes: &[u8]) -> u32 {
    let mut register = u32::MAX;
    for byte in bytes {
        for bit in (0..8).rev() {
            let carry = (register >> 31 == 1) != (byte >> bit & 1 == 1);
            register <<= 1;
            if carry {
                register ^= 0x04C1_1DB7;
            }
        }
    }
    register
}

pub fn word(section: &[u8], at: usize) -> u16 {
    u16::from_be_bytes([section[at], section[at + 1]])
}

/// The last four bytes.
pub fn stored_crc(section: &[u8]) -> u32 {
    let [.., a, b, c, d] = section else { panic!("asked only of four bytes or more") };
    u32::from_be_bytes([*a, *b, *c, *d])
}

pub fn crc_fits(section: &[u8]) -> bool {
    section.len() >= 4 && crc(&section[..section.len() - 4]) == stored_crc(section)
}

pub fn long_form(section: &[u8]) -> bool {
    section[1] & 0x80 != 0
}

pub fn true_length(section: &[u8]) -> bool {
    section.len() == 3 + usize::from(word(section, 1) & 0x0FFF)
}

pub fn version(section: &[u8]) -> u8 {
    section[5] >> 1 & 0x1F
}

/// Whether a long form of 12 bytes or more is marked current.
pub fn current(section: &[u8]) -> bool {
    section[5] & 1 == 1
}

/// The PIDs of a readable PAT whose program_number is not 0.
pub fn programs(reading: &mut Reading, section: &[u8]) -> Option<Vec<u16>> {
    if section.len() < 12 || section[0] != 0 || !true_length(section) {
        return None;
    }
    let groups = &section[8..section.len() - 4];
    if !groups.len().is_multiple_of(4) && !reading.has(Fault::PatRemainderRead) {
        return None;
    }
    if !long_form(section) && !reading.differs(Difference::ShortFormPat) {
        return None;
    }
    if section[5] & 1 == 0 && reading.has(Fault::PatNextIgnored) {
        return None;
    }
    let network_too = reading.has(Fault::NetworkPidFollowed);
    let named = groups.chunks_exact(4).filter(|group| word(group, 0) != 0 || network_too);
    Some(named.map(|group| word(group, 2) & 0x1FFF).collect())
}

/// The PIDs of a PAT that is known to be readable, that of program 0 too.
pub fn programs_and_network(section: &[u8]) -> Vec<u16> {
    section[8..section.len() - 4].chunks_exact(4).map(|group| word(group, 2) & 0x1FFF).collect()
}

/// 14 to 17, in this order.
pub fn refused_by_a_collector(reading: &Reading, section: &[u8]) -> Option<u8> {
    if section.len() < 3 || !true_length(section) || (long_form(section) && section.len() < 12) {
        return Some(14);
    }
    if !long_form(section) {
        return Some(15);
    }
    if reading.has(Fault::CrcBeforeNumber) && !crc_fits(section) {
        return Some(17);
    }
    if section[6] > section[7] {
        return Some(16);
    }
    (!crc_fits(section) && !reading.has(Fault::PatFailed)).then_some(17)
}

#[derive(Clone, Copy, Debug, PartialEq, Eq, PartialOrd)]
pub enum Kind {
    PresentActual,
    PresentOther,
    ScheduleActual,
    ScheduleOther,
}

pub fn kind(table_id: u8) -> Option<Kind> {
    match table_id {
        0x4E => Some(Kind::PresentActual),
        0x4F => Some(Kind::PresentOther),
        0x50..=0x5F => Some(Kind::ScheduleActual),
        0x60..=0x6F => Some(Kind::ScheduleOther),
        _ => None,
    }
}

/// 18 and 19: no EIT, or an EIT of broken layout.
pub fn refused_by_the_eit(reading: &mut Reading, section: &[u8]) -> Option<u8> {
    if kind(section[0]).is_none() {
        let original_is_short = section.len() < 18 && reading.differs(Difference::ShortAndNoEit);
        return Some(if original_is_short { 19 } else { 18 });
    }
    let whole = section.len() >= 18 && (reading.has(Fault::EventsUnread) || events(&section[14..section.len() - 4]));
    (!whole).then_some(19)
}

/// Whether the event loop ends exactly where its bytes do.
fn events(rest: &[u8]) -> bool {
    match rest {
        [] => true,
        [_, _, _, _, _, _, _, _, _, _, high, low, after @ ..] => {
            let descriptors = usize::from(u16::from_be_bytes([high & 0x0F, *low]));
            after.get(descriptors..).is_some_and(events)
        }
        _ => false,
    }
}
