
// ---- Appended by compare/original: the published text ends above. It lacks what pat.rs and eit.rs take from here, written from ISO/IEC 13818-1,
// 2.4.4, and EN 300 468, 5.2.4. What only a serializer needs is left undone: nothing here serializes.
pub mod eit;
pub mod pat;
#[allow(dead_code)]
pub mod registry;

use mpeg_ts::pid::Pid;

pub(crate) const CRC_LEN: usize = 4;
pub(crate) const RESERVED_3: u8 = 0b111;

/// Reserved bits of a header, which nothing here looks at.
#[derive(Debug, Clone, Copy, PartialEq, Eq)]
pub struct SectionBits;

impl SectionBits {
    pub const fn psi() -> Self {
        Self
    }

    pub const fn dvb() -> Self {
        Self
    }

    pub fn parse(_byte_1: u8, _byte_5: Option<u8>) -> Self {
        Self
    }

    pub fn b1(&self) -> crate::Result<u8> {
        unreachable!("nothing is serialized")
    }

    pub fn b5(&self, _version: u8, _current_next: bool) -> crate::Result<u8> {
        unreachable!("nothing is serialized")
    }
}

pub(crate) fn section_length_of(bytes: &[u8]) -> usize {
    usize::from(u16::from_be_bytes([bytes[1] & 0x0F, bytes[2]]))
}

/// How strict the original's is, is not known. docs/RULES.md, "Layouts": true length, that is exactly header + section_length bytes, at least `least`.
pub(crate) fn check_section_length(have: usize, header: usize, section_length: usize, least: usize) -> crate::Result<usize> {
    let total = header + section_length;
    if have != total {
        return Err(crate::Error::SectionLengthOverflow { declared: section_length, available: have.saturating_sub(header) });
    }
    if total < least {
        return Err(crate::Error::BufferTooShort { need: least, have, what: "table" });
    }
    Ok(total)
}

pub(crate) fn version_number_of(byte_5: u8) -> u8 {
    (byte_5 >> 1) & 0x1F
}

pub(crate) fn current_next_of(byte_5: u8) -> bool {
    byte_5 & 1 == 1
}

pub(crate) fn pid_of(high: u8, low: u8) -> Pid {
    Pid::new(u16::from_be_bytes([high & 0x1F, low]))
}

pub(crate) fn pid_reserved_of(high: u8) -> u8 {
    high >> 5
}

pub(crate) fn running_status_of(byte_10: u8) -> u8 {
    byte_10 >> 5
}

pub(crate) fn free_ca_mode_of(byte_10: u8) -> bool {
    byte_10 & 0x10 != 0
}

pub(crate) fn dll_from_status(byte_10: u8, byte_11: u8) -> usize {
    usize::from(u16::from_be_bytes([byte_10 & 0x0F, byte_11]))
}

pub(crate) fn status_byte(_running_status: u8, _free_ca_mode: bool, _length_high: u8) -> u8 {
    unreachable!("nothing is serialized")
}

pub(crate) fn write_section_length(_buf: &mut [u8], _length: usize) -> crate::Result<()> {
    unreachable!("nothing is serialized")
}

pub(crate) fn write_pid_r(_buf: &mut [u8], _pid: Pid, _reserved: u8) -> crate::Result<()> {
    unreachable!("nothing is serialized")
}

pub(crate) fn write_crc(_buf: &mut [u8], _at: usize) {
    unreachable!("nothing is serialized")
}

/// The tables of a section. The typed views are no part of the port, so none is ever made.
#[derive(Debug)]
pub enum AnyTableSection<'a> {
    Unknown { table_id: u8, raw: &'a [u8] },
}

impl<'a> AnyTableSection<'a> {
    pub fn parse(_bytes: &'a [u8]) -> crate::Result<Self> {
        unreachable!("the typed views are left out")
    }

    pub fn parse_with(_registry: &registry::TableRegistry, _bytes: &'a [u8]) -> crate::Result<Self> {
        unreachable!("the typed views are left out")
    }
}
