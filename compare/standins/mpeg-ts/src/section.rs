//! The generic section reader. How strict the original's is, is not known: this one refuses what docs/RULES.md answers 14 to.
use crate::Error;
use broadcast_common::{Parse, crc32_mpeg2};

/// Stands in every error of this reader, so that they can be told from the EIT layout's.
pub const READER: &str = "section";

pub struct Section {
    pub table_id: u8,
    pub section_syntax_indicator: bool,
    pub extension_id: u16,
    pub version_number: u8,
    pub current_next_indicator: bool,
    pub section_number: u8,
    pub last_section_number: u8,
}

impl<'a> Parse<'a> for Section {
    type Error = Error;

    fn parse(bytes: &'a [u8]) -> Result<Section, Error> {
        let short = |need| Error::BufferTooShort { need, have: bytes.len(), what: READER };
        let &[table_id, flags, low, ..] = bytes else { return Err(short(3)) };
        let total = 3 + usize::from(u16::from_be_bytes([flags & 0x0F, low]));
        if bytes.len() != total {
            return Err(short(total));
        }
        if flags & 0x80 == 0 {
            return Ok(Section {
                table_id,
                section_syntax_indicator: false,
                extension_id: 0,
                version_number: 0,
                current_next_indicator: true,
                section_number: 0,
                last_section_number: 0,
            });
        }
        let &[_, _, _, high, low, version, section_number, last_section_number, _, _, _, _, ..] = bytes else {
            return Err(short(12));
        };
        Ok(Section {
            table_id,
            section_syntax_indicator: true,
            extension_id: u16::from_be_bytes([high, low]),
            version_number: (version >> 1) & 0x1F,
            current_next_indicator: version & 1 == 1,
            section_number,
            last_section_number,
        })
    }
}

impl Section {
    /// The last four bytes against the CRC of those before them.
    pub fn validate_crc(&self, raw: &[u8]) -> Result<(), Error> {
        let Some((covered, &stored)) = raw.split_last_chunk::<4>() else {
            return Err(Error::BufferTooShort { need: 4, have: raw.len(), what: READER });
        };
        let (computed, expected) = (crc32_mpeg2::compute(covered), u32::from_be_bytes(stored));
        if computed == expected { Ok(()) } else { Err(Error::CrcMismatch { computed, expected }) }
    }
}
