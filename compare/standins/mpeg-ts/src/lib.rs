//! Stand-in for `mpeg_ts`, whose text is not published with dvb-si: written from ISO/IEC 13818-1, docs/RULES.md and the places that use it.
pub mod pid;
pub mod section;
pub mod ts;

/// The variants that the original's error.rs names.
#[derive(Debug, PartialEq, Eq)]
#[non_exhaustive]
pub enum Error {
    BufferTooShort { need: usize, have: usize, what: &'static str },
    CrcMismatch { computed: u32, expected: u32 },
    InvalidSyncByte { found: u8 },
    OutputBufferTooSmall { need: usize, have: usize },
    SectionLengthOverflow { declared: usize, available: usize },
}
