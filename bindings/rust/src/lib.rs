//! The proved library for Rust hosts. include/petrizolu.h says what each call does.
//!
//! [`Gate`], [`SmallGate`], [`Demux`], [`Sets`] and [`Eit`] own the memory that they lend and tell answers as `Result`s: a host needs no more. Below them
//! [`calls`] has each function of the header over slices of the caller's own, for hosts that lend other memory and for tests that write over it.

mod answer;
pub mod calls;
mod demux;
mod eit;
mod events;
mod gate;
mod guides;
mod logs;
mod raw;
mod rows;
mod sets;

pub use answer::{Answer, Refused};
pub use calls::{
    Compared, Difference, EitState, Entry, Failure, Filter, GateState, HeldByOne, Listed, LogRecord, LogSettings, Place, SetsState,
    StreamsState, crc, date,
};
pub use demux::{Demux, Fed};
pub use eit::{Complete, Eit};
pub use events::{Ended, Listing, entries, events};
pub use gate::{Gate, Offered, SmallGate};
pub use guides::{Differences, ScheduleDifferences, compare, compare_schedules, held_by_one};
pub use logs::{Judged, LogRun, Wrong, listed_section, offer_record, record_at, set_record};
pub use rows::{Name, Row, Section};
pub use sets::Sets;

/// No PID: collectors and comparisons answer 41 to it.
pub const NO_PID: u32 = u32::MAX;
/// In a filter: this field is free.
pub const ANY: u64 = u64::MAX;
/// Inputs of a card: 0 to 15.
pub const INPUTS: usize = 16;

/// Keys of a gate by default.
pub const DEFAULT_CAPACITY: u64 = 65_536;
/// Keys of a collector by default.
pub const DEFAULT_LIMIT: u64 = 256;

/// Settings of a gate: emit repeats too; complete PATs change the watch; the eight well-known PIDs are watched and protected; with `FOLLOW`, each changed PAT
/// section replaces the former, as dvb-si 12.0.1 does.
pub const REPEATS: u32 = 1;
pub const FOLLOW: u32 = 2;
pub const WELL_KNOWN: u32 = 4;
pub const FOLLOW_SECTIONS: u32 = 8;
pub const DEFAULT_SETTINGS: u32 = FOLLOW | WELL_KNOWN;

/// By which rule a gate tells that a section with a CRC and without a version changed, as the time offset table: by the CRC over all its bytes, which is
/// always 0 (dvb-si 12.0.1), or by the CRC that it carries.
pub const CHANGE_AS_THE_RUST: u64 = 1;
pub const CHANGE_STORED_CRC: u64 = 2;
pub const DEFAULT_CHANGE_RULE: u64 = CHANGE_STORED_CRC;

/// The watch record of an input: its words, of which `watch_ask` needs the first 384, and the slots and the bytes of its PAT. One of the words counts how often the PAT
/// of another transport_stream_id came in the place of the one that was held.
pub const WATCH_WORDS: usize = 398;
pub const PAT_SLOTS: usize = 288;
pub const PAT_CELLS: usize = 262_144;
pub const WATCH_PAT_EVICTIONS: usize = 385;

/// The transport stream: bytes of a packet, words of the PIDs (four for each of 8,192), bytes of a section buffer, how many of these there are at most and by default; places for
/// the sections that a packet finishes, the words of one and of all.
pub const PACKET_BYTES: usize = 188;
pub const PID_WORDS: usize = 32_768;
pub const BUFFER_BYTES: usize = 4288;
pub const MOST_BUFFERS: usize = 8192;
pub const DEFAULT_BUFFERS: usize = 256;
pub const PLACES: usize = 64;
pub const PLACE_WORDS: usize = 6;
pub const PLACES_WORDS: usize = PLACES * PLACE_WORDS;

/// The words of a place: the answer, with 3 the CRC stored and the CRC worked out, where the section's bytes are (in the packet 0, in the buffers 1), the first of them, how many.
pub const PLACE_ANSWER: usize = 0;
pub const PLACE_STORED: usize = 1;
pub const PLACE_WORKED: usize = 2;
pub const PLACE_WHERE: usize = 3;
pub const PLACE_START: usize = 4;
pub const PLACE_LENGTH: usize = 5;
pub const IN_PACKET: u64 = 0;
pub const IN_BUFFERS: u64 = 1;

/// Words of a row's head, of a row's slots, and of a schedule's 16 tables.
pub const HEAD_WORDS: usize = 12;
pub const SLOT_WORDS: usize = 288;
pub const UNIT_WORDS: usize = 16 * SLOT_WORDS;

/// Words of an entry, its kinds, and the second count of a time with a digit above 9.
pub const ENTRY_WORDS: usize = 12;
pub const EVENT: u32 = 1;
pub const DESCRIPTOR: u32 = 2;
pub const TRANSPORT_STREAM: u32 = 3;
pub const SERVICE: u32 = 4;
pub const UNDEFINED: u32 = u32::MAX;

/// Readers: of networks, of bouquets, of services.
pub const NIT: u32 = 1;
pub const BAT: u32 = 2;
pub const SDT: u32 = 3;

/// Words of a difference of two guides, how many two sets have at most (two schedules 16 times as many), and its kinds.
pub const DIFFERENCE_WORDS: usize = 4;
pub const MOST_DIFFERENCES: usize = 256;
pub const ONLY_FIRST: u32 = 1;
pub const ONLY_SECOND: u32 = 2;
pub const OTHER_BYTES: u32 = 3;

/// Logs: the kinds of a record (6 in logs of before 2026-12), the most bytes that a section gives, and the longest section of a section list.
pub const LOG_EMITTED: u8 = 1;
pub const LOG_SUPPRESSED: u8 = 2;
pub const LOG_SHORT: u8 = 3;
pub const LOG_MISMATCH: u8 = 4;
pub const LOG_SET: u8 = 5;
pub const LOG_BARE_SET: u8 = 6;
pub const MOST_LOG_BYTES: usize = 23;
pub const LONGEST_LOGGED: usize = 4098;
/// `LogSettings::pids`: sets are taken with the PID of their sections; without one, which is given up (41); or as before 2026-12 without one, to check a log that was made so.
pub const LOG_WITH: u64 = 0;
pub const LOG_WITHOUT: u64 = 1;
pub const LOG_BEFORE: u64 = 2;
