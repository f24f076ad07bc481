//! Each function of the header, with a slice for each pointer and its length. A slice points to as many elements as it says, and two `&mut` do
//! not overlap: that is all that the header asks of a caller, so these are safe for any content of what is lent, and answer for any.
#![allow(clippy::too_many_arguments)]
use crate::{ANY, Answer, ENTRY_WORDS, raw, rows};

/// A gate's settings and counters.
#[repr(C)]
#[derive(Debug, Clone, Copy, Default, PartialEq, Eq)]
pub struct GateState {
    pub capacity: u64,
    pub repeats: u64,
    pub follow: u64,
    pub change_rule: u64,
    pub used: u64,
    pub first: u64,
    pub completed: u64,
    pub emitted: u64,
    pub suppressed: u64,
    pub crc_failures: u64,
    pub short_sections: u64,
    pub crc_mismatches: u64,
    pub evictions: u64,
}

/// What a section failed by: 31 tells its length, 3 the CRC that it carries and the CRC of its bytes. Every other answer leaves it as it was.
#[repr(C)]
#[derive(Debug, Clone, Copy, Default, PartialEq, Eq)]
pub struct Failure {
    pub length: u64,
    pub stored: u64,
    pub worked: u64,
}

/// How many section buffers the streams of an input have, and how many packets came on it, and malformed ones.
#[repr(C)]
#[derive(Debug, Clone, Copy, Default, PartialEq, Eq)]
pub struct StreamsState {
    pub count: u64,
    pub packets: u64,
    pub malformed: u64,
}

/// A set collector's settings and counts. `clock` rises by one with each touch of a row.
#[repr(C)]
#[derive(Debug, Clone, Copy, Default, PartialEq, Eq)]
pub struct SetsState {
    pub limit: u64,
    pub size: u64,
    pub count: u64,
    pub used: u64,
    pub evictions: u64,
    pub clock: u64,
}

/// An EIT collector's settings and counts. `clock` rises by one with each touch of a row.
#[repr(C)]
#[derive(Debug, Clone, Copy, Default, PartialEq, Eq)]
pub struct EitState {
    pub limit: u64,
    pub size: u64,
    pub count: u64,
    pub used: u64,
    pub evictions: u64,
    pub schedules: u64,
    pub schedule_evictions: u64,
    pub clock: u64,
}

/// Where a section of a row is. A question that is answered yes (8) writes it, any other answer leaves it as it was.
#[repr(C)]
#[derive(Debug, Clone, Copy, Default, PartialEq, Eq)]
pub struct Place {
    pub number: u64,
    pub start: u64,
    pub length: u64,
}

impl Place {
    /// The section's bytes.
    pub fn part<'a>(&self, cells: &'a [u8]) -> &'a [u8] {
        &cells[self.start as usize..][..self.length as usize]
    }
}

/// Which sets and schedules to drop: each field exact, or [`ANY`].
#[repr(C)]
#[derive(Debug, Clone, Copy, PartialEq, Eq)]
pub struct Filter {
    pub pid: u64,
    pub kind: u64,
    pub service_id: u64,
    pub transport_stream_id: u64,
    pub original_network_id: u64,
    pub current_next: u64,
    pub input: u64,
}

impl Filter {
    /// Matches all.
    pub const ALL: Self =
        Self { pid: ANY, kind: ANY, service_id: ANY, transport_stream_id: ANY, original_network_id: ANY, current_next: ANY, input: ANY };

    /// Only those with this PID. There are none without one: a drop that asks for them is refused (41).
    pub fn pid(self, pid: Option<u16>) -> Self {
        Self { pid: rows::pid_word(pid).into(), ..self }
    }

    /// Only those of this input.
    pub fn input(self, input: u8) -> Self {
        Self { input: input.into(), ..self }
    }

    pub fn service_id(self, service_id: u16) -> Self {
        Self { service_id: service_id.into(), ..self }
    }
}

/// An event, a transport stream, a service (EN 300 468, 5.2.1 to 5.2.4) or a descriptor (6.1); include/petrizolu.h says what each word is.
#[repr(C)]
#[derive(Debug, Clone, Copy, Default, PartialEq, Eq)]
pub struct Entry {
    pub kind: u32,
    pub section: u32,
    pub at: u32,
    pub id: u32,
    pub length: u32,
    pub original_network_id: u32,
    pub day: u32,
    pub time: u32,
    pub duration: u32,
    pub running_status: u32,
    pub free_ca_mode: u32,
    pub eit_flags: u32,
}

impl Entry {
    /// The entry of these words, in the order of the fields.
    pub fn of(words: &[u32; ENTRY_WORDS]) -> Self {
        let &[kind, section, at, id, length, original_network_id, day, time, duration, running_status, free_ca_mode, eit_flags] = words;
        Self { kind, section, at, id, length, original_network_id, day, time, duration, running_status, free_ca_mode, eit_flags }
    }

    /// A descriptor's bytes, behind its tag and its length, in the section or the cells that the entry was listed from.
    pub fn bytes<'a>(&self, from: &'a [u8]) -> &'a [u8] {
        &from[self.at as usize + 2..][..self.length as usize]
    }
}

/// How many entries there are; with 18, 19, 32, 35 and 36 the section's number and the place in it where the listing ended. 10 and 14 leave it as it was.
#[repr(C)]
#[derive(Debug, Clone, Copy, Default, PartialEq, Eq)]
pub struct Listed {
    pub count: u64,
    pub section: u64,
    pub place: u64,
}

/// Where two guides differ: a table and number that one side alone holds, or both with other bytes.
#[repr(C)]
#[derive(Debug, Clone, Copy, Default, PartialEq, Eq)]
pub struct Difference {
    pub table_id: u32,
    pub number: u32,
    pub kind: u32,
    pub place: u32,
}

/// How many differences there are, and whether versions and last numbers agree (1). 10, 12 and 33 leave it as it was.
#[repr(C)]
#[derive(Debug, Clone, Copy, Default, PartialEq, Eq)]
pub struct Compared {
    pub count: u64,
    pub versions: u64,
    pub lasts: u64,
}

/// The side, 1 or 2, that alone holds a section, and where the section is in its bytes. 9 and 10 leave it as it was.
#[repr(C)]
#[derive(Debug, Clone, Copy, Default, PartialEq, Eq)]
pub struct HeldByOne {
    pub side: u64,
    pub start: u64,
    pub length: u64,
}

/// What a log is made by: a gate's capacity, repeats and change rule, a set collector's limit, cell size and cell count, and how sets are taken: `LOG_WITH`, `LOG_WITHOUT` or `LOG_BEFORE`.
#[repr(C)]
#[derive(Debug, Clone, Copy, Default, PartialEq, Eq)]
pub struct LogSettings {
    pub capacity: u64,
    pub repeats: u64,
    pub change_rule: u64,
    pub limit: u64,
    pub size: u64,
    pub count: u64,
    pub pids: u64,
}

/// A record of a log; fields that its kind has not are 0, and a PID that is unknown is 8192.
#[repr(C)]
#[derive(Debug, Clone, Copy, Default, PartialEq, Eq)]
pub struct LogRecord {
    pub kind: u64,
    pub input: u64,
    pub pid: u64,
    pub table_id: u64,
    pub extension: u64,
    pub section: u64,
    pub version: u64,
    pub change: u64,
    pub length: u64,
    pub current: u64,
    pub last: u64,
    pub next: u64,
}

/// The memory of a run that checks or writes a log: room for the gate's keys and for the rows and cells of the set collector.
pub struct RunMemory<'a> {
    pub keys: &'a mut [u64],
    pub changes: &'a mut [u64],
    pub heads: &'a mut [u64],
    pub slots: &'a mut [u32],
    pub cells: &'a mut [u8],
}

/// The CRC of ISO/IEC 13818-1, Annex A.
pub fn crc(bytes: &[u8]) -> u32 {
    // SAFETY: the pointer goes with the length of its slice.
    unsafe { raw::petrizolu_crc(bytes.as_ptr(), bytes.len()) }
}

// ---- the gate

pub fn gate_open(
    gate: &mut GateState,
    capacity: u64,
    settings: u32,
    change_rule: u64,
    extra: &[u16],
    keys: &[u64],
    changes: &[u64],
    watch: &mut [u64],
    pat_slots: &[u32],
    pat_cells: &[u8],
) -> Answer {
    // SAFETY: each pointer goes with the length of its own slice, here and in all that follow.
    Answer(unsafe {
        raw::petrizolu_gate_open(
            gate,
            capacity,
            settings,
            change_rule,
            extra.as_ptr(),
            extra.len(),
            keys.as_ptr(),
            keys.len(),
            changes.as_ptr(),
            changes.len(),
            watch.as_mut_ptr(),
            watch.len(),
            pat_slots.as_ptr(),
            pat_slots.len(),
            pat_cells.as_ptr(),
            pat_cells.len(),
        )
    })
}

pub fn gate_offer(
    gate: &mut GateState,
    keys: &mut [u64],
    changes: &mut [u64],
    watch: &mut [u64],
    pat_slots: &mut [u32],
    pat_cells: &mut [u8],
    input: u32,
    pid: u32,
    section: &[u8],
    failure: &mut Failure,
) -> Answer {
    // SAFETY: as above.
    Answer(unsafe {
        raw::petrizolu_gate_offer(
            gate,
            keys.as_mut_ptr(),
            keys.len(),
            changes.as_mut_ptr(),
            changes.len(),
            watch.as_mut_ptr(),
            watch.len(),
            pat_slots.as_mut_ptr(),
            pat_slots.len(),
            pat_cells.as_mut_ptr(),
            pat_cells.len(),
            input,
            pid,
            section.as_ptr(),
            section.len(),
            failure,
        )
    })
}

/// The record of one input.
pub fn watch_open(settings: u32, extra: &[u16], watch: &mut [u64], pat_slots: &[u32], pat_cells: &[u8]) -> Answer {
    // SAFETY: as above.
    Answer(unsafe {
        raw::petrizolu_watch_open(
            settings,
            extra.as_ptr(),
            extra.len(),
            watch.as_mut_ptr(),
            watch.len(),
            pat_slots.as_ptr(),
            pat_slots.len(),
            pat_cells.as_ptr(),
            pat_cells.len(),
        )
    })
}

pub fn watch_ask(watch: &[u64], pid: u32) -> Answer {
    // SAFETY: as above.
    Answer(unsafe { raw::petrizolu_watch_ask(watch.as_ptr(), watch.len(), pid) })
}

pub fn indexed_open(
    gate: &mut GateState,
    capacity: u64,
    settings: u32,
    change_rule: u64,
    extra: &[u16],
    keys: &[u64],
    changes: &[u64],
    buckets: &mut [u64],
    links: &[u64],
    watch: &mut [u64],
    pat_slots: &[u32],
    pat_cells: &[u8],
) -> Answer {
    // SAFETY: as above.
    Answer(unsafe {
        raw::petrizolu_indexed_open(
            gate,
            capacity,
            settings,
            change_rule,
            extra.as_ptr(),
            extra.len(),
            keys.as_ptr(),
            keys.len(),
            changes.as_ptr(),
            changes.len(),
            buckets.as_mut_ptr(),
            buckets.len(),
            links.as_ptr(),
            links.len(),
            watch.as_mut_ptr(),
            watch.len(),
            pat_slots.as_ptr(),
            pat_slots.len(),
            pat_cells.as_ptr(),
            pat_cells.len(),
        )
    })
}

pub fn indexed_offer(
    gate: &mut GateState,
    keys: &mut [u64],
    changes: &mut [u64],
    buckets: &mut [u64],
    links: &mut [u64],
    watch: &mut [u64],
    pat_slots: &mut [u32],
    pat_cells: &mut [u8],
    input: u32,
    pid: u32,
    section: &[u8],
    failure: &mut Failure,
) -> Answer {
    // SAFETY: as above.
    Answer(unsafe {
        raw::petrizolu_indexed_offer(
            gate,
            keys.as_mut_ptr(),
            keys.len(),
            changes.as_mut_ptr(),
            changes.len(),
            buckets.as_mut_ptr(),
            buckets.len(),
            links.as_mut_ptr(),
            links.len(),
            watch.as_mut_ptr(),
            watch.len(),
            pat_slots.as_mut_ptr(),
            pat_slots.len(),
            pat_cells.as_mut_ptr(),
            pat_cells.len(),
            input,
            pid,
            section.as_ptr(),
            section.len(),
            failure,
        )
    })
}

// ---- the transport stream

pub fn streams_open(streams: &mut StreamsState, count: u64, pids: &mut [u64], buffers: &[u8]) -> Answer {
    // SAFETY: as above.
    Answer(unsafe { raw::petrizolu_streams_open(streams, count, pids.as_mut_ptr(), pids.len(), buffers.as_ptr(), buffers.len()) })
}

pub fn feed(
    gate: &mut GateState,
    streams: &mut StreamsState,
    keys: &mut [u64],
    changes: &mut [u64],
    watch: &mut [u64],
    pat_slots: &mut [u32],
    pat_cells: &mut [u8],
    pids: &mut [u64],
    buffers: &mut [u8],
    input: u32,
    packet: &[u8],
    places: &mut [u64],
    finished: &mut u64,
) -> Answer {
    // SAFETY: as above.
    Answer(unsafe {
        raw::petrizolu_feed(
            gate,
            streams,
            keys.as_mut_ptr(),
            keys.len(),
            changes.as_mut_ptr(),
            changes.len(),
            watch.as_mut_ptr(),
            watch.len(),
            pat_slots.as_mut_ptr(),
            pat_slots.len(),
            pat_cells.as_mut_ptr(),
            pat_cells.len(),
            pids.as_mut_ptr(),
            pids.len(),
            buffers.as_mut_ptr(),
            buffers.len(),
            input,
            packet.as_ptr(),
            packet.len(),
            places.as_mut_ptr(),
            places.len(),
            finished,
        )
    })
}

/// How many packets at the front are passed over.
pub fn pass(
    gate: &GateState,
    streams: &mut StreamsState,
    keys: &[u64],
    changes: &[u64],
    watch: &[u64],
    pat_slots: &[u32],
    pat_cells: &[u8],
    pids: &mut [u64],
    buffers: &[u8],
    input: u32,
    packets: &[u8],
    places: &[u64],
) -> u64 {
    // SAFETY: as above.
    unsafe {
        raw::petrizolu_pass(
            gate,
            streams,
            keys.as_ptr(),
            keys.len(),
            changes.as_ptr(),
            changes.len(),
            watch.as_ptr(),
            watch.len(),
            pat_slots.as_ptr(),
            pat_slots.len(),
            pat_cells.as_ptr(),
            pat_cells.len(),
            pids.as_mut_ptr(),
            pids.len(),
            buffers.as_ptr(),
            buffers.len(),
            input,
            packets.as_ptr(),
            packets.len(),
            places.as_ptr(),
            places.len(),
        )
    }
}

pub fn indexed_feed(
    gate: &mut GateState,
    streams: &mut StreamsState,
    keys: &mut [u64],
    changes: &mut [u64],
    buckets: &mut [u64],
    links: &mut [u64],
    watch: &mut [u64],
    pat_slots: &mut [u32],
    pat_cells: &mut [u8],
    pids: &mut [u64],
    buffers: &mut [u8],
    input: u32,
    packet: &[u8],
    places: &mut [u64],
    finished: &mut u64,
) -> Answer {
    // SAFETY: as above.
    Answer(unsafe {
        raw::petrizolu_indexed_feed(
            gate,
            streams,
            keys.as_mut_ptr(),
            keys.len(),
            changes.as_mut_ptr(),
            changes.len(),
            buckets.as_mut_ptr(),
            buckets.len(),
            links.as_mut_ptr(),
            links.len(),
            watch.as_mut_ptr(),
            watch.len(),
            pat_slots.as_mut_ptr(),
            pat_slots.len(),
            pat_cells.as_mut_ptr(),
            pat_cells.len(),
            pids.as_mut_ptr(),
            pids.len(),
            buffers.as_mut_ptr(),
            buffers.len(),
            input,
            packet.as_ptr(),
            packet.len(),
            places.as_mut_ptr(),
            places.len(),
            finished,
        )
    })
}

/// How many packets at the front are passed over.
pub fn indexed_pass(
    gate: &GateState,
    streams: &mut StreamsState,
    keys: &[u64],
    changes: &[u64],
    buckets: &[u64],
    links: &[u64],
    watch: &[u64],
    pat_slots: &[u32],
    pat_cells: &[u8],
    pids: &mut [u64],
    buffers: &[u8],
    input: u32,
    packets: &[u8],
    places: &[u64],
) -> u64 {
    // SAFETY: as above.
    unsafe {
        raw::petrizolu_indexed_pass(
            gate,
            streams,
            keys.as_ptr(),
            keys.len(),
            changes.as_ptr(),
            changes.len(),
            buckets.as_ptr(),
            buckets.len(),
            links.as_ptr(),
            links.len(),
            watch.as_ptr(),
            watch.len(),
            pat_slots.as_ptr(),
            pat_slots.len(),
            pat_cells.as_ptr(),
            pat_cells.len(),
            pids.as_mut_ptr(),
            pids.len(),
            buffers.as_ptr(),
            buffers.len(),
            input,
            packets.as_ptr(),
            packets.len(),
            places.as_ptr(),
            places.len(),
        )
    }
}

// ---- the set collector

pub fn sets_open(sets: &mut SetsState, limit: u64, size: u64, count: u64, heads: &[u64], slots: &[u32], cells: &[u8]) -> Answer {
    // SAFETY: as above.
    Answer(unsafe {
        raw::petrizolu_sets_open(
            sets,
            limit,
            size,
            count,
            heads.as_ptr(),
            heads.len(),
            slots.as_ptr(),
            slots.len(),
            cells.as_ptr(),
            cells.len(),
        )
    })
}

/// `row` is written where the answer is 5.
pub fn sets_push(
    sets: &mut SetsState,
    heads: &mut [u64],
    slots: &mut [u32],
    cells: &mut [u8],
    input: u32,
    pid: u32,
    section: &[u8],
    row: &mut u64,
) -> Answer {
    // SAFETY: as above.
    Answer(unsafe {
        raw::petrizolu_sets_push(
            sets,
            heads.as_mut_ptr(),
            heads.len(),
            slots.as_mut_ptr(),
            slots.len(),
            cells.as_mut_ptr(),
            cells.len(),
            input,
            pid,
            section.as_ptr(),
            section.len(),
            row,
        )
    })
}

/// The sections of a list. `row` is written where the answer is 5, `taken` always.
pub fn sets_push_all(
    sets: &mut SetsState,
    heads: &mut [u64],
    slots: &mut [u32],
    cells: &mut [u8],
    sections: &[u8],
    row: &mut u64,
    taken: &mut u64,
) -> Answer {
    // SAFETY: as above.
    Answer(unsafe {
        raw::petrizolu_sets_push_all(
            sets,
            heads.as_mut_ptr(),
            heads.len(),
            slots.as_mut_ptr(),
            slots.len(),
            cells.as_mut_ptr(),
            cells.len(),
            sections.as_ptr(),
            sections.len(),
            row,
            taken,
        )
    })
}

pub fn sets_clear(sets: &mut SetsState, heads: &[u64], slots: &[u32], cells: &[u8]) -> Answer {
    // SAFETY: as above.
    Answer(unsafe {
        raw::petrizolu_sets_clear(sets, heads.as_ptr(), heads.len(), slots.as_ptr(), slots.len(), cells.as_ptr(), cells.len())
    })
}

pub fn sets_next(sets: &SetsState, heads: &[u64], slots: &[u32], cells: &[u8], row: u64, from: u64, next: &mut Place) -> Answer {
    // SAFETY: as above.
    Answer(unsafe {
        raw::petrizolu_sets_next(
            sets,
            heads.as_ptr(),
            heads.len(),
            slots.as_ptr(),
            slots.len(),
            cells.as_ptr(),
            cells.len(),
            row,
            from,
            next,
        )
    })
}

// ---- the EIT collector

pub fn eit_open(
    eit: &mut EitState,
    limit: u64,
    size: u64,
    count: u64,
    heads: &[u64],
    slots: &[u32],
    cells: &[u8],
    schedule_heads: &[u64],
    units: &[u32],
) -> Answer {
    // SAFETY: as above.
    Answer(unsafe {
        raw::petrizolu_eit_open(
            eit,
            limit,
            size,
            count,
            heads.as_ptr(),
            heads.len(),
            slots.as_ptr(),
            slots.len(),
            cells.as_ptr(),
            cells.len(),
            schedule_heads.as_ptr(),
            schedule_heads.len(),
            units.as_ptr(),
            units.len(),
        )
    })
}

/// `row` is written where the answer is 5 or 6.
pub fn eit_push(
    eit: &mut EitState,
    heads: &mut [u64],
    slots: &mut [u32],
    cells: &mut [u8],
    schedule_heads: &mut [u64],
    units: &mut [u32],
    input: u32,
    pid: u32,
    section: &[u8],
    row: &mut u64,
) -> Answer {
    // SAFETY: as above.
    Answer(unsafe {
        raw::petrizolu_eit_push(
            eit,
            heads.as_mut_ptr(),
            heads.len(),
            slots.as_mut_ptr(),
            slots.len(),
            cells.as_mut_ptr(),
            cells.len(),
            schedule_heads.as_mut_ptr(),
            schedule_heads.len(),
            units.as_mut_ptr(),
            units.len(),
            input,
            pid,
            section.as_ptr(),
            section.len(),
            row,
        )
    })
}

/// The sections of a list. `row` is written where the answer is 5 or 6, `taken` always.
pub fn eit_push_all(
    eit: &mut EitState,
    heads: &mut [u64],
    slots: &mut [u32],
    cells: &mut [u8],
    schedule_heads: &mut [u64],
    units: &mut [u32],
    sections: &[u8],
    row: &mut u64,
    taken: &mut u64,
) -> Answer {
    // SAFETY: as above.
    Answer(unsafe {
        raw::petrizolu_eit_push_all(
            eit,
            heads.as_mut_ptr(),
            heads.len(),
            slots.as_mut_ptr(),
            slots.len(),
            cells.as_mut_ptr(),
            cells.len(),
            schedule_heads.as_mut_ptr(),
            schedule_heads.len(),
            units.as_mut_ptr(),
            units.len(),
            sections.as_ptr(),
            sections.len(),
            row,
            taken,
        )
    })
}

pub fn eit_clear(eit: &mut EitState, heads: &[u64], slots: &[u32], cells: &[u8], schedule_heads: &[u64], units: &[u32]) -> Answer {
    // SAFETY: as above.
    Answer(unsafe {
        raw::petrizolu_eit_clear(
            eit,
            heads.as_ptr(),
            heads.len(),
            slots.as_ptr(),
            slots.len(),
            cells.as_ptr(),
            cells.len(),
            schedule_heads.as_ptr(),
            schedule_heads.len(),
            units.as_ptr(),
            units.len(),
        )
    })
}

pub fn eit_drop(
    eit: &mut EitState,
    heads: &mut [u64],
    slots: &mut [u32],
    cells: &[u8],
    schedule_heads: &mut [u64],
    units: &mut [u32],
    filter: &Filter,
) -> Answer {
    // SAFETY: as above.
    Answer(unsafe {
        raw::petrizolu_eit_drop(
            eit,
            heads.as_mut_ptr(),
            heads.len(),
            slots.as_mut_ptr(),
            slots.len(),
            cells.as_ptr(),
            cells.len(),
            schedule_heads.as_mut_ptr(),
            schedule_heads.len(),
            units.as_mut_ptr(),
            units.len(),
            filter,
        )
    })
}

pub fn eit_next(
    eit: &EitState,
    heads: &[u64],
    slots: &[u32],
    cells: &[u8],
    schedule_heads: &[u64],
    units: &[u32],
    row: u64,
    from: u64,
    next: &mut Place,
) -> Answer {
    // SAFETY: as above.
    Answer(unsafe {
        raw::petrizolu_eit_next(
            eit,
            heads.as_ptr(),
            heads.len(),
            slots.as_ptr(),
            slots.len(),
            cells.as_ptr(),
            cells.len(),
            schedule_heads.as_ptr(),
            schedule_heads.len(),
            units.as_ptr(),
            units.len(),
            row,
            from,
            next,
        )
    })
}

pub fn eit_next_in_schedule(
    eit: &EitState,
    heads: &[u64],
    slots: &[u32],
    cells: &[u8],
    schedule_heads: &[u64],
    units: &[u32],
    row: u64,
    table: u64,
    from: u64,
    next: &mut Place,
) -> Answer {
    // SAFETY: as above.
    Answer(unsafe {
        raw::petrizolu_eit_next_in_schedule(
            eit,
            heads.as_ptr(),
            heads.len(),
            slots.as_ptr(),
            slots.len(),
            cells.as_ptr(),
            cells.len(),
            schedule_heads.as_ptr(),
            schedule_heads.len(),
            units.as_ptr(),
            units.len(),
            row,
            table,
            from,
            next,
        )
    })
}

// ---- entries. A list is lent as the words of its entries, so that it need not end with a whole one.

pub fn events(section: &[u8], skip: u64, list: &mut [u32], listed: &mut Listed) -> Answer {
    // SAFETY: as above; an entry is twelve words, and `list` has as many words as are told.
    Answer(unsafe { raw::petrizolu_events(section.as_ptr(), section.len(), skip, list.as_mut_ptr().cast(), list.len(), listed) })
}

pub fn eit_events(
    eit: &EitState,
    heads: &[u64],
    slots: &[u32],
    cells: &[u8],
    schedule_heads: &[u64],
    units: &[u32],
    row: u64,
    skip: u64,
    list: &mut [u32],
    listed: &mut Listed,
) -> Answer {
    // SAFETY: as above.
    Answer(unsafe {
        raw::petrizolu_eit_events(
            eit,
            heads.as_ptr(),
            heads.len(),
            slots.as_ptr(),
            slots.len(),
            cells.as_ptr(),
            cells.len(),
            schedule_heads.as_ptr(),
            schedule_heads.len(),
            units.as_ptr(),
            units.len(),
            row,
            skip,
            list.as_mut_ptr().cast(),
            list.len(),
            listed,
        )
    })
}

pub fn eit_events_in_schedule(
    eit: &EitState,
    heads: &[u64],
    slots: &[u32],
    cells: &[u8],
    schedule_heads: &[u64],
    units: &[u32],
    row: u64,
    table: u64,
    skip: u64,
    list: &mut [u32],
    listed: &mut Listed,
) -> Answer {
    // SAFETY: as above.
    Answer(unsafe {
        raw::petrizolu_eit_events_in_schedule(
            eit,
            heads.as_ptr(),
            heads.len(),
            slots.as_ptr(),
            slots.len(),
            cells.as_ptr(),
            cells.len(),
            schedule_heads.as_ptr(),
            schedule_heads.len(),
            units.as_ptr(),
            units.len(),
            row,
            table,
            skip,
            list.as_mut_ptr().cast(),
            list.len(),
            listed,
        )
    })
}

/// `reader` is `NIT`, `BAT` or `SDT`; any other number answers 35.
pub fn entries(reader: u32, section: &[u8], skip: u64, list: &mut [u32], listed: &mut Listed) -> Answer {
    // SAFETY: as above.
    Answer(unsafe { raw::petrizolu_entries(reader, section.as_ptr(), section.len(), skip, list.as_mut_ptr().cast(), list.len(), listed) })
}

pub fn sets_entries(
    reader: u32,
    sets: &SetsState,
    heads: &[u64],
    slots: &[u32],
    cells: &[u8],
    row: u64,
    skip: u64,
    list: &mut [u32],
    listed: &mut Listed,
) -> Answer {
    // SAFETY: as above.
    Answer(unsafe {
        raw::petrizolu_sets_entries(
            reader,
            sets,
            heads.as_ptr(),
            heads.len(),
            slots.as_ptr(),
            slots.len(),
            cells.as_ptr(),
            cells.len(),
            row,
            skip,
            list.as_mut_ptr().cast(),
            list.len(),
            listed,
        )
    })
}

/// The calendar date of a modified Julian day in decimal digits, year, month and day; 0 where there is none.
pub fn date(day: u32) -> u32 {
    // SAFETY: a number comes and a number goes.
    unsafe { raw::petrizolu_date(day) }
}

// ---- two guides compared. A list is lent as words here too.

pub fn compare(first: &[u8], first_pid: u32, second: &[u8], second_pid: u32, list: &mut [u32], compared: &mut Compared) -> Answer {
    // SAFETY: as above; a difference is four words, and `list` has as many words as are told.
    Answer(unsafe {
        raw::petrizolu_compare(
            first.as_ptr(),
            first.len(),
            first_pid,
            second.as_ptr(),
            second.len(),
            second_pid,
            list.as_mut_ptr().cast(),
            list.len(),
            compared,
        )
    })
}

pub fn compare_schedules(
    first: &[u8],
    first_pid: u32,
    second: &[u8],
    second_pid: u32,
    tables: &mut [u32; 16],
    list: &mut [u32],
    compared: &mut Compared,
) -> Answer {
    // SAFETY: as above.
    Answer(unsafe {
        raw::petrizolu_compare_schedules(
            first.as_ptr(),
            first.len(),
            first_pid,
            second.as_ptr(),
            second.len(),
            second_pid,
            tables,
            list.as_mut_ptr().cast(),
            list.len(),
            compared,
        )
    })
}

pub fn held_by_one(first: &[u8], second: &[u8], number: u64, held: &mut HeldByOne) -> Answer {
    // SAFETY: as above.
    Answer(unsafe { raw::petrizolu_held_by_one(first.as_ptr(), first.len(), second.as_ptr(), second.len(), number, held) })
}

// ---- logs

pub fn log_check(settings: &LogSettings, sections: &[u8], log: &[u8], run: RunMemory, place: &mut u64) -> Answer {
    // SAFETY: as above.
    Answer(unsafe {
        raw::petrizolu_log_check(
            settings,
            sections.as_ptr(),
            sections.len(),
            log.as_ptr(),
            log.len(),
            run.keys.as_mut_ptr(),
            run.keys.len(),
            run.changes.as_mut_ptr(),
            run.changes.len(),
            run.heads.as_mut_ptr(),
            run.heads.len(),
            run.slots.as_mut_ptr(),
            run.slots.len(),
            run.cells.as_mut_ptr(),
            run.cells.len(),
            place,
        )
    })
}

pub fn log_write(settings: &LogSettings, sections: &[u8], room: &mut [u8], run: RunMemory, length: &mut u64) -> Answer {
    // SAFETY: as above.
    Answer(unsafe {
        raw::petrizolu_log_write(
            settings,
            sections.as_ptr(),
            sections.len(),
            room.as_mut_ptr(),
            room.len(),
            run.keys.as_mut_ptr(),
            run.keys.len(),
            run.changes.as_mut_ptr(),
            run.changes.len(),
            run.heads.as_mut_ptr(),
            run.heads.len(),
            run.slots.as_mut_ptr(),
            run.slots.len(),
            run.cells.as_mut_ptr(),
            run.cells.len(),
            length,
        )
    })
}

pub fn log_offer_record(
    answer: Answer,
    change_rule: u64,
    input: u32,
    pid: u32,
    section: &[u8],
    record: &mut [u8; 13],
    length: &mut u64,
) -> Answer {
    // SAFETY: as above.
    Answer(unsafe { raw::petrizolu_log_offer_record(answer.0, change_rule, input, pid, section.as_ptr(), section.len(), record, length) })
}

pub fn log_set_record(input: u32, pid: u32, section: &[u8], record: &mut [u8; 10], length: &mut u64) -> Answer {
    // SAFETY: as above.
    Answer(unsafe { raw::petrizolu_log_set_record(input, pid, section.as_ptr(), section.len(), record, length) })
}

pub fn log_read(log: &[u8], place: u64, record: &mut LogRecord) -> Answer {
    // SAFETY: as above.
    Answer(unsafe { raw::petrizolu_log_read(log.as_ptr(), log.len(), place, record) })
}
