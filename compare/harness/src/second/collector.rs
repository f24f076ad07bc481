//! docs/RULES.md, "Collectors" and "Cells": the set collector, and the EIT collector, which is one with schedules.
use super::events::Part;
use super::section::{Kind, kind, refused_by_a_collector, refused_by_the_eit, version, word};
use super::{Difference, Reading};
use crate::faults::Fault;
use player::answer::{Out, Set};
use player::command::Filter;

/// What a row or a schedule is found by. Of a schedule, table_id is that of the kind's first table.
#[derive(Clone, Copy, Debug, PartialEq, Eq)]
struct Key {
    input: u8,
    /// None by the older definition of a log alone.
    pid: Option<u16>,
    table_id: u8,
    extension: u16,
    current_next: bool,
    /// In the EIT collector transport_stream_id and original_network_id.
    network: Option<(u16, u16)>,
}

pub struct Row {
    key: Key,
    /// Where it stands in the lent memory (docs/RULES.md, "Lent memory").
    place: usize,
    version: u8,
    last: u8,
    marked: bool,
    /// Cell numbers.
    slots: Vec<Option<usize>>,
    /// In the EIT collector the last number of each segment of eight.
    segments: [Option<u8>; 32],
}

/// A set as a schedule shows it.
struct Copied {
    table_id: u8,
    version: u8,
    last: u8,
    cells: Vec<usize>,
}

pub struct Schedule {
    key: Key,
    place: usize,
    last_table_id: u8,
    copies: Vec<Copied>,
}

/// Rows under keys, the least recently touched first.
pub struct Touched<R> {
    pub held: Vec<R>,
    pub evictions: u64,
}

/// What stands at a place in the lent memory.
pub trait Placed {
    fn place(&mut self) -> &mut usize;
}

impl Placed for Row {
    fn place(&mut self) -> &mut usize {
        &mut self.place
    }
}

impl Placed for Schedule {
    fn place(&mut self) -> &mut usize {
        &mut self.place
    }
}

impl<R: Placed> Touched<R> {
    /// From the last place in use down: what goes is replaced by the last one in use.
    fn drop(&mut self, reading: &Reading, goes: impl Fn(&R) -> bool) {
        for place in (0..self.held.len()).rev() {
            let at = self.held.iter_mut().position(|row| *row.place() == place).expect("each place is taken once");
            if goes(&self.held[at]) {
                self.held.remove(at);
                let last = self.held.len();
                for row in &mut self.held {
                    if reading.has(Fault::RowsClosedUp) && *row.place() > place {
                        *row.place() -= 1;
                    } else if !reading.has(Fault::RowsClosedUp) && *row.place() == last {
                        *row.place() = place;
                    }
                }
            }
        }
    }
}

impl<R> Touched<R> {
    fn new() -> Touched<R> {
        Touched { held: Vec::new(), evictions: 0 }
    }
}

pub struct Collector {
    eit: bool,
    limit: usize,
    size: usize,
    cells: Vec<Vec<u8>>,
    pub rows: Touched<Row>,
    pub schedules: Touched<Schedule>,
    /// How many sets went on into a schedule: complete, not marked and in range.
    pub entered: u64,
}

impl Collector {
    pub fn open(eit: bool, limit: u16, cells: u16, size: u16) -> Collector {
        Collector {
            eit,
            limit: limit.into(),
            size: size.into(),
            cells: vec![Vec::new(); cells.into()],
            rows: Touched::new(),
            schedules: Touched::new(),
            entered: 0,
        }
    }

    /// How many sections are kept in its rows.
    pub fn kept(&self) -> usize {
        self.rows.held.iter().map(|row| cells(row).len()).sum()
    }

    pub fn clear(&mut self, zeroes: bool) {
        self.rows.held.clear();
        self.schedules.held.clear();
        if zeroes {
            self.rows.evictions = 0;
        }
    }

    /// Where the filter asks for the input that is current, it is `input`.
    pub fn drop(&mut self, reading: &Reading, input: u8, filter: &Filter) {
        let asked = (filter.this_input && !reading.has(Fault::InputNotInFilter)).then_some(input);
        let matches = |key: &Key| asked.is_none_or(|input| input == key.input) && matches(filter, key);
        let before = self.rows.held.len();
        self.rows.drop(reading, |row| matches(&row.key));
        if reading.has(Fault::DropCountsEvictions) {
            self.rows.evictions += (before - self.rows.held.len()) as u64;
        }
        if !reading.has(Fault::DropKeepsSchedules) {
            self.schedules.drop(reading, |schedule| matches(&schedule.key));
        }
    }

    pub fn push(&mut self, reading: &mut Reading, input: u8, pid: Option<u16>, section: &[u8]) -> (u8, Out) {
        match self.collect(reading, input, pid, section) {
            Ok(answer) => answer,
            Err(number) => (number, Out::Nothing),
        }
    }

    /// `Err` where nothing is handed out.
    fn collect(&mut self, reading: &mut Reading, input: u8, pid: Option<u16>, section: &[u8]) -> Result<(u8, Out), u8> {
        if let Some(number) = refused_by_a_collector(reading, section) {
            return Err(number);
        }
        if self.eit
            && let Some(number) = refused_by_the_eit(reading, section)
        {
            return Err(number);
        }
        let limit = if self.limit == 0 && reading.has(Fault::LimitZeroHoldsOne) { 1 } else { self.limit };
        if limit == 0 && reading.has(Fault::LimitBeforeLength) {
            return Err(4);
        }
        if section.len() > self.size && !reading.differs(Difference::Cells) {
            return Err(20);
        }
        if limit == 0 {
            return Err(4);
        }
        let at = self.keep(reading, limit, self.key(reading, input, pid, section), section)?;
        self.hand_out(reading, input, at, section)
    }

    fn key(&self, reading: &Reading, input: u8, pid: Option<u16>, section: &[u8]) -> Key {
        let left_out = reading.has(if self.eit { Fault::InputNotInEitKey } else { Fault::InputNotInSetKey });
        Key {
            input: if left_out { 0 } else { input },
            pid,
            table_id: section[0],
            extension: if reading.has(Fault::PatStreamIgnored) { 0 } else { word(section, 3) },
            current_next: section[5] & 1 == 1 || reading.has(Fault::CurrentNextIgnored),
            network: self.eit.then(|| (word(section, 8), word(section, 10))),
        }
    }

    /// Puts the section into its slot and answers the place of its row, now the newest. `Err` is 21, which changes nothing, or 22.
    fn keep(&mut self, reading: &mut Reading, limit: usize, key: Key, section: &[u8]) -> Result<usize, u8> {
        let (version, last, number) = (version(section), section[7], usize::from(section[6]));
        let known = self.rows.held.iter().position(|row| row.key == key);
        let same = known.filter(|&at| {
            let row = &self.rows.held[at];
            (row.version == version || reading.has(Fault::VersionKeepsRow))
                && (row.last == last || (reading.has(Fault::LastIgnored) && number <= row.last.into()))
        });
        if let Some(at) = same
            && let Some(cell) = self.rows.held[at].slots[number]
        {
            return self.meet(reading, at, cell, section);
        }
        let full = known.is_none() && self.rows.held.len() >= limit;
        let evicted = full.then_some(if reading.has(Fault::NewestLeaves) { self.rows.held.len() - 1 } else { 0 });
        let emptied = known.filter(|_| same.is_none());
        let Some(cell) = self.free_cell(reading, evicted.or(emptied)) else { return Err(21) };
        let mut place = self.rows.held.len();
        if let Some(at) = evicted {
            let gone = self.rows.held.remove(at);
            place = gone.place;
            self.rows.evictions += 1;
            if reading.has(Fault::EvictedLeavesSchedule) {
                self.forget(gone.key);
            }
        }
        let found = known.map(|at| self.rows.held.remove(at));
        place = found.as_ref().map_or(place, |row| row.place);
        let mut row = found.filter(|_| same.is_some()).unwrap_or_else(|| fresh(key, place, version, last));
        self.cells[cell] = section.to_vec();
        row.slots[number] = Some(cell);
        row.marked &= reading.has(Fault::NewSectionKeepsMark);
        if self.eit && !(reading.has(Fault::FirstSegmentWins) && row.segments[number / 8].is_some()) {
            row.segments[number / 8] = Some(section[12]);
        }
        self.rows.held.push(row);
        Ok(self.rows.held.len() - 1)
    }

    /// A section whose slot is filled: identical bytes are ignored, others conflict.
    fn meet(&mut self, reading: &Reading, at: usize, cell: usize, section: &[u8]) -> Result<usize, u8> {
        let equal = self.cells[cell] == section;
        let untouched = reading.has(if equal { Fault::RepeatUntouched } else { Fault::ConflictUntouched });
        let at = if untouched {
            at
        } else {
            let row = self.rows.held.remove(at);
            self.rows.held.push(row);
            self.rows.held.len() - 1
        };
        if equal && self.eit && reading.has(Fault::RepeatSetsSegment) {
            self.rows.held[at].segments[usize::from(section[6] / 8)] = Some(section[12]);
        }
        if !equal && reading.has(Fault::ConflictReplaces) {
            self.cells[cell] = section.to_vec();
        } else if !equal {
            return Err(22);
        }
        Ok(at)
    }

    fn forget(&mut self, gone: Key) {
        for schedule in &mut self.schedules.held {
            if Some(schedule.key) == schedule_key(gone) {
                schedule.copies.retain(|copy| copy.table_id != gone.table_id);
            }
        }
    }

    /// The lowest cell that no slot and no copy names once the row `leaving` is gone. The original always has another.
    fn free_cell(&mut self, reading: &mut Reading, leaving: Option<usize>) -> Option<usize> {
        let mut taken = vec![false; self.cells.len()];
        for (at, row) in self.rows.held.iter().enumerate() {
            if leaving != Some(at) || reading.has(Fault::LeavingCellsKept) {
                row.slots.iter().flatten().for_each(|&cell| taken[cell] = true);
            }
        }
        if !reading.has(Fault::CopiesNameNoCell) {
            let copies = self.schedules.held.iter().flat_map(|schedule| &schedule.copies);
            copies.flat_map(|copy| &copy.cells).for_each(|&cell| taken[cell] = true);
        }
        let free = taken.iter().position(|taken| !taken);
        if free.is_none() && reading.differs(Difference::Cells) {
            self.cells.push(Vec::new());
            return Some(self.cells.len() - 1);
        }
        free
    }

    fn complete(&self, reading: &Reading, row: &Row) -> bool {
        let last = usize::from(row.last);
        let filled = |from: usize, to: usize| row.slots[from..=to].iter().all(Option::is_some);
        let present = kind(row.key.table_id) < Some(Kind::ScheduleActual);
        if !self.eit || (present && reading.has(Fault::PresentNeedsAll)) {
            return filled(0, last);
        }
        let segments = if reading.has(Fault::LastSegmentUnseen) { 31 } else { 32 };
        row.segments.iter().enumerate().take(segments.min(last / 8 + 1)).all(|(segment, number)| {
            let start = 8 * segment;
            let end = |number: &u8| start + usize::from(number % 8);
            let held = |end: usize| if reading.has(Fault::SegmentPastLast) { end.min(255) } else { end.min(last) };
            number.as_ref().is_some_and(|number| filled(start, held(end(number))))
        })
    }

    /// Hands out the set of the row `at`, or the schedule that it completes, to the input that the section came on: it is that of the key.
    fn hand_out(&mut self, reading: &Reading, input: u8, at: usize, section: &[u8]) -> Result<(u8, Out), u8> {
        let row = &self.rows.held[at];
        if row.marked || !self.complete(reading, row) {
            return Err(4);
        }
        let Some(mut key) = schedule_key(row.key).filter(|_| self.eit) else {
            let set = self.set(Key { input, ..row.key }, row.version, row.last, &cells(row));
            self.rows.held[at].marked = true;
            return Ok((5, Out::Set(set)));
        };
        if reading.has(Fault::InputNotInScheduleKey) {
            key.input = 0;
        }
        if reading.has(Fault::ScheduleWithoutNetwork) {
            key.network = key.network.map(|(stream, _)| (stream, 0));
        }
        let last_table_id = section[13];
        let past_kind = last_table_id > key.table_id + 15;
        if row.key.table_id > last_table_id || (past_kind && reading.has(Fault::RangePastKindRefused)) {
            self.rows.held[at].marked = reading.has(Fault::RangeMarks);
            return Err(23);
        }
        self.entered += 1;
        let mut schedule = self.schedule(reading, key, last_table_id, at);
        self.rows.held[at].marked = true;
        schedule.copies.retain(|copy| copy.table_id != self.rows.held[at].key.table_id);
        schedule.copies.push(copy(&self.rows.held[at]));
        schedule.copies.sort_by_key(|copy| copy.table_id);
        let all = (key.table_id..=last_table_id).eq(schedule.copies.iter().map(|copy| copy.table_id));
        let sets = schedule.copies.iter().map(|copy| {
            let of = Key { input, table_id: copy.table_id, network: self.rows.held[at].key.network, ..key };
            self.set(of, copy.version, copy.last, &copy.cells)
        });
        let out = all.then(|| Out::Schedule { first: key.table_id, last: last_table_id, sets: sets.collect() });
        if reading.has(Fault::ScheduleNotTouched) {
            self.schedules.held.insert(0, schedule);
        } else {
            self.schedules.held.push(schedule);
        }
        out.map(|out| (6, out)).ok_or(4)
    }

    /// The schedule of a key, found or made, taken out of its place. The row `at` is the one that asks for it.
    fn schedule(&mut self, reading: &Reading, key: Key, last_table_id: u8, at: usize) -> Schedule {
        let known = self.schedules.held.iter().position(|schedule| schedule.key == key);
        let mut schedule = match known {
            Some(at) => self.schedules.held.remove(at),
            None => {
                let mut place = self.schedules.held.len();
                if self.schedules.held.len() >= self.limit {
                    place = self.schedules.held.remove(0).place;
                    self.schedules.evictions += 1;
                }
                Schedule { key, place, last_table_id, copies: Vec::new() }
            }
        };
        if schedule.last_table_id != last_table_id || (known.is_none() && reading.has(Fault::NewScheduleFilled)) {
            schedule.last_table_id = last_table_id;
            let others = self.rows.held.iter().enumerate().filter(|(i, row)| {
                *i != at
                    && schedule_key(row.key) == Some(key)
                    && row.key.table_id <= last_table_id
                    && self.complete(reading, row)
                    && (row.marked || !reading.has(Fault::RefillMarkedOnly))
                    && !reading.has(Fault::NoRefill)
            });
            schedule.copies = others.map(|(_, row)| copy(row)).collect();
        }
        schedule
    }

    /// The sections of the set that was handed out and stands at a place, or of a table of the schedule that does; none where there is none, where the set changed since, or where
    /// a table of the schedule is missing.
    pub fn listed(&self, reading: &Reading, place: usize, table: Option<u8>) -> Option<Vec<Part<'_>>> {
        let part = |&cell: &usize| Part { number: self.cells[cell][6], start: cell * self.size, bytes: &self.cells[cell] };
        let Some(table) = table else {
            let row = self.rows.held.iter().find(|row| row.place == place)?;
            let listed = row.marked || reading.has(Fault::UnmarkedListed) || reading.has(Fault::UnmarkedSetListed);
            return listed.then(|| cells(row).iter().map(part).collect());
        };
        let schedule = self.schedules.held.iter().find(|schedule| schedule.place == place)?;
        let range = schedule.key.table_id..=schedule.last_table_id;
        let all = range.eq(schedule.copies.iter().map(|copy| copy.table_id)) || reading.has(Fault::PartOfAScheduleListed);
        let wanted = schedule.key.table_id.checked_add(table)?;
        let copy = schedule.copies.iter().find(|copy| copy.table_id == wanted)?;
        all.then(|| copy.cells.iter().map(part).collect())
    }

    fn set(&self, key: Key, version: u8, last: u8, cells: &[usize]) -> Set {
        Set {
            input: key.input,
            pid: key.pid,
            table_id: key.table_id,
            extension: key.extension,
            current_next: key.current_next,
            version,
            last,
            sections: cells.iter().map(|&cell| self.cells[cell].clone()).collect(),
        }
    }
}

fn fresh(key: Key, place: usize, version: u8, last: u8) -> Row {
    Row { key, place, version, last, marked: false, slots: vec![None; 256], segments: [None; 32] }
}

fn cells(row: &Row) -> Vec<usize> {
    row.slots.iter().flatten().copied().collect()
}

fn copy(row: &Row) -> Copied {
    Copied { table_id: row.key.table_id, version: row.version, last: row.last, cells: cells(row) }
}

/// The key of the schedule that a set belongs to.
fn schedule_key(key: Key) -> Option<Key> {
    match kind(key.table_id)? {
        Kind::PresentActual | Kind::PresentOther => None,
        Kind::ScheduleActual => Some(Key { table_id: 0x50, ..key }),
        Kind::ScheduleOther => Some(Key { table_id: 0x60, ..key }),
    }
}

fn matches(filter: &Filter, key: &Key) -> bool {
    let (transport_stream_id, original_network_id) = key.network.expect("only the EIT collector drops");
    filter.pid.is_none_or(|pid| pid == key.pid)
        && filter.kind.is_none_or(|number| kind(key.table_id).is_some_and(|kind| kind as u8 == number))
        && filter.service_id.is_none_or(|id| id == key.extension)
        && filter.transport_stream_id.is_none_or(|id| id == transport_stream_id)
        && filter.original_network_id.is_none_or(|id| id == original_network_id)
        && filter.current_next.is_none_or(|cn| cn == u8::from(key.current_next))
}
