//! The EIT collector over lent memory.
use crate::answer::{Answer, Held, Out, Set};
use crate::command::{Command, Filter, Part};
use crate::lent::{Lent, halves, words};
use crate::page::entries;
use crate::sets::{byte, head, pid_word, sections, set_of};
use petrizolu::{ANY, Answer as Number, EitState, HEAD_WORDS, Listed, Place, SLOT_WORDS, UNIT_WORDS, calls};

#[derive(Clone, PartialEq)]
pub struct Eit {
    pub state: EitState,
    pub heads: Lent<u64>,
    pub slots: Lent<u32>,
    pub cells: Lent<u8>,
    pub schedule_heads: Lent<u64>,
    pub units: Lent<u32>,
}

impl Eit {
    /// As of the set collector.
    pub fn lend(rows: usize, cells: usize, byte: u8) -> Self {
        Self {
            state: EitState { limit: u64::MAX, size: 12, ..EitState::default() },
            heads: words(byte, rows * HEAD_WORDS),
            slots: halves(byte, rows * SLOT_WORDS),
            cells: Lent::new(byte, cells),
            schedule_heads: words(byte, rows * HEAD_WORDS),
            units: halves(byte, rows * UNIT_WORDS),
        }
    }

    pub fn open(&mut self, limit: u64, size: u64, count: u64) -> Number {
        calls::eit_open(&mut self.state, limit, size, count, &self.heads, &self.slots, &self.cells, &self.schedule_heads, &self.units)
    }

    /// The answer, and the row where it is 5 or 6.
    pub fn push(&mut self, input: u32, pid: u32, section: &[u8]) -> (Number, u64) {
        let mut row = 0;
        let number = calls::eit_push(
            &mut self.state,
            &mut self.heads,
            &mut self.slots,
            &mut self.cells,
            &mut self.schedule_heads,
            &mut self.units,
            input,
            pid,
            section,
            &mut row,
        );
        (number, row)
    }

    /// The answer, the row where it is 5 or 6, and how many bytes of the list were taken.
    pub fn push_all(&mut self, list: &[u8]) -> (Number, u64, u64) {
        let (mut row, mut taken) = (0, u64::MAX);
        let number = calls::eit_push_all(
            &mut self.state,
            &mut self.heads,
            &mut self.slots,
            &mut self.cells,
            &mut self.schedule_heads,
            &mut self.units,
            list,
            &mut row,
            &mut taken,
        );
        (number, row, taken)
    }

    pub fn clear(&mut self) -> Number {
        calls::eit_clear(&mut self.state, &self.heads, &self.slots, &self.cells, &self.schedule_heads, &self.units)
    }

    pub fn drop_matching(&mut self, filter: &petrizolu::Filter) -> Number {
        calls::eit_drop(&mut self.state, &mut self.heads, &mut self.slots, &self.cells, &mut self.schedule_heads, &mut self.units, filter)
    }

    pub fn next(&self, row: u64, from: u64, next: &mut Place) -> Number {
        calls::eit_next(&self.state, &self.heads, &self.slots, &self.cells, &self.schedule_heads, &self.units, row, from, next)
    }

    pub fn next_in_schedule(&self, row: u64, table: u64, from: u64, next: &mut Place) -> Number {
        calls::eit_next_in_schedule(
            &self.state,
            &self.heads,
            &self.slots,
            &self.cells,
            &self.schedule_heads,
            &self.units,
            row,
            table,
            from,
            next,
        )
    }

    pub fn events(&self, row: u64, skip: u64, list: &mut [u32], listed: &mut Listed) -> Number {
        calls::eit_events(&self.state, &self.heads, &self.slots, &self.cells, &self.schedule_heads, &self.units, row, skip, list, listed)
    }

    pub fn events_in_schedule(&self, row: u64, table: u64, skip: u64, list: &mut [u32], listed: &mut Listed) -> Number {
        calls::eit_events_in_schedule(
            &self.state,
            &self.heads,
            &self.slots,
            &self.cells,
            &self.schedule_heads,
            &self.units,
            row,
            table,
            skip,
            list,
            listed,
        )
    }

    /// Carries out a command of the EIT collector on an input.
    pub fn answer(&mut self, input: u8, command: &Command) -> Answer {
        match command {
            Command::Open { limit, cells, size, .. } => {
                Answer::Number(Part::Eit, self.open((*limit).into(), (*size).into(), (*cells).into()).0)
            }
            Command::Push { pid, section, .. } => {
                let (number, row) = self.push(input.into(), pid_word(*pid), section);
                self.collected(number, row)
            }
            Command::PushAll { list, .. } => {
                let (number, row, taken) = self.push_all(list);
                Answer::Taken(taken, Box::new(self.collected(number, row)))
            }
            Command::Clear { .. } => Answer::Number(Part::Eit, self.clear().0),
            Command::Drop(filter) => {
                let number = self.drop_matching(&filter_words(input, filter));
                Answer::Collected(number.0, self.held(), Out::Nothing)
            }
            Command::Events { row, table, page } => entries(Part::Eit, page, |skip, list, listed| match table {
                None => self.events((*row).into(), skip, list, listed),
                Some(table) => self.events_in_schedule((*row).into(), (*table).into(), skip, list, listed),
            }),
            Command::Read { section, page } => entries(Part::Eit, page, |skip, list, listed| calls::events(section, skip, list, listed)),
            Command::Date(day) => Answer::Date(calls::date(*day)),
            other => panic!("no command of the EIT collector: {other}"),
        }
    }

    fn collected(&self, number: Number, row: u64) -> Answer {
        let out = match number {
            Number::SET => Out::Set(self.set(row)),
            Number::SCHEDULE => self.schedule(row),
            _ => Out::Nothing,
        };
        Answer::Collected(number.0, self.held(), out)
    }

    fn held(&self) -> Held {
        let s = &self.state;
        Held::Eit { evicted: [s.evictions, s.schedule_evictions], rows: [s.used as usize, s.schedules as usize] }
    }

    fn set(&self, row: u64) -> Set {
        set_of(&self.heads, row, sections(&self.cells, |from, next| self.next(row, from, next)))
    }

    /// The tables from the first of the kind (EN 300 468, 5.2.4) to last_table_id. A table's set has the schedule's key, and the version and last
    /// number that the table's own words hold.
    fn schedule(&self, row: u64) -> Out {
        let head = head(&self.schedule_heads, row);
        let first = if head[1] == 2 { 0x50 } else { 0x60 };
        let last = byte(head[7]);
        let table = |table_id: u8| {
            let table = u64::from(table_id - first);
            let unit = &self.units[row as usize * UNIT_WORDS + table as usize * SLOT_WORDS..];
            let sections = sections(&self.cells, |from, next| self.next_in_schedule(row, table, from, next));
            let (version, last) = (byte(unit[1].into()), byte(unit[2].into()));
            Set { table_id, version, last, ..set_of(&self.schedule_heads, row, sections) }
        };
        Out::Schedule { first, last, sets: (first..=last).map(table).collect() }
    }
}

fn filter_words(input: u8, filter: &Filter) -> petrizolu::Filter {
    let exact = |field: Option<u16>| field.map_or(ANY, u64::from);
    petrizolu::Filter {
        pid: filter.pid.map_or(ANY, |pid| pid_word(pid).into()),
        kind: exact(filter.kind.map(u16::from)),
        service_id: exact(filter.service_id),
        transport_stream_id: exact(filter.transport_stream_id),
        original_network_id: exact(filter.original_network_id),
        current_next: exact(filter.current_next.map(u16::from)),
        input: if filter.this_input { input.into() } else { ANY },
    }
}
