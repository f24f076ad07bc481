//! The EIT collector.
use crate::calls::{self, EitState, Entry, Filter};
use crate::events::{self, Listing};
use crate::rows::{self, Name, Row, Section, pid_word};
use crate::{Answer, HEAD_WORDS, Refused, SLOT_WORDS, UNIT_WORDS};

/// A present/following set or a schedule that is complete.
pub enum Complete {
    Set(Row),
    Schedule(Row),
}

pub struct Eit {
    state: EitState,
    heads: Box<[u64]>,
    slots: Box<[u32]>,
    cells: Box<[u8]>,
    schedule_heads: Box<[u64]>,
    units: Box<[u32]>,
}

fn given(answer: Answer, row: u64) -> Result<Option<Complete>, Refused> {
    match answer {
        Answer::NOTHING => Ok(None),
        Answer::SET => Ok(Some(Complete::Set(Row(row)))),
        Answer::SCHEDULE => Ok(Some(Complete::Schedule(Row(row)))),
        other => Err(Refused(other)),
    }
}

impl Eit {
    pub fn open(limit: usize, size: usize, count: usize) -> Result<Self, Refused> {
        let mut eit = Self {
            state: EitState::default(),
            heads: vec![0; limit * HEAD_WORDS].into_boxed_slice(),
            slots: vec![0; limit * SLOT_WORDS].into_boxed_slice(),
            cells: vec![0; size * count].into_boxed_slice(),
            schedule_heads: vec![0; limit * HEAD_WORDS].into_boxed_slice(),
            units: vec![0; limit * UNIT_WORDS].into_boxed_slice(),
        };
        let (limit, size, count) = (limit as u64, size as u64, count as u64);
        calls::eit_open(&mut eit.state, limit, size, count, &eit.heads, &eit.slots, &eit.cells, &eit.schedule_heads, &eit.units)
            .done()
            .map(|()| eit)
    }

    /// Gives an EIT section of an input; the row of a set or of a schedule that is complete with it. Without a PID it is refused (41).
    pub fn push(&mut self, input: u8, pid: Option<u16>, section: &[u8]) -> Result<Option<Complete>, Refused> {
        let mut row = 0;
        let answer = calls::eit_push(
            &mut self.state,
            &mut self.heads,
            &mut self.slots,
            &mut self.cells,
            &mut self.schedule_heads,
            &mut self.units,
            input.into(),
            pid_word(pid),
            section,
            &mut row,
        );
        given(answer, row)
    }

    /// Gives the sections of a list as [`crate::Sets::push_all`] does.
    pub fn push_all(&mut self, sections: &[u8]) -> (Result<Option<Complete>, Refused>, usize) {
        let (mut row, mut taken) = (0, 0);
        let answer = calls::eit_push_all(
            &mut self.state,
            &mut self.heads,
            &mut self.slots,
            &mut self.cells,
            &mut self.schedule_heads,
            &mut self.units,
            sections,
            &mut row,
            &mut taken,
        );
        (given(answer, row), taken as usize)
    }

    pub fn clear(&mut self) -> Result<(), Refused> {
        calls::eit_clear(&mut self.state, &self.heads, &self.slots, &self.cells, &self.schedule_heads, &self.units).done()
    }

    /// Drops each set and each schedule that the filter matches.
    pub fn drop_matching(&mut self, filter: &Filter) -> Result<(), Refused> {
        let answer = calls::eit_drop(
            &mut self.state,
            &mut self.heads,
            &mut self.slots,
            &self.cells,
            &mut self.schedule_heads,
            &mut self.units,
            filter,
        );
        answer.done()
    }

    pub fn name(&self, row: &Row) -> Name {
        rows::name(&self.heads, row)
    }

    pub fn schedule_name(&self, row: &Row) -> Name {
        rows::name(&self.schedule_heads, row)
    }

    pub fn sections(&self, row: &Row) -> Vec<Section<'_>> {
        rows::sections(&self.cells, |from, place| {
            calls::eit_next(&self.state, &self.heads, &self.slots, &self.cells, &self.schedule_heads, &self.units, row.0, from, place)
        })
    }

    /// The sections of one table of a schedule; tables are counted from the first of the kind, 0x50 or 0x60.
    pub fn table_sections(&self, row: &Row, table: u8) -> Vec<Section<'_>> {
        rows::sections(&self.cells, |from, place| {
            calls::eit_next_in_schedule(
                &self.state,
                &self.heads,
                &self.slots,
                &self.cells,
                &self.schedule_heads,
                &self.units,
                row.0,
                table.into(),
                from,
                place,
            )
        })
    }

    /// What the set in a row says.
    pub fn events(&self, row: &Row) -> Result<Listing, Refused> {
        events::listing(|list, listed| {
            calls::eit_events(&self.state, &self.heads, &self.slots, &self.cells, &self.schedule_heads, &self.units, row.0, 0, list, listed)
        })
    }

    /// What one table of a schedule says.
    pub fn table_events(&self, row: &Row, table: u8) -> Result<Listing, Refused> {
        events::listing(|list, listed| {
            calls::eit_events_in_schedule(
                &self.state,
                &self.heads,
                &self.slots,
                &self.cells,
                &self.schedule_heads,
                &self.units,
                row.0,
                table.into(),
                0,
                list,
                listed,
            )
        })
    }

    /// The bytes of a descriptor of one of its rows, until the next call that changes the collector.
    pub fn bytes(&self, descriptor: &Entry) -> &[u8] {
        descriptor.bytes(&self.cells)
    }

    pub fn state(&self) -> EitState {
        self.state
    }
}
