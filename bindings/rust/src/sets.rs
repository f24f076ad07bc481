//! The set collector.
use crate::calls::{self, Entry, Place, SetsState};
use crate::events::{self, Listing};
use crate::rows::{self, Name, Row, Section, pid_word};
use crate::{Answer, HEAD_WORDS, Refused, SLOT_WORDS};

pub struct Sets {
    state: SetsState,
    heads: Box<[u64]>,
    slots: Box<[u32]>,
    cells: Box<[u8]>,
}

fn given(answer: Answer, row: u64) -> Result<Option<Row>, Refused> {
    match answer {
        Answer::NOTHING => Ok(None),
        Answer::SET => Ok(Some(Row(row))),
        other => Err(Refused(other)),
    }
}

impl Sets {
    pub fn open(limit: usize, size: usize, count: usize) -> Result<Self, Refused> {
        let mut sets = Self {
            state: SetsState::default(),
            heads: vec![0; limit * HEAD_WORDS].into_boxed_slice(),
            slots: vec![0; limit * SLOT_WORDS].into_boxed_slice(),
            cells: vec![0; size * count].into_boxed_slice(),
        };
        let (limit, size, count) = (limit as u64, size as u64, count as u64);
        calls::sets_open(&mut sets.state, limit, size, count, &sets.heads, &sets.slots, &sets.cells).done().map(|()| sets)
    }

    /// Gives a section of an input; the row of a set that is complete with it. Without a PID it is refused (41).
    pub fn push(&mut self, input: u8, pid: Option<u16>, section: &[u8]) -> Result<Option<Row>, Refused> {
        let mut row = 0;
        let answer = calls::sets_push(
            &mut self.state,
            &mut self.heads,
            &mut self.slots,
            &mut self.cells,
            input.into(),
            pid_word(pid),
            section,
            &mut row,
        );
        given(answer, row)
    }

    /// Gives the sections of a list ([`crate::listed_section`]) one after another, until one completes a set or is refused, or the list ends: what the last one gave,
    /// and how many bytes of the list were taken. Go on behind them; 0 where the list or the store is refused as a whole.
    pub fn push_all(&mut self, sections: &[u8]) -> (Result<Option<Row>, Refused>, usize) {
        let (mut row, mut taken) = (0, 0);
        let answer =
            calls::sets_push_all(&mut self.state, &mut self.heads, &mut self.slots, &mut self.cells, sections, &mut row, &mut taken);
        (given(answer, row), taken as usize)
    }

    pub fn clear(&mut self) -> Result<(), Refused> {
        calls::sets_clear(&mut self.state, &self.heads, &self.slots, &self.cells).done()
    }

    pub fn name(&self, row: &Row) -> Name {
        rows::name(&self.heads, row)
    }

    pub fn sections(&self, row: &Row) -> Vec<Section<'_>> {
        rows::sections(&self.cells, |from, place| self.next(row.0, from, place))
    }

    /// What the set in a row says, by the reader `NIT`, `BAT` or `SDT`.
    pub fn entries(&self, reader: u32, row: &Row) -> Result<Listing, Refused> {
        events::listing(|list, listed| {
            calls::sets_entries(reader, &self.state, &self.heads, &self.slots, &self.cells, row.0, 0, list, listed)
        })
    }

    /// The bytes of a descriptor of one of its rows, until the next call that changes the collector.
    pub fn bytes(&self, descriptor: &Entry) -> &[u8] {
        descriptor.bytes(&self.cells)
    }

    /// Whether the row of that number, in use or not, has a section of the number `from` or above.
    pub fn has_section(&self, row: u64, from: u64) -> bool {
        self.next(row, from, &mut Place::default()) == Answer::YES
    }

    fn next(&self, row: u64, from: u64, place: &mut Place) -> Answer {
        calls::sets_next(&self.state, &self.heads, &self.slots, &self.cells, row, from, place)
    }

    pub fn state(&self) -> SetsState {
        self.state
    }
}
