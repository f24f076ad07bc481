//! The set collector over lent memory.
use crate::answer::{Answer, Held, Out, Set};
use crate::command::{Command, Part};
use crate::lent::{Lent, halves, words};
use crate::page::entries;
use petrizolu::{Answer as Number, HEAD_WORDS, Listed, NO_PID, Place, SLOT_WORDS, SetsState, calls};

#[derive(Clone, PartialEq)]
pub struct Sets {
    pub state: SetsState,
    pub heads: Lent<u64>,
    pub slots: Lent<u32>,
    pub cells: Lent<u8>,
}

impl Sets {
    /// Memory for so many rows and bytes of cells, every byte of it `byte`. No collector is open: it would have more keys than anyone can lend, so
    /// every call answers 10.
    pub fn lend(rows: usize, cells: usize, byte: u8) -> Self {
        Self {
            state: SetsState { limit: u64::MAX, size: 12, ..SetsState::default() },
            heads: words(byte, rows * HEAD_WORDS),
            slots: halves(byte, rows * SLOT_WORDS),
            cells: Lent::new(byte, cells),
        }
    }

    pub fn open(&mut self, limit: u64, size: u64, count: u64) -> Number {
        calls::sets_open(&mut self.state, limit, size, count, &self.heads, &self.slots, &self.cells)
    }

    /// The answer, and the row where it is 5.
    pub fn push(&mut self, input: u32, pid: u32, section: &[u8]) -> (Number, u64) {
        let mut row = 0;
        let number = calls::sets_push(&mut self.state, &mut self.heads, &mut self.slots, &mut self.cells, input, pid, section, &mut row);
        (number, row)
    }

    /// The answer, the row where it is 5, and how many bytes of the list were taken.
    pub fn push_all(&mut self, list: &[u8]) -> (Number, u64, u64) {
        let (mut row, mut taken) = (0, u64::MAX);
        let number = calls::sets_push_all(&mut self.state, &mut self.heads, &mut self.slots, &mut self.cells, list, &mut row, &mut taken);
        (number, row, taken)
    }

    pub fn clear(&mut self) -> Number {
        calls::sets_clear(&mut self.state, &self.heads, &self.slots, &self.cells)
    }

    pub fn next(&self, row: u64, from: u64, next: &mut Place) -> Number {
        calls::sets_next(&self.state, &self.heads, &self.slots, &self.cells, row, from, next)
    }

    pub fn entries(&self, reader: u32, row: u64, skip: u64, list: &mut [u32], listed: &mut Listed) -> Number {
        calls::sets_entries(reader, &self.state, &self.heads, &self.slots, &self.cells, row, skip, list, listed)
    }

    /// Carries out a command of the set collector on an input.
    pub fn answer(&mut self, input: u8, command: &Command) -> Answer {
        match command {
            Command::Open { limit, cells, size, .. } => {
                Answer::Number(Part::Sets, self.open((*limit).into(), (*size).into(), (*cells).into()).0)
            }
            Command::Push { pid, section, .. } => {
                let (number, row) = self.push(input.into(), pid_word(*pid), section);
                self.collected(number, row)
            }
            Command::PushAll { list, .. } => {
                let (number, row, taken) = self.push_all(list);
                Answer::Taken(taken, Box::new(self.collected(number, row)))
            }
            Command::Clear { .. } => Answer::Number(Part::Sets, self.clear().0),
            Command::Entries { reader, row, page } => {
                entries(Part::Sets, page, |skip, list, listed| self.entries((*reader).into(), (*row).into(), skip, list, listed))
            }
            Command::ReadTable { reader, section, page } => {
                entries(Part::Sets, page, |skip, list, listed| calls::entries((*reader).into(), section, skip, list, listed))
            }
            other => panic!("no command of the set collector: {other}"),
        }
    }

    fn collected(&self, number: Number, row: u64) -> Answer {
        let out = if number == Number::SET { Out::Set(self.set(row)) } else { Out::Nothing };
        Answer::Collected(number.0, Held::Sets { evicted: self.state.evictions, rows: self.state.used as usize }, out)
    }

    fn set(&self, row: u64) -> Set {
        set_of(&self.heads, row, sections(&self.cells, |from, next| self.next(row, from, next)))
    }
}

pub(crate) fn pid_word(pid: Option<u16>) -> u32 {
    pid.map_or(NO_PID, u32::from)
}

/// A word of a head that a row in use has.
pub(crate) fn byte(word: u64) -> u8 {
    u8::try_from(word).expect("a byte in a head")
}

pub(crate) fn head(heads: &[u64], row: u64) -> &[u64] {
    &heads[row as usize * HEAD_WORDS..][..HEAD_WORDS]
}

/// The set whose head stands in a row, with these sections.
pub(crate) fn set_of(heads: &[u64], row: u64, sections: Vec<Vec<u8>>) -> Set {
    let head = head(heads, row);
    Set {
        input: byte(head[10]),
        pid: Some(u16::try_from(head[0]).expect("a PID in a head")),
        table_id: byte(head[1]),
        extension: u16::try_from(head[2]).expect("an extension in a head"),
        current_next: head[3] == 1,
        version: byte(head[6]),
        last: byte(head[7]),
        sections,
    }
}

/// Asks for one section after another until there is none.
pub(crate) fn sections(cells: &[u8], next: impl Fn(u64, &mut Place) -> Number) -> Vec<Vec<u8>> {
    let mut found = Vec::new();
    let mut place = Place::default();
    let mut from = 0;
    while next(from, &mut place) == Number::YES {
        found.push(place.part(cells).to_vec());
        from = place.number + 1;
    }
    found
}
