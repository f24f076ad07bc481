//! What the collectors share: rows that were handed out, and their sections.
use crate::calls::Place;
use crate::{Answer, HEAD_WORDS, NO_PID};

/// A row that is complete, until the next call that changes the collector.
pub struct Row(pub(crate) u64);

/// What names a row that was handed out.
#[derive(Debug, Clone, Copy)]
pub struct Name {
    pub input: u8,
    pub pid: u16,
    /// Of a schedule: its kind.
    pub table_id: u8,
    pub extension: u16,
    pub current_next: bool,
    /// Of an EIT; 0 of any other table.
    pub transport_stream_id: u16,
    pub original_network_id: u16,
    pub version: u8,
    /// last_section_number; of a schedule last_table_id.
    pub last: u8,
}

pub(crate) fn name(heads: &[u64], row: &Row) -> Name {
    let head = &heads[row.0 as usize * HEAD_WORDS..][..HEAD_WORDS];
    Name {
        input: head[10] as u8,
        pid: head[0] as u16,
        table_id: head[1] as u8,
        extension: head[2] as u16,
        current_next: head[3] == 1,
        transport_stream_id: head[4] as u16,
        original_network_id: head[5] as u16,
        version: head[6] as u8,
        last: head[7] as u8,
    }
}

/// A section that was handed out.
#[derive(Debug, Clone, Copy)]
pub struct Section<'a> {
    pub number: u64,
    pub bytes: &'a [u8],
}

/// Asks for one section after another until there is none.
pub(crate) fn sections<'a>(cells: &'a [u8], mut next: impl FnMut(u64, &mut Place) -> Answer) -> Vec<Section<'a>> {
    let mut found = Vec::new();
    let mut from = 0;
    let mut place = Place::default();
    while next(from, &mut place) == Answer::YES {
        found.push(Section { number: place.number, bytes: place.part(cells) });
        from = place.number + 1;
    }
    found
}

pub(crate) fn pid_word(pid: Option<u16>) -> u32 {
    pid.map_or(NO_PID, u32::from)
}
