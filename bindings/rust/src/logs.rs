//! Logs: one checked beside the sections that it is said to be of, one written, and the records of a monitor that keeps one as it goes.
use crate::calls::{self, LogRecord, LogSettings, RunMemory};
use crate::rows::pid_word;
use crate::{Answer, HEAD_WORDS, LONGEST_LOGGED, MOST_LOG_BYTES, Refused, SLOT_WORDS};

/// A section as a section list has it: input, PID and length before its bytes. `None` where it is longer than a list takes.
pub fn listed_section(input: u8, pid: u16, section: &[u8]) -> Option<Vec<u8>> {
    let length = u16::try_from(section.len()).ok().filter(|&length| usize::from(length) <= LONGEST_LOGGED)?;
    Some([&[input][..], &pid.to_be_bytes(), &length.to_be_bytes(), section].concat())
}

/// Whether a log is that of its sections, and where it is not.
#[derive(Debug, Clone, Copy, PartialEq, Eq)]
pub enum Judged {
    Equal,
    Wrong(Wrong, u64),
}

/// What is wrong first.
#[derive(Debug, Clone, Copy, PartialEq, Eq)]
pub enum Wrong {
    UnknownKind,
    Cut,
    /// Another record than the one expected, one too many, or one missing.
    Record,
}

/// Settings, and memory enough for a run by them.
pub struct LogRun {
    settings: LogSettings,
    keys: Box<[u64]>,
    changes: Box<[u64]>,
    heads: Box<[u64]>,
    slots: Box<[u32]>,
    cells: Box<[u8]>,
}

impl LogRun {
    pub fn new(settings: LogSettings) -> Self {
        let [capacity, limit, size, count] = [settings.capacity, settings.limit, settings.size, settings.count]
            .map(|number| usize::try_from(number).expect("as memory has room"));
        let rows = capacity.max(1);
        Self {
            settings,
            keys: vec![0; rows].into_boxed_slice(),
            changes: vec![0; rows].into_boxed_slice(),
            heads: vec![0; limit * HEAD_WORDS].into_boxed_slice(),
            slots: vec![0; limit * SLOT_WORDS].into_boxed_slice(),
            cells: vec![0; size * count].into_boxed_slice(),
        }
    }

    fn memory(&mut self) -> RunMemory<'_> {
        RunMemory {
            keys: &mut self.keys,
            changes: &mut self.changes,
            heads: &mut self.heads,
            slots: &mut self.slots,
            cells: &mut self.cells,
        }
    }

    /// Is this the log of these sections?
    pub fn check(&mut self, sections: &[u8], log: &[u8]) -> Result<Judged, Refused> {
        let (settings, mut place) = (self.settings, 0);
        match calls::log_check(&settings, sections, log, self.memory(), &mut place) {
            Answer::YES => Ok(Judged::Equal),
            Answer::UNKNOWN_KIND => Ok(Judged::Wrong(Wrong::UnknownKind, place)),
            Answer::RECORD_CUT => Ok(Judged::Wrong(Wrong::Cut, place)),
            Answer::OTHER_RECORD => Ok(Judged::Wrong(Wrong::Record, place)),
            refusal => Err(Refused(refusal)),
        }
    }

    /// The log of these sections, by settings with `LOG_WITH` alone. A section takes five bytes of a list and more, and gives at most 23.
    pub fn write(&mut self, sections: &[u8]) -> Result<Vec<u8>, Refused> {
        let (settings, mut length) = (self.settings, 0);
        let mut room = vec![0; sections.len() / 5 * MOST_LOG_BYTES];
        calls::log_write(&settings, sections, &mut room, self.memory(), &mut length).done()?;
        room.truncate(length as usize);
        Ok(room)
    }
}

/// The record of a gate's answer to a section, of no bytes where there is none.
pub fn offer_record(answer: Answer, change_rule: u64, input: u8, pid: u16, section: &[u8]) -> Result<Vec<u8>, Refused> {
    let (mut record, mut length) = ([0; 13], 0);
    calls::log_offer_record(answer, change_rule, input.into(), pid.into(), section, &mut record, &mut length).done()?;
    Ok(record[..length as usize].to_vec())
}

/// The record of the set that a section completed; of no bytes without a PID, to which the push before answered 41.
pub fn set_record(input: u8, pid: Option<u16>, section: &[u8]) -> Vec<u8> {
    let (mut record, mut length) = ([0; 10], 0);
    calls::log_set_record(input.into(), pid_word(pid), section, &mut record, &mut length);
    record[..length as usize].to_vec()
}

/// The record at a place of a log, and none at its end.
pub fn record_at(log: &[u8], place: u64) -> Result<Option<LogRecord>, Refused> {
    let mut record = LogRecord::default();
    match calls::log_read(log, place, &mut record) {
        Answer::YES => Ok(Some(record)),
        Answer::NO => Ok(None),
        refusal => Err(Refused(refusal)),
    }
}
