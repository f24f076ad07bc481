//! The gate in both its forms, each with a watch record for each input.
use crate::calls::{self, Failure, GateState};
use crate::{
    Answer, DEFAULT_CHANGE_RULE, DEFAULT_SETTINGS, FOLLOW, FOLLOW_SECTIONS, INPUTS, PAT_CELLS, PAT_SLOTS, Refused, WATCH_PAT_EVICTIONS,
    WATCH_WORDS,
};

#[derive(Debug, Clone, Copy, PartialEq, Eq)]
pub enum Offered {
    Emitted,
    Suppressed,
    /// Too short to hold its CRC, or under 3 bytes: so many bytes.
    TooShort(usize),
    /// The CRC that the section carries is not that of its bytes.
    Mismatch {
        stored: u32,
        worked: u32,
    },
}

impl Offered {
    /// The number that the gate answered, as the record of a log takes it.
    pub fn answer(self) -> Answer {
        match self {
            Self::Emitted => Answer::EMITTED,
            Self::Suppressed => Answer::SUPPRESSED,
            Self::TooShort(_) => Answer::TOO_SHORT,
            Self::Mismatch { .. } => Answer::CRC_MISMATCH,
        }
    }
}

fn offered(answer: Answer, failure: Failure) -> Result<Offered, Refused> {
    match answer {
        Answer::EMITTED => Ok(Offered::Emitted),
        Answer::SUPPRESSED => Ok(Offered::Suppressed),
        Answer::TOO_SHORT => Ok(Offered::TooShort(failure.length as usize)),
        Answer::CRC_MISMATCH => Ok(Offered::Mismatch { stored: failure.stored as u32, worked: failure.worked as u32 }),
        other => Err(Refused(other)),
    }
}

/// Capacity 0 acts as 1.
fn rows(capacity: usize) -> Box<[u64]> {
    vec![0; capacity.max(1)].into_boxed_slice()
}

/// The words of a record that the three sets of PIDs need.
const SET_WORDS: usize = 384;

/// The watch record of one input: its words and, where complete PATs are followed, its PAT store.
pub(crate) struct Record {
    pub words: Box<[u64]>,
    pub pat_slots: Box<[u32]>,
    pub pat_cells: Box<[u8]>,
}

/// The watch record of each input. Who gives an input gets its own record, and no other.
pub(crate) struct Watches([Record; INPUTS]);

impl Watches {
    /// What the settings need: where complete PATs are not followed, no PAT store.
    fn new(settings: u32) -> Self {
        let tables = settings & (FOLLOW | FOLLOW_SECTIONS) == FOLLOW;
        let (words, slots, cells) = if tables { (WATCH_WORDS, PAT_SLOTS, PAT_CELLS) } else { (SET_WORDS, 0, 0) };
        Self(std::array::from_fn(|_| Record {
            words: vec![0; words].into_boxed_slice(),
            pat_slots: vec![0; slots].into_boxed_slice(),
            pat_cells: vec![0; cells].into_boxed_slice(),
        }))
    }

    /// Opens the records of all inputs but 0: that one is opened with the gate.
    fn open_further(&mut self, settings: u32, extra: &[u16]) -> Result<(), Refused> {
        self.0[1..]
            .iter_mut()
            .try_for_each(|Record { words, pat_slots, pat_cells }| calls::watch_open(settings, extra, words, pat_slots, pat_cells).done())
    }

    /// What is lent to a call on an input. An input that there is not is refused whatever is lent (37).
    pub fn of(&mut self, input: u8) -> &mut Record {
        &mut self.0[usize::from(input) % INPUTS]
    }

    /// The words of an input, where it is one.
    fn words(&self, input: u8) -> Option<&[u64]> {
        self.0.get(usize::from(input)).map(|record| &*record.words)
    }

    fn watches(&self, input: u8, pid: u16) -> bool {
        self.words(input).is_some_and(|words| calls::watch_ask(words, pid.into()) == Answer::YES)
    }

    fn pat_evictions(&self, input: u8) -> u64 {
        self.words(input).and_then(|words| words.get(WATCH_PAT_EVICTIONS)).copied().unwrap_or(0)
    }
}

/// The gate that looks through its rows in order: for some hundreds of keys.
pub struct SmallGate {
    state: GateState,
    keys: Box<[u64]>,
    changes: Box<[u64]>,
    watches: Watches,
}

impl SmallGate {
    /// A gate with the default settings; the extra PIDs are watched and protected besides the well-known ones, on every input.
    pub fn open(capacity: usize, extra: &[u16]) -> Result<Self, Refused> {
        Self::open_with(DEFAULT_SETTINGS, capacity, extra)
    }

    /// The same with settings of the caller's own: [`crate::REPEATS`] and so on, or'ed.
    pub fn open_with(settings: u32, capacity: usize, extra: &[u16]) -> Result<Self, Refused> {
        let mut gate = Self { state: GateState::default(), keys: rows(capacity), changes: rows(capacity), watches: Watches::new(settings) };
        let Record { words, pat_slots, pat_cells } = gate.watches.of(0);
        let answer = calls::gate_open(
            &mut gate.state,
            capacity as u64,
            settings,
            DEFAULT_CHANGE_RULE,
            extra,
            &gate.keys,
            &gate.changes,
            words,
            pat_slots,
            pat_cells,
        );
        answer.done()?;
        gate.watches.open_further(settings, extra)?;
        Ok(gate)
    }

    /// Offers a section that came on an input and a PID.
    pub fn offer(&mut self, input: u8, pid: u16, section: &[u8]) -> Result<Offered, Refused> {
        let mut failure = Failure::default();
        let Record { words, pat_slots, pat_cells } = self.watches.of(input);
        let answer = calls::gate_offer(
            &mut self.state,
            &mut self.keys,
            &mut self.changes,
            words,
            pat_slots,
            pat_cells,
            input.into(),
            pid.into(),
            section,
            &mut failure,
        );
        offered(answer, failure)
    }

    /// Whether the PID is watched on the input.
    pub fn watches(&self, input: u8, pid: u16) -> bool {
        self.watches.watches(input, pid)
    }

    /// How often the PAT of another transport_stream_id came in the place of the one that was held, on the input.
    pub fn pat_evictions(&self, input: u8) -> u64 {
        self.watches.pat_evictions(input)
    }

    /// Settings and counters.
    pub fn state(&self) -> GateState {
        self.state
    }
}

/// The gate with an index over its rows.
pub struct Gate {
    pub(crate) state: GateState,
    pub(crate) keys: Box<[u64]>,
    pub(crate) changes: Box<[u64]>,
    pub(crate) buckets: Box<[u64]>,
    pub(crate) links: Box<[u64]>,
    pub(crate) watches: Watches,
}

impl Gate {
    /// A gate with the default settings; the extra PIDs are watched and protected besides the well-known ones, on every input.
    pub fn open(capacity: usize, extra: &[u16]) -> Result<Self, Refused> {
        Self::open_with(DEFAULT_SETTINGS, capacity, extra)
    }

    /// The same with settings of the caller's own: [`crate::REPEATS`] and so on, or'ed.
    pub fn open_with(settings: u32, capacity: usize, extra: &[u16]) -> Result<Self, Refused> {
        let mut gate = Self {
            state: GateState::default(),
            keys: rows(capacity),
            changes: rows(capacity),
            buckets: rows(capacity),
            links: rows(capacity),
            watches: Watches::new(settings),
        };
        let Record { words, pat_slots, pat_cells } = gate.watches.of(0);
        let answer = calls::indexed_open(
            &mut gate.state,
            capacity as u64,
            settings,
            DEFAULT_CHANGE_RULE,
            extra,
            &gate.keys,
            &gate.changes,
            &mut gate.buckets,
            &gate.links,
            words,
            pat_slots,
            pat_cells,
        );
        answer.done()?;
        gate.watches.open_further(settings, extra)?;
        Ok(gate)
    }

    /// Offers a section that came on an input and a PID.
    pub fn offer(&mut self, input: u8, pid: u16, section: &[u8]) -> Result<Offered, Refused> {
        let mut failure = Failure::default();
        let Record { words, pat_slots, pat_cells } = self.watches.of(input);
        let answer = calls::indexed_offer(
            &mut self.state,
            &mut self.keys,
            &mut self.changes,
            &mut self.buckets,
            &mut self.links,
            words,
            pat_slots,
            pat_cells,
            input.into(),
            pid.into(),
            section,
            &mut failure,
        );
        offered(answer, failure)
    }

    /// Whether the PID is watched on the input.
    pub fn watches(&self, input: u8, pid: u16) -> bool {
        self.watches.watches(input, pid)
    }

    /// How often the PAT of another transport_stream_id came in the place of the one that was held, on the input.
    pub fn pat_evictions(&self, input: u8) -> u64 {
        self.watches.pat_evictions(input)
    }

    /// Settings and counters.
    pub fn state(&self) -> GateState {
        self.state
    }
}
