//! A second implementation, written from docs/RULES.md and the standards alone: no table, no cleverness, rows in plain order. Where the rules and
//! the original differ, `Reading` says whose side is taken, and each place is named as in docs/DIFFERENCES.md.
mod collector;
mod events;
mod gate;
mod guides;
mod logs;
mod networks;
mod packets;
mod section;

use crate::faults::Fault;
use crate::lent;
use collector::Collector;
use gate::{Follow, Gate, Origin, Watch};
pub use logs::{records_of, verdict};
use packets::Packets;
pub use packets::{Seen, StreamWatcher};
use player::answer::{Answer, Held, Out};
use player::command::{By, Command, Filter, Part};
pub use section::crc;

/// The differences between the rules and the original that a run can show.
#[derive(Clone, Copy, Debug, PartialEq, Eq)]
pub enum Difference {
    /// D1: a short-form section of table 0 is no PAT; the original follows it.
    ShortFormPat,
    /// D2: a section of 12 to 17 bytes that is no EIT's answers 18; the original finds it too short first, 19.
    ShortAndNoEit,
    /// D3: a section of 4,097 or 4,098 bytes fits no cell, 20; the original keeps it. D5: the original has no cells, so 21 neither.
    Cells,
    /// D6: a payload whose counter does not follow drops the section under way, or is a repeat; the original looks at no counter.
    Continuity,
    /// D7: a packet marked as damaged or scrambled counts as lost; the original reads it.
    Marks,
    /// D8: a packet without a payload changes nothing; the original reads a payload of no bytes.
    EmptyPayload,
    /// D9: no section buffer is free, 43; the original has one for every PID.
    Buffers,
}

impl Difference {
    pub const ALL: [Difference; 7] = [
        Difference::ShortFormPat,
        Difference::ShortAndNoEit,
        Difference::Cells,
        Difference::Continuity,
        Difference::Marks,
        Difference::EmptyPayload,
        Difference::Buffers,
    ];

    /// Its name in docs/DIFFERENCES.md.
    pub fn name(self) -> &'static str {
        match self {
            Difference::ShortFormPat => "D1 (short-form PAT)",
            Difference::ShortAndNoEit => "D2 (short and no EIT)",
            Difference::Cells => "D3 and D5 (cells)",
            Difference::Continuity => "D6 (continuity)",
            Difference::Marks => "D7 (error and scrambling bits)",
            Difference::EmptyPayload => "D8 (no payload)",
            Difference::Buffers => "D9 (buffers)",
        }
    }
}

/// How the rules are read, and what was met on the way.
#[derive(Clone, Debug, Default)]
pub struct Reading {
    /// Take the original's side in every difference.
    pub as_original: bool,
    pub fault: Option<Fault>,
    /// How often each difference of `Difference::ALL` decided something.
    pub met: [u64; Difference::ALL.len()],
}

impl Reading {
    fn has(&self, fault: Fault) -> bool {
        self.fault == Some(fault)
    }

    /// Called where the two differ: whether the original's side is taken.
    fn differs(&mut self, difference: Difference) -> bool {
        self.met[difference as usize] += 1;
        self.as_original
    }
}

pub struct Second {
    pub reading: Reading,
    /// The input that is current.
    input: u8,
    gate: Gate,
    /// Of each input.
    watches: Vec<Watch>,
    sets: Option<Collector>,
    eit: Option<Collector>,
    packets: Packets,
}

impl Second {
    pub fn new(reading: Reading) -> Second {
        let watches = (0..lent::INPUTS).map(|_| Watch::new(&reading)).collect();
        let packets = Packets::new(&reading);
        Second { reading, input: 0, gate: Gate::open(65_536, false, Follow::Sections, 1), watches, sets: None, eit: None, packets }
    }

    /// Opens the EIT collector with whatever room it asks for.
    pub fn open_eit(&mut self, limit: u16, cells: u16, size: u16) {
        self.eit = Some(Collector::open(true, limit, cells, size));
    }

    /// Opens the set collector with whatever room it asks for.
    pub fn open_sets(&mut self, limit: u16, cells: u16, size: u16) {
        self.sets = Some(Collector::open(false, limit, cells, size));
    }

    /// How many sets went on into a schedule since the EIT collector was opened.
    pub fn entered(&self) -> u64 {
        self.eit.as_ref().map_or(0, |eit| eit.entered)
    }

    /// What the packets of the script had so far.
    pub fn seen(&self) -> Seen {
        self.packets.seen
    }

    pub fn answer(&mut self, command: &Command) -> Answer {
        let input = self.input;
        match command {
            Command::Input(input) => {
                self.input = *input;
                Answer::Input(*input)
            }
            Command::GateOpen { capacity, repeats, follow, well_known, rule, pats, extra } => {
                let answer = lent::gate_opening(*capacity, *rule, extra);
                if answer == 7 {
                    let follow = Follow::of(*follow, *pats);
                    self.gate = Gate::open(*capacity as usize, *repeats, follow, *rule);
                    let at = self.record();
                    self.watches[at].open(&self.reading, *well_known, extra, follow);
                }
                Answer::Number(Part::Gate, answer)
            }
            Command::Gate { by: By::Offer, .. } if !lent::is_input(input) && self.reading.has(Fault::InputBeforePid) => {
                Answer::Number(Part::Gate, 37)
            }
            Command::Gate { pid, .. } | Command::Ask { pid } if !lent::is_pid(*pid) => Answer::Number(Part::Gate, 12),
            Command::Gate { by: By::Packets, pid, .. } if !self.watch().watches(*pid) => Answer::Unwatched,
            Command::Gate { by: By::Packets, section, .. } if !lent::deliverable(section) => Answer::Undeliverable,
            Command::Gate { .. } if !lent::is_input(input) => Answer::Number(Part::Gate, 37),
            Command::Gate { pid, section, .. } => {
                let judgement = self.gate.offer(&mut self.reading, &mut self.watches, Origin { input, pid: *pid }, section);
                let [completed, emitted, suppressed, crc, _, _, evicted] = self.gate.counters;
                Answer::Judged(judgement, [completed, emitted, suppressed, crc, evicted])
            }
            Command::Ask { pid } => Answer::Number(Part::Gate, if self.watch().watches(*pid) { 8 } else { 9 }),
            Command::Watched => Answer::Watched(Part::Gate, self.watch().watched.iter().copied().collect()),
            Command::Counters => Answer::Counters(self.gate.counters),
            Command::Pats => {
                let pats = &self.watch().pats.rows;
                Answer::Pats { evicted: pats.evictions, rows: pats.held.len() as u64 }
            }
            Command::Open { part, limit, cells, size } => {
                let answer = lent::collector_opening(*limit, *cells, *size);
                if answer == 7 {
                    let eit = *part == Part::Eit;
                    *self.collector(*part) = Some(Collector::open(eit, *limit, *cells, *size));
                }
                Answer::Number(*part, answer)
            }
            Command::Push { part, pid, section } => {
                let (number, out) = self.push(*part, input, *pid, section);
                Answer::Collected(number, self.held(*part), out)
            }
            Command::PushAll { part, list } => {
                let (number, out, taken) = self.push_all(*part, list);
                Answer::Taken(taken, Box::new(Answer::Collected(number, self.held(*part), out)))
            }
            Command::Clear { part } => {
                let fault = self.reading.has(Fault::ClearZeroes);
                let cleared = self.collector(*part).as_mut().map(|collector| collector.clear(fault));
                Answer::Number(*part, if cleared.is_some() { 7 } else { 10 })
            }
            Command::Events { row, table, page } => match &self.eit {
                None if self.reading.has(Fault::NotWholeUnasked) => Answer::Entries(Part::Eit, 9, Some(([0; 3], Vec::new()))),
                None => Answer::Entries(Part::Eit, 10, None),
                Some(eit) => match eit.listed(&self.reading, (*row).into(), *table) {
                    None => Answer::Entries(Part::Eit, 9, Some(([0; 3], Vec::new()))),
                    Some(parts) => events::list(&mut self.reading, parts, page),
                },
            },
            Command::Read { section, page } => events::read(&mut self.reading, section, page),
            Command::Entries { reader, row, page } => match &self.sets {
                None if self.reading.has(Fault::ClosedHasNone) => Answer::Entries(Part::Sets, 9, Some(([0; 3], Vec::new()))),
                None => Answer::Entries(Part::Sets, 10, None),
                Some(sets) => match sets.listed(&self.reading, (*row).into(), None) {
                    None => Answer::Entries(Part::Sets, 9, Some(([0; 3], Vec::new()))),
                    Some(parts) => networks::list(&self.reading, *reader, parts, page),
                },
            },
            Command::ReadTable { reader, section, page } => networks::read(&self.reading, *reader, section, page),
            Command::Date(day) => Answer::Date(events::date(&self.reading, *day)),
            Command::Drop(filter) => {
                let number = self.drop(filter);
                Answer::Collected(number, self.held(Part::Eit), Out::Nothing)
            }
            Command::Demux(command) => self.packets.answer(&mut self.reading, input, command),
            Command::Guides(command) => Answer::Guides(guides::answer(&self.reading, command)),
            Command::Logs(command) => Answer::Logs(logs::answer(&mut self.reading, command)),
        }
    }

    fn push(&mut self, part: Part, input: u8, pid: Option<u16>, section: &[u8]) -> (u8, Out) {
        let mut reading = self.reading.clone();
        let pid = pid.or(reading.has(Fault::NoPidIsPidZero).then_some(0));
        let refused = pid.is_none() && !reading.has(Fault::NoPidCollected);
        let input_first = reading.has(Fault::InputBeforeNoPid) && !lent::is_input(input);
        let pushed = match self.collector(part) {
            None => (10, Out::Nothing),
            Some(_) if refused && !input_first => (41, Out::Nothing),
            Some(_) if pid.is_some_and(|pid| !lent::is_pid(pid)) => (12, Out::Nothing),
            Some(_) if !lent::is_input(input) => (37, Out::Nothing),
            Some(collector) => collector.push(&mut reading, input, pid, section),
        };
        self.reading = reading;
        pushed
    }

    /// One by one until one answers something else than 4, and how many bytes of the list were taken: none where it is bad, or no collector is open.
    fn push_all(&mut self, part: Part, list: &[u8]) -> (u8, Out, u64) {
        let (current, mut taken) = (self.input, 0);
        let (sections, bad) = logs::sections_before(&self.reading, list);
        match bad {
            Some(42) if self.reading.has(Fault::AllOverlongIsTen) => return (10, Out::Nothing, 0),
            Some(number) if !self.reading.has(Fault::AllCutPushed) => return (number, Out::Nothing, 0),
            _ => {}
        }
        if self.collector(part).is_none() {
            return (10, Out::Nothing, 0);
        }
        for logs::Listed { input, pid, bytes } in sections {
            let on = if self.reading.has(Fault::AllOnCurrentInput) { current } else { input };
            let (number, out) = self.push(part, on, Some(pid), bytes);
            let passed = match number {
                4 => true,
                5 | 6 => self.reading.has(Fault::AllSetPassed),
                _ => self.reading.has(Fault::AllRefusalPassed),
            };
            let before = taken;
            taken += 5 + bytes.len() as u64;
            if !passed {
                return (number, out, if self.reading.has(Fault::AllAnsweringUntaken) { before } else { taken });
            }
        }
        (bad.unwrap_or(4), Out::Nothing, taken)
    }

    fn drop(&mut self, filter: &Filter) -> u8 {
        match &mut self.eit {
            None => 10,
            Some(_) if filter.pid == Some(None) && !self.reading.has(Fault::NoneDropped) => 41,
            Some(_) if filter.pid.flatten().is_some_and(|pid| !lent::is_pid(pid)) => 12,
            Some(_) if filter.this_input && !lent::is_input(self.input) => 37,
            Some(eit) => {
                eit.drop(&self.reading, self.input, filter);
                7
            }
        }
    }

    /// The place of the watch that is looked at: of an input that there is not, that of input 0.
    fn record(&self) -> usize {
        if lent::is_input(self.input) { self.input.into() } else { 0 }
    }

    fn watch(&self) -> &Watch {
        &self.watches[self.record()]
    }

    fn collector(&mut self, part: Part) -> &mut Option<Collector> {
        if part == Part::Eit { &mut self.eit } else { &mut self.sets }
    }

    fn held(&self, part: Part) -> Held {
        match (part, &self.sets, &self.eit) {
            (Part::Eit, _, Some(eit)) => {
                Held::Eit { evicted: [eit.rows.evictions, eit.schedules.evictions], rows: [eit.rows.held.len(), eit.schedules.held.len()] }
            }
            (Part::Eit, _, None) => Held::Eit { evicted: [0; 2], rows: [0; 2] },
            (_, Some(sets), _) => Held::Sets { evicted: sets.rows.evictions, rows: sets.rows.held.len() },
            (_, None, _) => Held::Sets { evicted: 0, rows: 0 },
        }
    }
}
