//! The original behind the commands.
use crate::apart::{asks_for_entries, follows_tables};
use crate::{lent, second};
use bytes::Bytes;
use dvb_si::collect::{CollectError, CompleteSectionSet, CompletedEit, EitCollector, EitLogicalKey, SectionSetCollector};
use dvb_si::demux::{SiDemux, Stats};
use dvb_si::tables::eit::EitKind;
use mpeg_ts::pid::Pid;
use player::answer::{Answer, Fed, Finished, Held, Judgement, Out, Set};
use player::command::{By, Command, Demux, Filter, Opening, Part};

pub struct Original {
    /// The input that its sets are said to be of. The original has no inputs: every command is on this one.
    input: u8,
    gate: SiDemux,
    sets: Option<SectionSetCollector>,
    eit: Option<EitCollector>,
    /// The original has one counter for both failures: how many it counts in all that were too short, and how many a mismatch, is told by their bytes.
    failures: [u64; 2],
    /// The packet layer's: a gate of its own, and whether its streams are open. The two are one in the original, so they are opened together.
    demux: Option<SiDemux>,
    streams: bool,
    /// How many answers 23 came with a table_id below the first of its kind: a branch that no section takes.
    pub below: u64,
}

impl Original {
    pub fn new(input: u8) -> Original {
        Original { input, gate: SiDemux::builder().build(), sets: None, eit: None, failures: [0; 2], demux: None, streams: false, below: 0 }
    }

    pub fn answer(&mut self, command: &Command) -> Answer {
        match command {
            Command::Input(input) => Answer::Input(*input),
            Command::GateOpen { follow: true, pats: true, .. } => panic!("the original follows each changed PAT section"),
            Command::GateOpen { capacity, repeats, follow, well_known, rule, extra, .. } => {
                let answer = lent::gate_opening(*capacity, *rule, extra);
                if answer == 7 {
                    self.gate = built(*capacity, *repeats, *follow, *well_known, extra);
                    self.failures = [0; 2];
                }
                Answer::Number(Part::Gate, answer)
            }
            Command::Gate { pid, .. } | Command::Ask { pid } if !lent::is_pid(*pid) => Answer::Number(Part::Gate, 12),
            Command::Gate { by: By::Packets, pid, section } => self.deliver(*pid, section),
            Command::Gate { by: By::Offer, pid, section } => self.judged(section, |gate| {
                let emitted = gate.offer(Pid::new(*pid), Bytes::from(&section[..]));
                usize::from(emitted)
            }),
            Command::Ask { pid } => Answer::Number(Part::Gate, if self.gate.watched().contains(pid) { 8 } else { 9 }),
            Command::Watched => Answer::Watched(Part::Gate, self.gate.watched()),
            Command::Counters => Answer::Counters(self.counters()),
            Command::Pats => Answer::Pats { evicted: 0, rows: 0 },
            Command::Open { part, limit, cells, size } => self.open(*part, *limit, *cells, *size),
            // The original collects without a PID: it is not handed such a section, nor a filter that wants none.
            Command::Push { part: Part::Eit, pid: None, .. } | Command::Drop(Filter { pid: Some(None), .. }) => {
                Answer::Collected(if self.eit.is_some() { 41 } else { 10 }, self.eit_held(), Out::Nothing)
            }
            Command::Push { pid: None, .. } => Answer::Collected(if self.sets.is_some() { 41 } else { 10 }, self.sets_held(), Out::Nothing),
            Command::Push { part: Part::Eit, pid: Some(pid), section } => self.push_eit(*pid, section),
            Command::Push { pid: Some(pid), section, .. } => self.push_set(*pid, section),
            Command::Clear { part } => self.clear(*part),
            Command::Drop(filter) => self.drop(filter),
            Command::Demux(command) => self.demux(command),
            Command::Events { .. } | Command::Read { .. } | Command::Date(_) => panic!("the original lists no entries"),
            Command::Entries { .. } | Command::ReadTable { .. } => panic!("the original lists no entries"),
            Command::PushAll { .. } => panic!("the original takes one section at a time"),
            Command::Guides(_) => panic!("the original compares no guides"),
            Command::Logs(_) => panic!("the original has no log"),
        }
    }

    fn demux(&mut self, command: &Demux) -> Answer {
        let number = match command {
            Demux::Open(Opening { capacity, repeats, follow, well_known, rule, extra, .. }) => {
                let answer = lent::demux_opening(*capacity, *rule, extra);
                if answer == 7 {
                    self.demux = Some(built(*capacity, *repeats, *follow, *well_known, extra));
                }
                answer
            }
            Demux::Streams(buffers) => {
                let answer = lent::streams_opening(*buffers);
                self.streams |= answer == 7;
                answer
            }
            Demux::Packet(packet) => return self.feed(packet),
            Demux::Ask(pid) if !lent::is_pid(*pid) => 12,
            Demux::Ask(pid) => 9 - u8::from(self.demux.as_ref().is_some_and(|demux| demux.watched().contains(pid))),
            Demux::Watched => return Answer::Watched(Part::Demux, self.demux.as_ref().map_or(Vec::new(), SiDemux::watched)),
        };
        Answer::Number(Part::Demux, number)
    }

    /// What the counters say, and the sections that come out: those that are emitted, and no others. Where they lie, and which failure it was, the original does not say.
    fn feed(&mut self, packet: &[u8]) -> Answer {
        let Some(demux) = self.demux.as_mut().filter(|_| self.streams) else { return Answer::Number(Part::Demux, 10) };
        let before = demux.stats();
        let pid = packet.get(1..3).map_or(0, |bytes| u16::from_be_bytes([bytes[0] & 0x1F, bytes[1]]));
        let emitted = |event: dvb_si::demux::SectionEvent| {
            assert_eq!(event.pid().value(), pid, "a section of the packet's own PID");
            Finished { judgement: Judgement::Emitted, in_buffers: false, start: 0, bytes: event.bytes().to_vec() }
        };
        let sections = demux.feed(packet).map(emitted).collect();
        let after = demux.stats();
        let malformed = after.malformed_packets > before.malformed_packets;
        Answer::Fed(Fed {
            number: if malformed { 30 } else { 29 },
            packets: [after.packets, after.malformed_packets],
            counters: seven(&after, [0; 2]),
            count: after.sections_completed - before.sections_completed,
            sections,
        })
    }

    /// The seven counters.
    pub fn counters(&self) -> [u64; 7] {
        seven(&self.gate.stats(), self.failures)
    }

    /// The answer by the counter that moved; `offer` says how many events came of it. Which failure it was the original does not say: that is told by the
    /// section's bytes.
    fn judged(&mut self, section: &[u8], offer: impl FnOnce(&mut SiDemux) -> usize) -> Answer {
        let before = self.gate.stats();
        let events = offer(&mut self.gate);
        let after = self.gate.stats();
        let moved = |count: fn(&Stats) -> u64| count(&after) - count(&before);
        assert_eq!(moved(|s| s.sections_completed), 1);
        assert_eq!(moved(|s| s.emitted), events as u64);
        let judgement = match [moved(|s| s.emitted), moved(|s| s.suppressed), moved(|s| s.crc_failures)] {
            [1, 0, 0] => Judgement::Emitted,
            [0, 1, 0] => Judgement::Suppressed,
            [0, 0, 1] => failure(section),
            other => panic!("the counters moved by {other:?}"),
        };
        match judgement {
            Judgement::Short(_) => self.failures[0] += 1,
            Judgement::Mismatch(..) => self.failures[1] += 1,
            _ => {}
        }
        let counters = [after.sections_completed, after.emitted, after.suppressed, after.crc_failures, after.gate_evictions];
        Answer::Judged(judgement, counters)
    }

    /// In packets, on a watched PID. That the others are not looked at is shown too.
    fn deliver(&mut self, pid: u16, section: &[u8]) -> Answer {
        let sent = packets(pid, section);
        if !self.gate.watched().contains(&pid) {
            let before = self.gate.stats().sections_completed;
            sent.iter().for_each(|packet| assert_eq!(self.gate.feed(packet).count(), 0));
            assert_eq!(self.gate.stats().sections_completed, before);
            return Answer::Unwatched;
        }
        if !lent::deliverable(section) {
            return Answer::Undeliverable;
        }
        self.judged(section, |gate| {
            let mut events = Vec::new();
            sent.iter().for_each(|packet| events.extend(gate.feed(packet)));
            events.iter().for_each(|event| assert!(event.bytes()[..] == *section && event.pid().value() == pid));
            events.len()
        })
    }

    fn open(&mut self, part: Part, limit: u16, cells: u16, size: u16) -> Answer {
        let answer = lent::collector_opening(limit, cells, size);
        if answer == 7 {
            match part {
                Part::Eit => self.eit = Some(EitCollector::new().with_max_logical_keys(limit.into())),
                _ => self.sets = Some(SectionSetCollector::new().with_max_partial_keys(limit.into())),
            }
        }
        Answer::Number(part, answer)
    }

    fn push_set(&mut self, pid: u16, section: &[u8]) -> Answer {
        let input = self.input;
        let Some(sets) = &mut self.sets else { return Answer::Collected(10, self.sets_held(), Out::Nothing) };
        let (number, out) = match pid {
            _ if !lent::is_pid(pid) => (12, Out::Nothing),
            _ => match sets.push_section_with_pid(Some(Pid::new(pid)), section) {
                Ok(None) => (4, Out::Nothing),
                Ok(Some(set)) => (5, Out::Set(set_of(input, &set))),
                Err(error) => (number(&error), Out::Nothing),
            },
        };
        Answer::Collected(number, self.sets_held(), out)
    }

    fn push_eit(&mut self, pid: u16, section: &[u8]) -> Answer {
        let input = self.input;
        let Some(eit) = &mut self.eit else { return Answer::Collected(10, self.eit_held(), Out::Nothing) };
        let (number, out) = match pid {
            _ if !lent::is_pid(pid) => (12, Out::Nothing),
            _ => match eit.push_section_with_pid(Some(Pid::new(pid)), section) {
                Ok(None) => (4, Out::Nothing),
                Ok(Some(CompletedEit::PresentFollowing(set))) => (5, Out::Set(set_of(input, &set))),
                Ok(Some(CompletedEit::Schedule(schedule))) => {
                    let sets: Vec<Set> = schedule.table_sets().iter().map(|set| set_of(input, set)).collect();
                    let (first, last) = (sets[0].table_id, sets[sets.len() - 1].table_id);
                    (6, Out::Schedule { first, last, sets })
                }
                Ok(Some(other)) => panic!("not known: {other:?}"),
                Err(error) => {
                    if let CollectError::EitTableIdOutOfRange { table_id, first_table_id, .. } = &error {
                        self.below += u64::from(table_id < first_table_id);
                    }
                    (number(&error), Out::Nothing)
                }
            },
        };
        Answer::Collected(number, self.eit_held(), out)
    }

    fn clear(&mut self, part: Part) -> Answer {
        let open = match part {
            Part::Eit => self.eit.as_mut().map(|eit| eit.clear()),
            _ => self.sets.as_mut().map(|sets| sets.clear()),
        };
        Answer::Number(part, if open.is_some() { 7 } else { 10 })
    }

    fn drop(&mut self, filter: &Filter) -> Answer {
        let Some(eit) = &mut self.eit else { return Answer::Collected(10, self.eit_held(), Out::Nothing) };
        let number = match filter.pid {
            Some(Some(pid)) if !lent::is_pid(pid) => 12,
            _ => {
                eit.retain_logical(|key| !matches(filter, key));
                7
            }
        };
        Answer::Collected(number, self.eit_held(), Out::Nothing)
    }

    pub fn sets_held(&self) -> Held {
        let (evicted, rows) = self.sets.as_ref().map_or((0, 0), |sets| (sets.evicted_for_capacity(), sets.len()));
        Held::Sets { evicted, rows }
    }

    pub fn eit_held(&self) -> Held {
        self.eit.as_ref().map_or(Held::Eit { evicted: [0; 2], rows: [0; 2] }, |eit| Held::Eit {
            evicted: [eit.sections_evicted_for_capacity(), eit.schedules_evicted_for_capacity()],
            rows: [eit.section_set_len(), eit.schedule_len()],
        })
    }
}

/// Whether the original is a measure of a script: one input, change rule 1, each changed PAT section followed, no entries asked for.
pub fn has_all(script: &[Command]) -> bool {
    let on_one = !script.iter().any(|command| matches!(command, Command::Input(_)));
    let by_rule_1 = !script.iter().filter_map(Command::opening).any(|opening| opening.rule == 2);
    let compares = script.iter().any(|command| matches!(command, Command::Guides(_) | Command::Logs(_) | Command::PushAll { .. }));
    on_one && by_rule_1 && !compares && !follows_tables(script) && !asks_for_entries(script) && opened_at_once(script)
}

/// Whether a script opens the packet layer's gate and its streams at once, as the original does: each opening that succeeds directly before the other's.
fn opened_at_once(script: &[Command]) -> bool {
    let opens = |command: Option<&Command>| match command {
        Some(Command::Demux(Demux::Open(opening))) => lent::demux_opening(opening.capacity, opening.rule, &opening.extra) == 7,
        _ => false,
    };
    let opens_streams = |command: Option<&Command>| match command {
        Some(Command::Demux(Demux::Streams(buffers))) => lent::streams_opening(*buffers) == 7,
        _ => false,
    };
    (0..=script.len()).all(|at| opens(at.checked_sub(1).and_then(|before| script.get(before))) == opens_streams(script.get(at)))
}

/// A gate with these settings.
fn built(capacity: u32, repeats: bool, follow: bool, well_known: bool, extra: &[u16]) -> SiDemux {
    let settings = SiDemux::builder().gate_capacity(capacity as usize).emit_repeats(repeats).follow_pat(follow).dvb_si_pids(well_known);
    extra.iter().fold(settings, |all, &pid| all.pid(Pid::new(pid))).build()
}

/// The seven counters, with how many failures were too short and how many a mismatch.
fn seven(stats: &Stats, [short, mismatch]: [u64; 2]) -> [u64; 7] {
    let Stats { sections_completed, emitted, suppressed, crc_failures, gate_evictions, .. } = *stats;
    [sections_completed, emitted, suppressed, crc_failures, short, mismatch, gate_evictions]
}

/// What a section that failed its CRC failed by.
fn failure(section: &[u8]) -> Judgement {
    match section.split_last_chunk() {
        Some((bytes, &stored)) => Judgement::Mismatch(u32::from_be_bytes(stored), second::crc(bytes)),
        None => Judgement::Short(section.len()),
    }
}

/// The number of docs/RULES.md, "Answers", that an error stands for.
fn number(error: &CollectError) -> u8 {
    match error {
        CollectError::Section(dvb_si::Error::BufferTooShort { what, .. }) if *what == mpeg_ts::section::READER => 14,
        CollectError::ShortFormSection { .. } => 15,
        CollectError::SectionNumberOutOfRange { .. } => 16,
        CollectError::Section(dvb_si::Error::CrcMismatch { .. }) => 17,
        CollectError::Section(dvb_si::Error::UnexpectedTableId { .. }) => 18,
        CollectError::Section(_) => 19,
        CollectError::ConflictingSection { .. } => 22,
        CollectError::EitTableIdOutOfRange { .. } => 23,
        other => panic!("not known: {other:?}"),
    }
}

fn set_of(input: u8, set: &CompleteSectionSet) -> Set {
    let meta = set.meta();
    Set {
        input,
        pid: meta.key.pid.map(Pid::value),
        table_id: meta.key.table_id,
        extension: meta.key.extension_id,
        current_next: meta.key.current_next_indicator,
        version: meta.version_number,
        last: meta.last_section_number,
        sections: set.section_bytes().map(<[u8]>::to_vec).collect(),
    }
}

fn matches(filter: &Filter, key: &EitLogicalKey) -> bool {
    let kind = match key.kind {
        EitKind::PresentFollowingActual => 0,
        EitKind::PresentFollowingOther => 1,
        EitKind::ScheduleActual => 2,
        EitKind::ScheduleOther => 3,
        other => panic!("not known: {other:?}"),
    };
    filter.pid.is_none_or(|pid| pid == key.pid.map(Pid::value))
        && filter.kind.is_none_or(|k| k == kind)
        && filter.service_id.is_none_or(|id| id == key.service_id)
        && filter.transport_stream_id.is_none_or(|id| id == key.transport_stream_id)
        && filter.original_network_id.is_none_or(|id| id == key.original_network_id)
        && filter.current_next.is_none_or(|cn| cn == u8::from(key.current_next_indicator))
}

/// A section in packets of 188 bytes (ISO/IEC 13818-1, 2.4.3): it starts the first, and stuffing fills the last.
fn packets(pid: u16, section: &[u8]) -> Vec<Vec<u8>> {
    let mut payload = vec![0];
    payload.extend(section);
    let [high, low] = pid.to_be_bytes();
    let packet = |(i, part): (usize, &[u8])| {
        let starts = if i == 0 { 0x40 } else { 0 };
        let mut packet = vec![0x47, starts | high, low, 0x10 | (i as u8 & 0x0F)];
        packet.extend(part);
        packet.resize(188, 0xFF);
        packet
    };
    payload.chunks(184).enumerate().map(packet).collect()
}
