//! docs/RULES.md, "Packets": packets of 188 bytes in, the sections that they finish through a gate. From the rules and ISO/IEC 13818-1, 2.4.3 and 2.4.4.
use super::gate::{Follow, Gate, Origin, Watch};
use super::{Difference, Reading};
use crate::faults::Fault;
use crate::lent;
use player::answer::{Answer, Fed, Finished};
use player::command::{Demux, Part};
use std::collections::{BTreeMap, BTreeSet};

const PACKET_BYTES: usize = 188;
const BUFFER_BYTES: usize = 4288;
const STUFFING: u8 = 0xFF;
/// A packet finishes fewer sections than this, so a counter that is as far from its end cannot reach it.
const TO_SPARE: u64 = 64;

/// What a packet says.
enum Packet {
    Malformed,
    /// No payload that can be read; the PID of one that has none at all, where it says that a section starts in it.
    Nothing {
        starts_nothing: Option<u16>,
    },
    Payload(Load),
}

struct Load {
    pid: u16,
    /// payload_unit_start_indicator.
    starts: bool,
    /// continuity_counter.
    counter: u8,
    /// The first byte of the payload.
    from: usize,
    /// discontinuity_indicator. Not read.
    announced: bool,
}

fn read(reading: &mut Reading, packet: &[u8]) -> Packet {
    if packet.len() != PACKET_BYTES || packet[0] != 0x47 {
        return Packet::Malformed;
    }
    let pid = u16::from_be_bytes([packet[1] & 0x1F, packet[2]]);
    let (error, starts) = (packet[1] & 0x80 != 0, packet[1] & 0x40 != 0);
    let (scrambled, control, counter) = (packet[3] & 0xC0 != 0, packet[3] >> 4 & 3, packet[3] & 0x0F);
    let has_field = control & 0b10 != 0;
    let from = if has_field { 5 + usize::from(packet[4]) } else { 4 };
    if from > PACKET_BYTES {
        let ignored = reading.has(Fault::FieldPastEndIgnored);
        return if ignored { Packet::Nothing { starts_nothing: None } } else { Packet::Malformed };
    }
    if error && !reading.has(Fault::ErrorRead) && !reading.differs(Difference::Marks) {
        return Packet::Nothing { starts_nothing: None };
    }
    if scrambled && !reading.has(Fault::ScrambledRead) && !reading.differs(Difference::Marks) {
        return Packet::Nothing { starts_nothing: None };
    }
    let field_only = reading.has(Fault::FieldOnlyCounts) && control == 0b10;
    let has_payload = control & 0b01 != 0 || field_only || (reading.has(Fault::ReservedRead) && control == 0b00);
    if !has_payload || (from == PACKET_BYTES && !field_only && reading.has(Fault::EmptyPayloadIgnored)) {
        return Packet::Nothing { starts_nothing: starts.then_some(pid) };
    }
    let announced = has_field && packet[4] > 0 && packet[5] & 0x80 != 0;
    Packet::Payload(Load { pid, starts, counter, from, announced })
}

/// A section that was finished, before it is offered.
struct Whole {
    in_buffers: bool,
    start: usize,
    bytes: Vec<u8>,
}

/// A PID that holds a buffer.
#[derive(Clone)]
struct Held {
    buffer: usize,
    /// The counter of its last packet with a payload.
    counter: Option<u8>,
    /// Whether that packet was repeated.
    repeated: bool,
    /// The bytes of the section under way; empty where there is none.
    under_way: Vec<u8>,
}

impl Held {
    fn new(buffer: usize) -> Held {
        Held { buffer, counter: None, repeated: false, under_way: Vec::new() }
    }

    /// One packet: the sections that it finishes, in order.
    fn take(&mut self, reading: &mut Reading, seen: &mut Seen, load: &Load, packet: &[u8]) -> Vec<Whole> {
        let follows = match self.counter {
            None => true,
            Some(15) if reading.has(Fault::CounterStopsAtFifteen) => false,
            Some(last) => load.counter == (last + 1) % 16,
        };
        // Where no section is under way and none starts, there is nothing to drop and nothing to read.
        let decides = load.starts || !self.under_way.is_empty();
        if !follows && !(decides && reading.differs(Difference::Continuity)) {
            let again = self.counter == Some(load.counter);
            let ignored = !self.repeated || reading.has(Fault::ThirdCopyIgnored);
            if again && ignored && !reading.has(Fault::CopyRead) {
                self.repeated = true;
                seen.copies += 1;
                return Vec::new();
            }
            seen.jumps += 1;
            let kept = reading.has(Fault::GapIgnored) || (load.announced && reading.has(Fault::AnnouncedGoesOn));
            if !kept {
                self.under_way.clear();
            }
            if reading.has(Fault::JumpUnread) {
                (self.counter, self.repeated) = (Some(load.counter), false);
                return Vec::new();
            }
        }
        (self.counter, self.repeated) = (Some(load.counter), false);
        let mut done = Vec::new();
        if !load.starts {
            let behind = self.go_on(reading, packet, load.from, PACKET_BYTES, &mut done);
            if let Some(behind) = behind.filter(|_| reading.has(Fault::BehindEndRead)) {
                self.begin(reading, packet, behind, &mut done);
            }
            return done;
        }
        match packet.get(load.from) {
            Some(&pointer) => self.start(reading, packet, load.from + 1, pointer.into(), &mut done),
            None if reading.has(Fault::EmptyStartKeeps) => {}
            None => self.under_way.clear(),
        }
        done
    }

    /// From the byte behind pointer_field on.
    fn start(&mut self, reading: &Reading, packet: &[u8], from: usize, pointer: usize, done: &mut Vec<Whole>) {
        let begin = from + pointer;
        if begin > PACKET_BYTES {
            if reading.has(Fault::PointerPastUsed) {
                self.go_on(reading, packet, from, PACKET_BYTES, done);
            } else {
                self.under_way.clear();
            }
            return;
        }
        self.go_on(reading, packet, from, begin, done);
        if !reading.has(Fault::UnfinishedGoesOn) {
            self.under_way.clear();
        }
        let begin = if reading.has(Fault::PointerIgnored) { from } else { begin };
        self.begin(reading, packet, begin, done);
    }

    /// More bytes of the section under way, if there is one; the place behind its end where they finish it.
    fn go_on(&mut self, reading: &Reading, packet: &[u8], from: usize, to: usize, done: &mut Vec<Whole>) -> Option<usize> {
        if self.under_way.is_empty() {
            return None;
        }
        for at in from..=to {
            if section_bytes(reading, &self.under_way) == Some(self.under_way.len()) {
                let bytes = std::mem::take(&mut self.under_way);
                let in_buffers = !reading.has(Fault::GatheredToldInPacket);
                done.push(Whole { in_buffers, start: self.buffer * BUFFER_BYTES, bytes });
                return Some(at);
            }
            if at < to {
                self.under_way.push(packet[at]);
            }
        }
        None
    }

    /// Sections one behind another.
    fn begin(&mut self, reading: &Reading, packet: &[u8], mut at: usize, done: &mut Vec<Whole>) {
        while at < PACKET_BYTES && (packet[at] != STUFFING || reading.has(Fault::StuffingRead)) {
            match section_bytes(reading, &packet[at..]).filter(|total| at + total <= PACKET_BYTES) {
                Some(total) => {
                    let start = if reading.has(Fault::PlaceInPayload) { at - 4 } else { at };
                    done.push(Whole { in_buffers: false, start, bytes: packet[at..at + total].to_vec() });
                    at += total;
                }
                None => {
                    let dropped = reading.has(Fault::CutHeaderDropped) && PACKET_BYTES - at < 3;
                    self.under_way = if dropped { Vec::new() } else { packet[at..].to_vec() };
                    return;
                }
            }
        }
    }
}

/// How many bytes a section has; none where its header is cut.
fn section_bytes(reading: &Reading, section: &[u8]) -> Option<usize> {
    let &[_, high, low, ..] = section else { return None };
    let bits = if reading.has(Fault::LengthOfElevenBits) { 0x07 } else { 0x0F };
    Some(3 + usize::from(u16::from_be_bytes([high & bits, low])))
}

/// The streams of one input.
#[derive(Clone)]
struct Streams {
    count: usize,
    packets: u64,
    malformed: u64,
    held: BTreeMap<u16, Held>,
}

impl Streams {
    fn open(count: u16) -> Streams {
        Streams { count: count.into(), packets: 0, malformed: 0, held: BTreeMap::new() }
    }

    /// The lowest that no PID holds.
    fn free(&self, reading: &Reading) -> Option<usize> {
        let free = |number: &usize| self.held.values().all(|held| held.buffer != *number);
        if reading.has(Fault::HighestFree) { (0..self.count).rev().find(free) } else { (0..self.count).find(free) }
    }
}

/// What packets had, so that a run can say what it ran over.
#[derive(Clone, Copy, Debug, Default)]
pub struct Seen {
    /// Sections finished; of these, those that lay in more than one packet; the most of one packet.
    pub finished: u64,
    pub gathered: u64,
    pub most: u64,
    /// Packets that were copies, and packets that did not follow.
    pub copies: u64,
    pub jumps: u64,
    /// PIDs that gave their buffer back; packets whose own PID did; packets that changed the watch more than once; PIDs that left and came back in one packet.
    pub left: u64,
    pub own_left: u64,
    pub changed_twice: u64,
    pub returned: u64,
}

pub struct Packets {
    pub seen: Seen,
    gate: Option<Gate>,
    /// Of each input. A record that nobody opened watches nothing.
    watches: Vec<Watch>,
    streams: Vec<Option<Streams>>,
}

impl Packets {
    pub fn new(reading: &Reading) -> Packets {
        let watches = (0..lent::INPUTS).map(|_| Watch::unopened(reading)).collect();
        Packets { seen: Seen::default(), gate: None, watches, streams: vec![None; lent::INPUTS] }
    }

    pub fn answer(&mut self, reading: &mut Reading, input: u8, command: &Demux) -> Answer {
        // Of an input that there is not, the memory of input 0.
        let at = if lent::is_input(input) { usize::from(input) } else { 0 };
        let number = match command {
            Demux::Open(opening) => {
                let answer = lent::demux_opening(opening.capacity, opening.rule, &opening.extra);
                if answer == 7 {
                    let follow = Follow::of(opening.follow, opening.pats);
                    self.gate = Some(Gate::open(opening.capacity as usize, opening.repeats, follow, opening.rule));
                    self.watches[at].open(reading, opening.well_known, &opening.extra, follow);
                    if reading.has(Fault::OpeningEmptiesStreams)
                        && let Some(streams) = &mut self.streams[at]
                    {
                        streams.held.clear();
                    }
                }
                answer
            }
            Demux::Streams(count) => {
                let answer = lent::streams_opening(*count);
                if answer == 7 {
                    self.streams[at] = Some(Streams::open(*count));
                }
                answer
            }
            Demux::Packet(packet) => return self.feed(reading, input, at, packet),
            Demux::Ask(pid) if !lent::is_pid(*pid) => 12,
            Demux::Ask(pid) => 9 - u8::from(self.watches[at].watches(*pid)),
            Demux::Watched => return Answer::Watched(Part::Demux, self.watches[at].watched.iter().copied().collect()),
        };
        Answer::Number(Part::Demux, number)
    }

    fn feed(&mut self, reading: &mut Reading, input: u8, at: usize, packet: &[u8]) -> Answer {
        let (Some(gate), Some(streams)) = (&self.gate, &mut self.streams[at]) else { return Answer::Number(Part::Demux, 10) };
        let of_pats = gate.follows_tables().then_some(&self.watches[at].pats.rows.evictions);
        let near_end = |counter: &u64| u64::MAX - counter <= TO_SPARE;
        if gate.counters.iter().chain([&streams.packets, &streams.malformed]).chain(of_pats).any(near_end) {
            return Answer::Number(Part::Demux, 11);
        }
        let said = read(reading, packet);
        if !lent::is_input(input) && !(matches!(said, Packet::Malformed) && reading.has(Fault::MalformedBeforeInput)) {
            streams.packets += u64::from(reading.has(Fault::BadInputCounted));
            return Answer::Number(Part::Demux, 37);
        }
        streams.packets += 1;
        let (number, sections) = match said {
            Packet::Malformed => {
                streams.malformed += u64::from(!reading.has(Fault::MalformedUncounted));
                (30, Vec::new())
            }
            Packet::Nothing { starts_nothing } => {
                if let Some(held) = starts_nothing.and_then(|pid| streams.held.get_mut(&pid))
                    && !held.under_way.is_empty()
                    && reading.differs(Difference::EmptyPayload)
                {
                    held.under_way.clear();
                }
                (29, Vec::new())
            }
            Packet::Payload(load) => self.payload(reading, Origin { input, pid: load.pid }, at, &load, packet),
        };
        let streams = self.streams[at].as_ref().expect("it was open");
        Answer::Fed(Fed {
            number,
            packets: [streams.packets, streams.malformed],
            counters: self.gate.as_ref().expect("it was open").counters,
            count: sections.len() as u64,
            sections,
        })
    }

    /// 29 with the sections that were finished, or 43.
    fn payload(&mut self, reading: &mut Reading, from: Origin, at: usize, load: &Load, packet: &[u8]) -> (u8, Vec<Finished>) {
        let Some(streams) = &mut self.streams[at] else { panic!("it was open") };
        let null_unread = load.pid == 0x1FFF && reading.has(Fault::NullUnread);
        if !self.watches[at].watches(load.pid) || null_unread {
            if !reading.has(Fault::UnwatchedKeeps) {
                streams.held.remove(&load.pid);
            }
            streams.packets -= u64::from(reading.has(Fault::UnwatchedUncounted));
            return (29, Vec::new());
        }
        let free = streams.free(reading);
        let Some(buffer) = streams.held.get(&load.pid).map(|held| held.buffer).or(free) else {
            if !reading.differs(Difference::Buffers) {
                return self.no_buffer(reading, from, at, load, packet);
            }
            // The original has a buffer for everyone.
            let last = streams.held.values().map(|held| held.buffer).max();
            let held = streams.held.entry(load.pid).or_insert(Held::new(last.map_or(0, |last| last + 1)));
            let whole = held.take(reading, &mut self.seen, load, packet);
            return (29, self.offer_all(reading, from, at, whole));
        };
        let held = streams.held.entry(load.pid).or_insert(Held::new(buffer));
        let whole = held.take(reading, &mut self.seen, load, packet);
        (29, self.offer_all(reading, from, at, whole))
    }

    fn no_buffer(&mut self, reading: &mut Reading, from: Origin, at: usize, load: &Load, packet: &[u8]) -> (u8, Vec<Finished>) {
        let Some(streams) = &mut self.streams[at] else { panic!("it was open") };
        streams.packets -= u64::from(reading.has(Fault::NoBufferUncounted));
        streams.malformed += u64::from(reading.has(Fault::NoBufferMalformed));
        if reading.has(Fault::NoBufferOffers) {
            let whole = Held::new(0).take(reading, &mut self.seen, load, packet);
            return (29, self.offer_all(reading, from, at, whole));
        }
        (43, Vec::new())
    }

    /// Each in order. A PID that was watched before it and is not after it gives its buffer back.
    fn offer_all(&mut self, reading: &mut Reading, from: Origin, at: usize, mut whole: Vec<Whole>) -> Vec<Finished> {
        let mut told = Vec::new();
        if reading.has(Fault::FirstOfferedAlone) {
            whole.truncate(1);
        }
        let at_first = self.watches[at].watched.clone();
        let mut all_left = BTreeSet::new();
        let mut changes = 0;
        for Whole { in_buffers, start, bytes } in whole {
            if reading.has(Fault::AskedForEach) && !self.watches[at].watches(from.pid) {
                break;
            }
            let before = self.watches[at].watched.clone();
            let gate = self.gate.as_mut().expect("it was open");
            let judgement = gate.offer(reading, &mut self.watches, from, &bytes);
            let left: BTreeSet<u16> = before.difference(&self.watches[at].watched).copied().collect();
            changes += u64::from(before != self.watches[at].watched);
            all_left.extend(&left);
            if !reading.has(Fault::ReturnKept) {
                self.leave(reading, from, at, &left);
            }
            told.push(Finished { judgement, in_buffers, start: start as u64, bytes });
        }
        if reading.has(Fault::ReturnKept) {
            let left = at_first.difference(&self.watches[at].watched).copied().collect();
            self.leave(reading, from, at, &left);
        }
        if reading.has(Fault::AnswersReversed) {
            told.reverse();
        }
        self.seen.own_left += u64::from(all_left.contains(&from.pid));
        self.seen.changed_twice += u64::from(changes > 1);
        self.seen.returned += all_left.intersection(&self.watches[at].watched).count() as u64;
        self.seen.finished += told.len() as u64;
        self.seen.gathered += told.iter().filter(|section| section.in_buffers).count() as u64;
        self.seen.most = self.seen.most.max(told.len() as u64);
        told
    }

    fn leave(&mut self, reading: &Reading, from: Origin, at: usize, left: &BTreeSet<u16>) {
        let places = if reading.has(Fault::LeavesEveryInput) { 0..lent::INPUTS } else { at..at + 1 };
        for streams in self.streams[places].iter_mut().flatten() {
            for pid in left {
                let stays = reading.has(Fault::LeftKeeps) || (*pid == from.pid && reading.has(Fault::OwnLeavingIgnored));
                if !stays {
                    self.seen.left += u64::from(streams.held.remove(pid).is_some());
                }
            }
        }
    }
}

/// What the programs that read a transport stream have open: the default settings, 256 section buffers, input 0.
pub struct StreamWatcher(Packets);

impl StreamWatcher {
    pub fn open() -> StreamWatcher {
        let reading = Reading::default();
        let mut packets = Packets::new(&reading);
        packets.gate = Some(Gate::open(65_536, false, Follow::Tables, 2));
        packets.watches[0].open(&reading, true, &[], Follow::Tables);
        packets.streams[0] = Some(Streams::open(256));
        StreamWatcher(packets)
    }

    pub fn feed(&mut self, packet: &[u8]) -> Answer {
        self.0.feed(&mut Reading::default(), 0, 0, packet)
    }

    /// Packets and malformed packets; the gate's seven counters.
    pub fn counts(&self) -> ([u64; 2], [u64; 7]) {
        let (Some(streams), Some(gate)) = (&self.0.streams[0], &self.0.gate) else { panic!("they are open") };
        ([streams.packets, streams.malformed], gate.counters)
    }
}
