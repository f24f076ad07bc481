//! Transport streams made from a seed. By the standard (ISO/IEC 13818-1, 2.4.3 and 2.4.4): several PIDs, adaptation fields, packets without a payload, null packets,
//! sections over several packets and several in one, PATs that change the watch. Wild: what is lost, copied, marked or damaged on the way, few section buffers, several
//! inputs, openings at any time.
use crate::lent;
use crate::make::{Dice, Head, gate_section, long, pat, sealed, short};
use crate::pats::Multiplex as Pats;
use player::command::{Command, Demux, Opening};

const PACKET_BYTES: usize = 188;
const NULL_PID: u16 = 0x1FFF;

/// PIDs that carry sections. PATs name some of them.
const PIDS: [u16; 13] = [0x0000, 0x0000, 0x0001, 0x0010, 0x0011, 0x0012, 0x0014, 0x0050, 0x0100, 0x0101, 0x0102, 0x0103, NULL_PID];

/// PIDs that carry something else, and that no PAT names.
const OTHERS: [u16; 3] = [0x0200, 0x0201, 0x1FFE];

// ---- By the standard

/// A PID as 2.4.4 has it sent.
struct Sender {
    pid: u16,
    /// continuity_counter of its next packet with a payload.
    counter: u8,
    /// What of a section is not sent yet.
    rest: Vec<u8>,
    /// Sections that may come again.
    known: Vec<Vec<u8>>,
    source: Source,
}

/// What a PID carries.
enum Source {
    /// Sections of every kind, and PATs more often on PID 0.
    Any,
    /// PATs of several sections, three times in four.
    Pats(Pats),
    /// A guide: EIT, TDT and TOT.
    Guide,
}

/// last_section_number of such PATs.
const LASTS: [u8; 6] = [0, 0, 1, 1, 2, 5];

impl Sender {
    fn new(dice: &mut Dice, pid: u16) -> Sender {
        Sender { pid, counter: dice.below(16) as u8, rest: Vec::new(), known: Vec::new(), source: Source::Any }
    }

    /// A new section, or one that was sent before.
    fn section(&mut self, dice: &mut Dice) -> Vec<u8> {
        if let Source::Pats(pats) = &mut self.source
            && !dice.once_in(4)
        {
            if dice.once_in(20) {
                pats.renew(dice, &LASTS);
            }
            if dice.once_in(100) {
                let stream = dice.of(&[1, 2]);
                *pats = Pats::new(dice, stream, &LASTS);
            }
            return pats.send(dice);
        }
        if !self.known.is_empty() && dice.below(10) < 4 {
            return self.known[dice.below(self.known.len())].clone();
        }
        let section = if let Source::Guide = self.source { guide_section(dice, self.pid) } else { new_section(dice, self.pid) };
        if self.known.len() < 8 {
            self.known.push(section.clone());
        } else {
            let at = dice.below(self.known.len());
            self.known[at] = section.clone();
        }
        section
    }

    /// A payload of so many bytes, at least one, and whether a section starts in it.
    fn payload(&mut self, dice: &mut Dice, room: usize) -> (bool, Vec<u8>) {
        let rest = self.rest.len();
        let idle = rest == 0 && (room < 2 || dice.once_in(30));
        let alone = rest > 0 && (rest + 2 > room || dice.once_in(5));
        let mut bytes = Vec::with_capacity(room);
        if idle || alone {
            bytes.extend(self.rest.drain(..rest.min(room)));
            bytes.resize(room, 0xFF);
            return (false, bytes);
        }
        bytes.push(rest as u8);
        bytes.append(&mut self.rest);
        // As many as fit, of 3 bytes each; no guide has them.
        let tiny = dice.once_in(150) && !matches!(self.source, Source::Guide);
        while bytes.len() < room {
            let section = if tiny { short(dice.of(&[0x70, 0x71, 0x72]), &[]) } else { self.section(dice) };
            let part = section.len().min(room - bytes.len());
            bytes.extend(&section[..part]);
            self.rest.extend(&section[part..]);
            if !tiny && dice.once_in(4) {
                break;
            }
        }
        bytes.resize(room, 0xFF);
        (true, bytes)
    }

    fn packet(&mut self, dice: &mut Dice) -> Vec<u8> {
        let field = dice.once_in(4).then(|| {
            let length = dice.of(&[0, 0, 1, 7, 20, 100, 181, 182]);
            let length = if dice.once_in(2) { length } else { dice.below(183) };
            // tshark does not put a header together again that lies in three packets.
            let most = if let Source::Guide = self.source { 180 } else { 182 };
            adaptation_field(dice, length.min(most))
        });
        self.packet_with(dice, field)
    }

    /// A packet that says of itself that its counter need not follow (2.4.3.5).
    fn announced(&mut self, dice: &mut Dice) -> Vec<u8> {
        let mut field = adaptation_field(dice, 1);
        field[1] |= 0x80;
        self.packet_with(dice, Some(field))
    }

    fn packet_with(&mut self, dice: &mut Dice, field: Option<Vec<u8>>) -> Vec<u8> {
        let room = PACKET_BYTES - 4 - field.as_ref().map_or(0, Vec::len);
        let (starts, payload) = self.payload(dice, room);
        let counter = self.counter;
        self.counter = (counter + 1) % 16;
        packet(self.pid, starts, field.as_deref(), counter, Some(&payload))
    }

    /// A field up to the end and a payload of no bytes, which 2.4.3.3 does not have: its counter counts.
    fn empty(&mut self, starts: bool) -> Vec<u8> {
        let counter = self.counter;
        self.counter = (counter + 1) % 16;
        let mut field = vec![183, 0];
        field.resize(184, 0xFF);
        packet(self.pid, starts, Some(&field), counter, Some(&[]))
    }

    /// An adaptation field alone: the counter is that of the packet before it.
    fn field_only(&self) -> Vec<u8> {
        field_only(self.pid, (self.counter + 15) % 16)
    }
}

/// With table_id FF no section begins.
fn new_section(dice: &mut Dice, pid: u16) -> Vec<u8> {
    let mut section = match dice.below(40) {
        0 => {
            let count = dice.of(&[170, 500, 1000, 2000, 4000, 4086]);
            let count = if dice.once_in(2) { count } else { dice.below(count) };
            let body = dice.bytes(count);
            let version = dice.below(3) as u8;
            long(Head { table_id: 0x50, extension: dice.of(&[1, 2]), version, current_next: true, number: 0, last: 0 }, &body)
        }
        1..=20 if pid == 0 => pat(dice),
        _ => gate_section(dice),
    };
    if !lent::deliverable(&section) {
        return pat(dice);
    }
    if section.len() > 3 && dice.once_in(25) {
        let last = section.len() - 1;
        section[last] ^= 1 << dice.below(8);
    }
    section
}

/// On PID 0x14 the time, else an EIT of up to 4,096 bytes (EN 300 468, 5.2.4): events without descriptors, or with one of private bytes.
fn guide_section(dice: &mut Dice, pid: u16) -> Vec<u8> {
    if pid == 0x14 {
        let time = [0xC0, 0x79, 0x12, dice.below(60) as u8, dice.below(60) as u8];
        return if dice.once_in(2) { short(0x70, &time) } else { sealed([&[0x73, 0x70, 0x0B], &time[..], &[0xF0, 0x00]].concat()) };
    }
    let (table_id, number, last) = if dice.once_in(3) { (0x4E, dice.below(2) as u8, 1) } else { (0x50, 8 * dice.below(32) as u8, 248) };
    let mut body = vec![0, 1, 0xFF, 0x01, number, table_id];
    let most = dice.of(&[100, 200, 1000, 4078]);
    for event in 0..dice.below(40) as u8 {
        let count = dice.of(&[0, 0, 20, 100, 255]);
        if body.len() + 14 + usize::from(count) > most {
            break;
        }
        body.extend([0, event, 0xC0, 0x79, 0x12, 0x45, 0x00, 0x00, 0x30, 0x00]);
        let loop_length = if count > 0 { 2 + u16::from(count) } else { 0 };
        body.extend((0x8000 | loop_length).to_be_bytes());
        if count > 0 {
            body.extend([0x80, count]);
            body.extend(dice.bytes(count.into()));
        }
    }
    let head = Head { table_id, extension: dice.of(&[1, 2, 300]), version: dice.below(3) as u8, current_next: true, number, last };
    long(head, &body)
}

/// A field of so many bytes behind its length byte (2.4.3.4): flags, sometimes a PCR, stuffing.
fn adaptation_field(dice: &mut Dice, length: usize) -> Vec<u8> {
    let mut field = vec![length as u8];
    if length > 0 {
        let clock = length >= 7 && dice.once_in(2);
        field.push(if clock { 0x10 } else { 0 } | if dice.once_in(4) { 0x40 } else { 0 });
        if clock {
            let [a, b, c, d] = (dice.below(1 << 30) as u32).to_be_bytes();
            field.extend([a, b, c, d, 0x7E, 0x00]);
        }
        field.resize(1 + length, 0xFF);
    }
    field
}

/// A packet of an adaptation field alone, which is stuffing.
pub fn field_only(pid: u16, counter: u8) -> Vec<u8> {
    let mut field = vec![183, 0];
    field.resize(184, 0xFF);
    packet(pid, false, Some(&field), counter, None)
}

pub fn packet(pid: u16, starts: bool, field: Option<&[u8]>, counter: u8, payload: Option<&[u8]>) -> Vec<u8> {
    let [high, low] = pid.to_be_bytes();
    let control = u8::from(field.is_some()) << 1 | u8::from(payload.is_some());
    let mut packet = vec![0x47, high | u8::from(starts) << 6, low, control << 4 | counter];
    packet.extend(field.into_iter().chain(payload).flatten());
    assert_eq!(packet.len(), PACKET_BYTES);
    packet
}

/// A multiplex.
struct Multiplex {
    senders: Vec<Sender>,
}

impl Multiplex {
    fn new(dice: &mut Dice) -> Multiplex {
        let mut pids = PIDS.to_vec();
        pids.dedup();
        Multiplex { senders: pids.into_iter().map(|pid| Sender::new(dice, pid)).collect() }
    }

    /// One whose PID 0 has PATs of several sections.
    fn with_pats(dice: &mut Dice) -> Multiplex {
        let mut multiplex = Multiplex::new(dice);
        for sender in multiplex.senders.iter_mut().filter(|sender| sender.pid == 0) {
            sender.source = Source::Pats(Pats::new(dice, 1, &LASTS));
        }
        multiplex
    }

    /// Some PIDs come more often.
    fn sender(&mut self, dice: &mut Dice) -> &mut Sender {
        let pid = dice.of(&PIDS);
        self.senders.iter_mut().find(|sender| sender.pid == pid).expect("one of PIDS")
    }

    /// Of PID 1FFF only null packets, by the standard.
    fn section_sender(&mut self, dice: &mut Dice) -> &mut Sender {
        loop {
            let pid = dice.of(&PIDS);
            if pid != NULL_PID {
                return self.senders.iter_mut().find(|sender| sender.pid == pid).expect("one of PIDS");
            }
        }
    }

    fn next(&mut self, dice: &mut Dice) -> Vec<u8> {
        match dice.below(100) {
            0..5 => {
                let bytes = dice.bytes(184);
                packet(NULL_PID, false, None, dice.below(16) as u8, Some(&bytes))
            }
            5..10 => self.section_sender(dice).field_only(),
            10..18 => {
                let bytes = dice.bytes(184);
                packet(dice.of(&OTHERS), dice.once_in(2), None, dice.below(16) as u8, Some(&bytes))
            }
            // What is no packet at all: no sync byte, or too short.
            18 => {
                let mut packet = self.section_sender(dice).field_only();
                if dice.once_in(2) {
                    packet[0] = dice.of(&[0x46, 0x00, 0xFF]);
                } else {
                    packet.truncate(dice.below(PACKET_BYTES));
                }
                packet
            }
            _ => self.section_sender(dice).packet(dice),
        }
    }
}

fn opening(dice: &mut Dice) -> Opening {
    Opening {
        capacity: dice.of(&[0, 1, 2, 3, 5, 8, 20, 512, 512, 4096, 4096]),
        repeats: dice.once_in(4),
        follow: !dice.once_in(8),
        pats: false,
        well_known: !dice.once_in(8),
        rule: 1,
        extra: (0..dice.below(4)).map(|_| dice.of(&[0x0000, 0x0050, 0x0100, 0x0101, NULL_PID])).collect(),
    }
}

/// A script in the original's domain of so many packets, after each of which the watched PIDs are asked for. The multiplex goes on where the demultiplexer is opened anew.
pub fn by_the_standard(seed: u64, packets: usize) -> Vec<Command> {
    let mut dice = Dice::new(seed ^ 0x3A << 48);
    let mut multiplex = Multiplex::new(&mut dice);
    let mut script = Vec::with_capacity(2 * packets + packets / 50);
    let mut left = packets;
    while left > 0 {
        let run = (50 + dice.below(1500)).min(left);
        left -= run;
        script.push(Command::Demux(Demux::Open(opening(&mut dice))));
        script.push(Command::Demux(Demux::Streams(64)));
        for _ in 0..run {
            script.push(Command::Demux(Demux::Packet(multiplex.next(&mut dice))));
            script.push(Command::Demux(Demux::Watched));
            if dice.once_in(100) {
                script.push(Command::Demux(Demux::Ask(dice.of(&PIDS))));
            }
        }
    }
    script
}

// ---- Wild

/// What may be asked of a wild script beyond packets that do not arrive as they were sent.
#[derive(Clone, Copy, PartialEq, Eq)]
pub enum Beyond {
    /// Nothing: one input, rule 1, each changed PAT section followed, gate and streams opened together. The original can be run, on its side of the named differences.
    Original,
    /// Everything.
    Port,
}

/// A script of so many packets.
pub fn wild(seed: u64, packets: usize, beyond: Beyond) -> Vec<Command> {
    let mut dice = Dice::new(seed ^ 0x4A << 48 ^ (beyond as u64) << 60);
    let all = beyond == Beyond::Port;
    let inputs = if all { dice.of(&[[0, 0, 0], [0, 1, 1], [0, 7, 15], [15, 14, 3]]) } else { [0; 3] };
    let made = if all && dice.once_in(2) { Multiplex::with_pats } else { Multiplex::new };
    let mut multiplexes: Vec<Multiplex> = inputs.iter().map(|_| made(&mut dice)).collect();
    let mut script = Vec::new();
    if all && dice.once_in(2) {
        before_opening(&mut dice, &mut multiplexes[0], &mut script);
    }
    let mut at = 0;
    let mut count = 0;
    while count < packets {
        for &input in &inputs {
            if all {
                script.push(Command::Input(input));
            }
            open_both(&mut dice, all, &mut script);
        }
        at = open_on(&mut dice, all, &inputs, at, &mut script);
        let end = packets.min(count + 50 + dice.below(1500));
        while count < end {
            if all && dice.once_in(30) {
                at = open_on(&mut dice, all, &inputs, at, &mut script);
            }
            if all && dice.once_in(250) {
                open_something(&mut dice, &mut script);
            }
            for packet in arrived(&mut dice, &mut multiplexes[at]) {
                script.push(Command::Demux(Demux::Packet(packet)));
                count += 1;
            }
            if dice.once_in(20) {
                script.push(Command::Demux(Demux::Watched));
            }
            if dice.once_in(100) {
                script.push(Command::Demux(Demux::Ask(dice.of(&[0x0000, 0x0100, 0x0101, NULL_PID, 0x2000, 0xFFFF]))));
            }
        }
    }
    script
}

/// Another input is current; now and then one that there is not, on which the packets are those of the input before.
fn open_on(dice: &mut Dice, all: bool, inputs: &[u8; 3], before: usize, script: &mut Vec<Command>) -> usize {
    if !all {
        return 0;
    }
    if dice.once_in(12) {
        script.push(Command::Input(dice.of(&[16, 17, 255])));
        return before;
    }
    let at = dice.below(inputs.len());
    script.push(Command::Input(inputs[at]));
    at
}

fn before_opening(dice: &mut Dice, multiplex: &mut Multiplex, script: &mut Vec<Command>) {
    let packet = |dice: &mut Dice, multiplex: &mut Multiplex| Command::Demux(Demux::Packet(multiplex.next(dice)));
    script.extend([packet(dice, multiplex), Command::Demux(Demux::Watched), Command::Demux(Demux::Ask(0))]);
    let open = Command::Demux(Demux::Open(opening(dice)));
    let streams = Command::Demux(Demux::Streams(3));
    script.push(if dice.once_in(2) { open } else { streams });
    script.push(packet(dice, multiplex));
}

fn open_both(dice: &mut Dice, all: bool, script: &mut Vec<Command>) {
    let opening = if all { any_opening(dice) } else { opening(dice) };
    script.push(Command::Demux(Demux::Open(opening)));
    script.push(Command::Demux(Demux::Streams(dice.of(&[1, 2, 3, 5, 8, 64, 64]))));
}

/// By either rule, in either manner of following.
fn any_opening(dice: &mut Dice) -> Opening {
    Opening { rule: dice.of(&[1, 2]), pats: !dice.once_in(3), ..opening(dice) }
}

/// An opening of one without the other, or one that is refused.
fn open_something(dice: &mut Dice, script: &mut Vec<Command>) {
    let mut opening = any_opening(dice);
    let command = match dice.below(8) {
        0..3 => Demux::Open(opening),
        3 | 4 => Demux::Streams(dice.of(&[1, 2, 5, 64])),
        5 => Demux::Streams(dice.of(&[0, 65, 8192, u16::MAX])),
        6 => {
            opening.extra.push(dice.of(&[0x2000, 0xFFFF]));
            Demux::Open(opening)
        }
        _ => {
            (opening.capacity, opening.rule) = dice.of(&[(4097, 1), (512, 0), (512, 3), (u32::MAX, 2)]);
            Demux::Open(opening)
        }
    };
    script.push(Command::Demux(command));
}

/// What arrives of the next packet.
fn arrived(dice: &mut Dice, multiplex: &mut Multiplex) -> Vec<Vec<u8>> {
    let mut packet = match dice.once_in(60) {
        // Sections on the null PID, which the standard does not have.
        true => multiplex.sender(dice).packet(dice),
        false => multiplex.next(dice),
    };
    match dice.below(60) {
        // Some packets of a PID are lost: around 15 and 16 a loss is taken for a copy or for none.
        0 | 1 => {
            let lost = dice.of(&[1, 1, 1, 2, 3, 13, 14, 15, 16, 17, 31, 32]);
            let sender = multiplex.section_sender(dice);
            (0..lost).for_each(|_| drop(sender.packet(dice)));
            let after = if dice.once_in(3) { sender.announced(dice) } else { sender.packet(dice) };
            return vec![packet, after];
        }
        2 | 3 => return vec![packet.clone(), packet],
        4 => return vec![packet; 3],
        5 => {
            let between = multiplex.next(dice);
            return vec![packet.clone(), between, packet];
        }
        6 => mark(&mut packet, 1, 0x80),
        7 => mark(&mut packet, 3, dice.of(&[0x40, 0x80, 0xC0])),
        8 => {
            let control = dice.below(4) as u8;
            if let Some(byte) = packet.get_mut(3) {
                *byte = *byte & 0xCF | control << 4;
            }
        }
        // An adaptation field up to the end, or past it.
        9 | 10 => {
            let length = dice.of(&[0, 182, 183, 184, 255]);
            mark(&mut packet, 3, 0x20);
            if let Some(byte) = packet.get_mut(4) {
                *byte = length;
            }
        }
        11 => mark(&mut packet, 1, 0x40),
        12 => mark(&mut packet, 5, 0x80),
        13 => packet.resize(dice.of(&[0, 1, 187, 189, 204]), 0xFF),
        14 | 15 => {
            if let Some(byte) = packet.get_mut(4) {
                *byte = dice.byte();
            }
        }
        16..=19 => {
            let at = dice.below(PACKET_BYTES);
            if let Some(byte) = packet.get_mut(at) {
                *byte ^= 1 << dice.below(8);
            }
        }
        20 => {
            let bytes = dice.bytes(184);
            packet.truncate(4);
            packet.extend(bytes);
        }
        22 => {
            let starts = dice.once_in(2);
            return vec![packet, multiplex.section_sender(dice).empty(starts)];
        }
        // A payload that ends early is stuffed in the middle of a section.
        21 => {
            let from = 4 + dice.below(184);
            packet.iter_mut().skip(from).for_each(|byte| *byte = 0xFF);
        }
        _ => {}
    }
    vec![packet]
}

fn mark(packet: &mut [u8], at: usize, bits: u8) {
    if let Some(byte) = packet.get_mut(at) {
        *byte |= bits;
    }
}

/// A wild stream as bytes, out of alignment here and there, its last packet cut by some bytes.
pub fn bytes(seed: u64, packets: usize) -> Vec<u8> {
    let mut dice = Dice::new(seed ^ 0x5A << 48);
    let mut multiplex = Multiplex::with_pats(&mut dice);
    let mut bytes = Vec::new();
    for _ in 0..packets {
        for packet in arrived(&mut dice, &mut multiplex) {
            bytes.extend(packet);
        }
        if dice.once_in(80) {
            let (count, sync) = (1 + dice.below(600), dice.once_in(3));
            let mut between = dice.bytes(count);
            if sync {
                between[0] = 0x47;
            }
            bytes.extend(between);
        }
    }
    bytes.truncate(bytes.len() - seed as usize % 7);
    bytes
}

// ---- Variants of a stream

/// How a stream of others is changed on the way.
#[derive(Clone, Copy)]
pub enum Variant {
    /// A guide on PIDs 0x12 and 0x14, in place of the null packets.
    Guide,
    /// The first bytes are missing, so that no packet begins where the stream does.
    Late,
    /// Packets are missing.
    Lost,
    /// Packets come twice, one directly behind the other.
    Copied,
    /// Packets of different PIDs change places, those of one PID do not.
    Shuffled,
    /// Neighbours change places, also of one PID.
    Swapped,
}

impl Variant {
    pub fn named(name: &str) -> Option<Variant> {
        Some(match name {
            "guide" => Variant::Guide,
            "late" => Variant::Late,
            "lost" => Variant::Lost,
            "copied" => Variant::Copied,
            "shuffled" => Variant::Shuffled,
            "swapped" => Variant::Swapped,
            _ => return None,
        })
    }

    pub fn of(self, seed: u64, stream: &[u8]) -> Vec<u8> {
        let mut dice = Dice::new(seed ^ 0x6A << 48);
        let mut packets: Vec<Vec<u8>> = stream.chunks_exact(PACKET_BYTES).map(<[u8]>::to_vec).collect();
        match self {
            Variant::Guide => guide_for_null(&mut dice, &mut packets),
            Variant::Late => {
                let first = dice.below(packets.len().div_ceil(4)) * PACKET_BYTES + 1 + dice.below(PACKET_BYTES - 1);
                return stream[first..].to_vec();
            }
            Variant::Lost => packets.retain(|_| !dice.once_in(150)),
            Variant::Copied => {
                packets = packets.into_iter().flat_map(|packet| vec![packet; if dice.once_in(40) { 2 } else { 1 }]).collect();
            }
            Variant::Shuffled => packets = packets.chunks(60).flat_map(|some| shuffled(&mut dice, some)).collect(),
            Variant::Swapped => {
                for at in 1..packets.len() {
                    if dice.once_in(60) {
                        packets.swap(at - 1, at);
                    }
                }
            }
        }
        packets.concat()
    }
}

fn guide_for_null(dice: &mut Dice, packets: &mut [Vec<u8>]) {
    let mut senders = [0x12, 0x14].map(|pid| Sender { source: Source::Guide, ..Sender::new(dice, pid) });
    for packet in packets.iter_mut().filter(|packet| packet[1] & 0x1F == 0x1F && packet[2] == 0xFF) {
        *packet = senders[usize::from(dice.once_in(8))].packet(dice);
    }
}

/// Packets of one PID stay in their order.
fn shuffled(dice: &mut Dice, packets: &[Vec<u8>]) -> Vec<Vec<u8>> {
    let pid = |packet: &Vec<u8>| (packet[1] & 0x1F, packet[2]);
    let mut left = packets.to_vec();
    let mut all = Vec::new();
    while !left.is_empty() {
        let any = pid(&left[dice.below(left.len())]);
        let first = left.iter().position(|packet| pid(packet) == any).expect("it is there");
        all.push(left.remove(first));
    }
    all
}
