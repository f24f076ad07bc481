//! The packet layer: a gate of four rows, the record of an input with a PAT in it, two section buffers, both held: by PID 0, and by PID 0x0014 with 175 bytes of a section under way.
use crate::{Case, Store, case};
use petrizolu::{
    Answer, BUFFER_BYTES, CHANGE_STORED_CRC, DEFAULT_SETTINGS, GateState, PACKET_BYTES, PLACE_WORDS, StreamsState, WATCH_PAT_EVICTIONS,
};
use player::demux::{Streams, lend_places};
use player::gate::Plain;
use player::lent::Lent;

#[derive(Clone, Copy)]
pub enum Call {
    /// The end of the section under way.
    Feed,
    /// The same, and another section behind it.
    FeedTwo,
    /// The packet before it once more.
    FeedCopy,
    /// A packet of a watched PID that holds no buffer.
    FeedFurther,
    /// A packet of a PID that is not watched.
    FeedUnwatched,
    /// An adaptation field alone.
    FeedNothing,
    /// No sync byte.
    FeedMalformed,
    /// The end of the section under way, where each changed PAT section is followed.
    FeedBySections,
    /// The streams.
    Open,
}
use Call::*;

#[derive(Clone, PartialEq)]
pub struct Damaged {
    gate: Plain,
    streams: Streams,
    places: Lent<u64>,
    finished: u64,
    input: u32,
    /// What the streams are opened with.
    count: u64,
}

/// A time and date section.
const TDT: &[u8] = b"\x70\x70\x05\xC0\x79\x12\x45\x00";
/// A PAT that adds PID 0x0100 to the watch.
const PAT: &[u8] = b"\x00\xB0\x0D\x00\x01\xC1\x00\x00\x00\x01\xE1\x00\xE8\xF9\x5E\x7D";
/// The PID that has a section under way, and the first of its words.
const PID: u16 = 0x0014;
const WORD: usize = 4 * PID as usize;
/// How many bytes of it are there, of how many.
const THERE: usize = 175;
const TOTAL: usize = 203;
/// Before a call: no packet finishes as many.
const UNTOLD: u64 = u64::MAX;

/// A section of stuffing (EN 300 468, 5.2.8).
fn section() -> Vec<u8> {
    let mut bytes = vec![0x72, 0x70, (TOTAL - 3) as u8];
    bytes.resize(TOTAL, 0xAB);
    bytes
}

/// Without a start the payload is `bytes`; with one they stand behind a pointer of `rest`.
fn packet(pid: u16, counter: u8, rest: Option<u8>, bytes: &[u8]) -> Vec<u8> {
    let [high, low] = pid.to_be_bytes();
    let mut packet = vec![0x47, high | if rest.is_some() { 0x40 } else { 0 }, low, 0x10 | counter];
    packet.extend(rest);
    packet.extend(bytes);
    assert!(packet.len() <= PACKET_BYTES);
    packet.resize(PACKET_BYTES, 0xFF);
    packet
}

fn last_packet() -> Vec<u8> {
    packet(PID, 4, Some(0), &[TDT, &section()[..THERE]].concat())
}

impl Damaged {
    fn feed(&mut self, packet: &[u8]) -> Answer {
        self.finished = UNTOLD;
        self.gate.feed(&mut self.streams, self.input, packet, &mut self.places, &mut self.finished)
    }
}

impl Store for Damaged {
    type Call = Call;

    fn filled() -> Self {
        let mut filled =
            Self { gate: Plain::lend(4, 0), streams: Streams::lend(2, 0), places: lend_places(0), finished: UNTOLD, input: 0, count: 2 };
        assert_eq!(filled.gate.open(0, 4, DEFAULT_SETTINGS, CHANGE_STORED_CRC, &[]), Answer::DONE);
        assert_eq!(filled.streams.open(2), Answer::DONE);
        assert_eq!((filled.feed(&packet(0, 0, Some(0), PAT)), filled.finished), (Answer::FED, 1));
        assert_eq!((filled.feed(&last_packet()), filled.finished), (Answer::FED, 1));
        assert_eq!(filled.streams.pids[..4], [1, 0, 0, 0]);
        assert_eq!(filled.streams.pids[WORD..WORD + 4], [2, 4, 0, THERE as u64]);
        filled.finished = UNTOLD;
        filled
    }

    fn name(call: Call) -> &'static str {
        match call {
            Feed => "feed",
            FeedTwo => "feed, two sections",
            FeedCopy => "feed a copy",
            FeedFurther => "feed a further PID",
            FeedUnwatched => "feed a PID that is not watched",
            FeedNothing => "feed no payload",
            FeedMalformed => "feed no sync byte",
            FeedBySections => "feed by sections",
            Open => "open",
        }
    }

    fn call(&mut self, call: Call) -> Answer {
        let end = &section()[THERE..];
        match call {
            Feed => self.feed(&packet(PID, 5, None, end)),
            FeedTwo => self.feed(&packet(PID, 5, Some(end.len() as u8), &[end, TDT].concat())),
            FeedCopy => self.feed(&last_packet()),
            FeedFurther => self.feed(&packet(0x0011, 0, Some(0), TDT)),
            FeedUnwatched => self.feed(&packet(0x0200, 0, Some(0), TDT)),
            FeedNothing => {
                let mut packet = packet(PID, 5, None, &[183, 0]);
                packet[3] = 0x25;
                self.feed(&packet)
            }
            FeedMalformed => self.feed(&[&[0x46], &packet(PID, 5, None, end)[1..]].concat()),
            FeedBySections => {
                let before = std::mem::replace(&mut self.gate.state.follow, 2);
                let answer = self.feed(&packet(PID, 5, None, end));
                self.gate.state.follow = before;
                answer
            }
            Open => self.streams.open(self.count),
        }
    }

    /// Where only the counts of packets moved, by how many; where sections were finished, each, and the words of the PID.
    fn left(&self, before: &Self) -> String {
        let counts = |store: &Self| [store.streams.state.packets, store.streams.state.malformed];
        let [packets, malformed] = [0, 1].map(|at| counts(self)[at].wrapping_sub(counts(before)[at]));
        let mut otherwise = self.clone();
        otherwise.streams.state = StreamsState { packets: counts(before)[0], malformed: counts(before)[1], ..otherwise.streams.state };
        let told = std::mem::replace(&mut otherwise.finished, UNTOLD);
        let moved = format!("packets +{packets} malformed +{malformed}");
        match (self == before, otherwise == *before) {
            (true, _) => "as before".into(),
            (_, true) if told == UNTOLD => format!("as before but {moved}"),
            (_, true) => format!("as before but {moved}, {told} sections"),
            _ if told == UNTOLD => "CHANGED".into(),
            _ => format!("{moved}, {told} sections{}, words {:?}", self.places(told), &self.streams.pids[WORD..WORD + 4]),
        }
    }
}

impl Damaged {
    /// The answer, the place and the length of each section.
    fn places(&self, told: u64) -> String {
        let places = self.places.chunks(PLACE_WORDS).take(told as usize);
        places.map(|place| format!(" [{} in {} at {}, {} bytes]", place[0], place[3], place[4], place[5])).collect()
    }

    /// Damages the words of the PID that has a section under way.
    fn words(&mut self, words: [u64; 4]) {
        self.streams.pids[WORD..WORD + 4].copy_from_slice(&words);
    }
}

const FEEDS: &[Call] = &[Feed, FeedTwo, FeedCopy, FeedFurther, FeedUnwatched, FeedNothing, FeedMalformed, FeedBySections];
/// Those that read what the words of the PID say.
const READS: &[Call] = &[Feed, FeedTwo, FeedCopy];
/// Those of each manner of following.
const PATS: &[Call] = &[Feed, FeedUnwatched, FeedMalformed, FeedBySections];
/// One for each way out.
const WAYS: &[Call] = &[Feed, FeedFurther, FeedUnwatched, FeedMalformed];

const THERE_WORD: u64 = THERE as u64;
/// Behind the last byte of a buffer.
const END: u64 = BUFFER_BYTES as u64;
/// Counters from here on answer 11.
const NEAR: u64 = u64::MAX - 64;

/// A counter of the gate, or of the streams.
macro_rules! counter {
    ($name:literal, $($field:ident).+) => {
        [
            case(concat!($name, " 65 below its end"), WAYS, |d: &mut Damaged| d.$($field).+ = NEAR - 1),
            case(concat!($name, " 64 below its end"), WAYS, |d: &mut Damaged| d.$($field).+ = NEAR),
            case(concat!($name, " at its end"), WAYS, |d: &mut Damaged| d.$($field).+ = u64::MAX),
        ]
    };
}

pub const CASES: &[Case<Damaged>] = &[
    case("nothing damaged", FEEDS, |_| {}),
    // Every content of a PID's words is whole. Word 0: a number that is no buffer's holds none.
    case("no buffer", READS, |d| d.words([0, 4, 0, THERE_WORD])),
    case("buffer 2 of 2", READS, |d| d.words([3, 4, 0, THERE_WORD])),
    case("buffer 2^64 - 2", READS, |d| d.words([u64::MAX, 4, 0, THERE_WORD])),
    case("two PIDs with buffer 0", READS, |d| d.words([1, 4, 0, THERE_WORD])),
    case("two PIDs with buffer 0", &[FeedFurther], |d| d.words([1, 4, 0, THERE_WORD])),
    case("no PID with buffer 0", &[FeedFurther], |d| d.streams.pids[0] = 0),
    case("buffer 0 named by a PID that is not watched", &[FeedFurther, FeedUnwatched], |d| {
        d.streams.pids[0] = 0;
        d.streams.pids[4 * 0x0200] = 1;
    }),
    // Word 1 is read modulo 32: the counter, and 16 where it was repeated.
    case("counter 4, repeated", READS, |d| d.words([2, 16 + 4, 0, THERE_WORD])),
    case("counter word 32 + 4", READS, |d| d.words([2, 32 + 4, 0, THERE_WORD])),
    case("counter word 2^64 - 32 + 4", READS, |d| d.words([2, u64::MAX - 31 + 4, 0, THERE_WORD])),
    case("counter word 2^64 - 1", READS, |d| d.words([2, u64::MAX, 0, THERE_WORD])),
    case("counter 7", READS, |d| d.words([2, 7, 0, THERE_WORD])),
    case("counter 5", READS, |d| d.words([2, 5, 0, THERE_WORD])),
    // Words 2 and 3: the bytes under way, or none.
    case("0 bytes under way", READS, |d| d.words([2, 4, 0, 0])),
    case("1 byte under way", READS, |d| d.words([2, 4, 0, 1])),
    case("2 bytes under way", READS, |d| d.words([2, 4, 0, 2])),
    case("202 bytes of 203 under way", READS, |d| d.words([2, 4, 0, TOTAL as u64 - 1])),
    case("203 bytes of 203 under way", READS, |d| d.words([2, 4, 0, TOTAL as u64])),
    case("204 bytes of 203 under way", READS, |d| d.words([2, 4, 0, TOTAL as u64 + 1])),
    case("4,097 bytes of 4,098 under way", READS, |d| {
        d.streams.buffers[BUFFER_BYTES..][..3].copy_from_slice(&[0x72, 0x7F, 0xFF]);
        d.words([2, 4, 0, 4097]);
    }),
    case("4,098 bytes of 4,098 under way", READS, |d| {
        d.streams.buffers[BUFFER_BYTES..][..3].copy_from_slice(&[0x72, 0x7F, 0xFF]);
        d.words([2, 4, 0, 4098]);
    }),
    case("2^64 - 1 bytes under way", READS, |d| d.words([2, 4, 0, u64::MAX])),
    case("2 bytes under way, up to the buffer's end", READS, |d| {
        d.streams.buffers[2 * BUFFER_BYTES - 2..].copy_from_slice(&[0x72, 0x70]);
        d.words([2, 4, END - 2, 2]);
    }),
    case("2 bytes under way, past the buffer's end", READS, |d| d.words([2, 4, END - 1, 2])),
    case("175 bytes under way from byte 4,113 on", READS, |d| {
        let at = BUFFER_BYTES + 4113;
        d.streams.buffers[at..at + THERE].copy_from_slice(&section()[..THERE]);
        d.words([2, 4, END - THERE_WORD, THERE_WORD]);
    }),
    case("175 bytes under way from byte 4,114 on", READS, |d| d.words([2, 4, END - THERE_WORD + 1, THERE_WORD])),
    case("bytes under way from the buffer's end on", READS, |d| d.words([2, 4, END, THERE_WORD])),
    case("no bytes under way from past the buffer's end on", READS, |d| d.words([2, 4, END + 1, 0])),
    case("bytes under way from 2^64 - 1 on", READS, |d| d.words([2, 4, u64::MAX, THERE_WORD])),
    case("words of 2^64 - 1", READS, |d| d.words([u64::MAX; 4])),
    // The watch is asked once; a PID that is not watched holds nothing after its packet.
    case("the first word of the watch 0", FEEDS, |d| d.gate.watch[0].words[0] = 0),
    // 10: less lent than the settings need, a count out of range, a gate or a record that is not whole.
    case("no buffers", FEEDS, |d| d.streams.state.count = 0),
    case("1 buffer", READS, |d| d.streams.state.count = 1),
    case("3 buffers", WAYS, |d| d.streams.state.count = 3),
    case("8,193 buffers", WAYS, |d| d.streams.state.count = 8193),
    case("2^64 - 1 buffers", WAYS, |d| d.streams.state.count = u64::MAX),
    case("32,767 PID words", WAYS, |d| d.streams.pids.lend(32_767)),
    case("a byte of the buffers missing", WAYS, |d| d.streams.buffers.lend(2 * BUFFER_BYTES - 1)),
    case("383 words of places", WAYS, |d| d.places.lend(383)),
    case("no places", WAYS, |d| d.places.lend(0)),
    case("397 words of the record", &[Feed, FeedFurther, FeedUnwatched, FeedMalformed, FeedBySections], |d| {
        d.gate.watch[0].words.lend(397)
    }),
    case("383 words of the record", PATS, |d| d.gate.watch[0].words.lend(383)),
    case("287 PAT slots", PATS, |d| d.gate.watch[0].pat_slots.lend(287)),
    case("262,143 PAT cells", PATS, |d| d.gate.watch[0].pat_cells.lend(262_143)),
    case("2 PAT rows used", PATS, |d| d.gate.watch[0].words[384] = 2),
    case("5 rows used of 4", WAYS, |d| d.gate.state.used = 5),
    case("keys of 3 rows", WAYS, |d| d.gate.keys.lend(3)),
    case("changes of 3 rows", WAYS, |d| d.gate.changes.lend(3)),
    case("change rule 3", WAYS, |d| d.gate.state.change_rule = 3),
    // 37, before 30, and nothing is counted.
    case("input 16", &[Feed, FeedNothing, FeedMalformed], |d| d.input = 16),
    case("input 255", &[Feed, FeedMalformed], |d| d.input = 255),
    case("input 256", &[Feed, FeedMalformed], |d| d.input = 256),
    case("input 2^32 - 1", &[Feed, FeedMalformed], |d| d.input = u32::MAX),
    // The lower number first.
    case("input 16, no buffers", &[Feed, FeedMalformed], |d| {
        d.input = 16;
        d.streams.state.count = 0;
    }),
    case("input 16, packets at its end", &[Feed, FeedMalformed], |d| {
        d.input = 16;
        d.streams.state.packets = u64::MAX;
    }),
    case("packets at its end, 383 words of places", &[Feed, FeedMalformed], |d| {
        d.streams.state.packets = u64::MAX;
        d.places.lend(383);
    }),
    // Opening: 13.
    case("open 2 buffers", &[Open], |_| {}),
    case("open 1 buffer", &[Open], |d| d.count = 1),
    case("open no buffer", &[Open], |d| d.count = 0),
    case("open 3 buffers", &[Open], |d| d.count = 3),
    case("open 8,193 buffers", &[Open], |d| d.count = 8193),
    case("open 2^64 - 1 buffers", &[Open], |d| d.count = u64::MAX),
    case("32,767 PID words", &[Open], |d| d.streams.pids.lend(32_767)),
    case("a byte of the buffers missing", &[Open], |d| d.streams.buffers.lend(2 * BUFFER_BYTES - 1)),
    case("PAT evictions 65 below their end", PATS, |d| d.gate.watch[0].words[WATCH_PAT_EVICTIONS] = NEAR - 1),
    case("PAT evictions 64 below their end", PATS, |d| d.gate.watch[0].words[WATCH_PAT_EVICTIONS] = NEAR),
    case("PAT evictions at their end", PATS, |d| d.gate.watch[0].words[WATCH_PAT_EVICTIONS] = u64::MAX),
    case("a gate that was never opened", WAYS, |d| d.gate.state = GateState::default()),
    case("streams that were never opened", WAYS, |d| d.streams.state = StreamsState::default()),
];

/// Each counter near its end and at it: 11.
pub fn counters() -> Vec<Case<Damaged>> {
    let all = [
        counter!("completed", gate.state.completed),
        counter!("emitted", gate.state.emitted),
        counter!("suppressed", gate.state.suppressed),
        counter!("CRC failures", gate.state.crc_failures),
        counter!("short sections", gate.state.short_sections),
        counter!("CRC mismatches", gate.state.crc_mismatches),
        counter!("evictions", gate.state.evictions),
        counter!("packets", streams.state.packets),
        counter!("malformed", streams.state.malformed),
    ];
    all.into_iter().flatten().collect()
}
