//! Packets through the packet layer beside the original's `feed`, nanoseconds a packet.
use crate::sections::{eit, long, of_version};
use crate::ts::{Packet, field_only, numbered, packed, packet};
use crate::{Side, head, measure};
use dvb_si::demux::SiDemux;
use petrizolu::{
    BUFFER_BYTES, DEFAULT_BUFFERS, DEFAULT_CHANGE_RULE, DEFAULT_SETTINGS, Demux, GateState, PAT_CELLS, PAT_SLOTS, PID_WORDS, PLACES_WORDS,
    StreamsState, WATCH_WORDS, calls,
};
use std::cell::RefCell;
use std::hint::black_box;

/// The packet layer over the gate without an index, of input 0.
struct Plain {
    gate: GateState,
    streams: StreamsState,
    keys: Vec<u64>,
    changes: Vec<u64>,
    watch: Vec<u64>,
    pat_slots: Vec<u32>,
    pat_cells: Vec<u8>,
    pids: Vec<u64>,
    buffers: Vec<u8>,
    places: Vec<u64>,
}

const ROWS: usize = 65_536;

impl Plain {
    fn open() -> Self {
        let mut plain = Self {
            gate: GateState::default(),
            streams: StreamsState::default(),
            keys: vec![0; ROWS],
            changes: vec![0; ROWS],
            watch: vec![0; WATCH_WORDS],
            pat_slots: vec![0; PAT_SLOTS],
            pat_cells: vec![0; PAT_CELLS],
            pids: vec![0; PID_WORDS],
            buffers: vec![0; DEFAULT_BUFFERS * BUFFER_BYTES],
            places: vec![0; PLACES_WORDS],
        };
        let (watch, slots, cells) = (&mut plain.watch, &plain.pat_slots, &plain.pat_cells);
        let (keys, changes) = (&plain.keys, &plain.changes);
        let settings = DEFAULT_SETTINGS;
        let opened = calls::gate_open(&mut plain.gate, ROWS as u64, settings, DEFAULT_CHANGE_RULE, &[], keys, changes, watch, slots, cells);
        let streams = calls::streams_open(&mut plain.streams, DEFAULT_BUFFERS as u64, &mut plain.pids, &plain.buffers);
        assert_eq!((opened.0, streams.0), (7, 7));
        plain
    }

    /// How many sections a packet finished.
    fn feed(&mut self, packet: &[u8]) -> u64 {
        let mut finished = 0;
        let answer = calls::feed(
            &mut self.gate,
            &mut self.streams,
            &mut self.keys,
            &mut self.changes,
            &mut self.watch,
            &mut self.pat_slots,
            &mut self.pat_cells,
            &mut self.pids,
            &mut self.buffers,
            0,
            packet,
            &mut self.places,
            &mut finished,
        );
        debug_assert_eq!(answer.0, 29);
        finished
    }

    /// How many packets at the front are passed over.
    fn pass(&mut self, packets: &[u8]) -> usize {
        calls::pass(
            &self.gate,
            &mut self.streams,
            &self.keys,
            &self.changes,
            &self.watch,
            &self.pat_slots,
            &self.pat_cells,
            &mut self.pids,
            &self.buffers,
            0,
            packets,
            &self.places,
        ) as usize
    }
}

/// So many turns of the packets, which are numbered on from turn to turn: sixteen turns end as they began.
struct Case {
    name: &'static str,
    packets: Vec<Packet>,
}

fn case(name: &'static str, packets: Vec<Packet>) -> Case {
    let mut all: Vec<Packet> = std::iter::repeat_n(packets, 16).flatten().collect();
    numbered(&mut all, &mut [0; 8192]);
    Case { name, packets: all }
}

fn cases() -> Vec<Case> {
    let noise = |pid, starts| packet(pid, starts, &[0xA5; 184]);
    let section = |extension, size: usize| long(0x42, extension, 0, 0, &vec![extension as u8; size - 12]);
    let long_ones: Vec<Vec<u8>> = (0..4).map(|n| section(n, 4000)).collect();
    let programmes = |first: u16| -> Vec<u8> {
        (0..30u16).flat_map(|n| [(n + 1).to_be_bytes(), (0xE000 + first + n).to_be_bytes()]).flatten().collect()
    };
    let pats = [0u8, 1].map(|version| of_version(long(0x00, 1, 0, 0, &programmes(0x100 * (u16::from(version) + 1))), version));
    let mut stream: Vec<Packet> = (0..970).map(|n| noise(0x200 + n % 16, false)).collect();
    for (at, one) in
        packed(0x12, &(0..40).map(|service| eit(0x4E, service, 0x4E, 120)).collect::<Vec<_>>()).into_iter().take(30).enumerate()
    {
        stream.insert(at * 33, one);
    }
    vec![
        case("a PID that is not watched", vec![noise(0x200, false); 16]),
        case("a null packet", vec![noise(0x1FFF, false); 16]),
        case("an adaptation field alone", vec![field_only(0x11); 16]),
        case("a section of 64 bytes that repeats", packed(0x11, &[section(1, 64)])),
        case("sections of 4,000 bytes over 22 packets", long_ones.iter().flat_map(|one| packed(0x11, std::slice::from_ref(one))).collect()),
        case("10 sections of 17 bytes", packed(0x11, &(0..10).map(|n| section(n, 17)).collect::<Vec<_>>())),
        case("a changed PAT of 30 programmes", pats.iter().flat_map(|pat| packed(0x00, std::slice::from_ref(pat))).collect()),
        case("a stream with 3 packets of sections in 100", stream),
    ]
}

pub fn packets(rounds: usize) {
    head("Packets, nanoseconds a packet", "packets", &["port", "with an index"]);
    for Case { name, packets } in cases() {
        let turns = (60_000 / packets.len()).max(1);
        let mut plain = Plain::open();
        let mut indexed = Demux::open(1, ROWS, DEFAULT_BUFFERS, &[]).expect("opens");
        let mut demux = SiDemux::builder().build();
        // The same sections come out of all three.
        for packet in &packets {
            let finished = plain.feed(packet);
            let before = demux.stats().sections_completed;
            demux.feed(packet).for_each(drop);
            assert_eq!(
                (finished, finished),
                (demux.stats().sections_completed - before, indexed.feed(0, packet).expect("taken").len() as u64)
            );
        }
        let mut port: [Side; 2] = [
            Box::new(|| {
                for packet in packets.iter().cycle().take(turns * packets.len()) {
                    black_box(plain.feed(packet));
                }
            }),
            Box::new(|| {
                for packet in packets.iter().cycle().take(turns * packets.len()) {
                    let _ = black_box(indexed.feed(0, packet).map(|fed| fed.len()));
                }
            }),
        ];
        let mut original: Side = Box::new(|| {
            for packet in packets.iter().cycle().take(turns * packets.len()) {
                black_box(demux.feed(packet).count());
            }
        });
        measure(turns * packets.len(), rounds, &mut port, &mut original).print(name, 188);
    }
}

/// All packets, many at once: those that are passed over by one call, each other by a feed.
fn take_all(packets: &[Packet], mut pass: impl FnMut(&[u8]) -> usize, mut feed: impl FnMut(&[u8])) {
    let mut rest = packets;
    while !rest.is_empty() {
        rest = &rest[pass(rest.as_flattened())..];
        if let [packet, others @ ..] = rest {
            feed(packet);
            rest = others;
        }
    }
}

/// The same packets, those that are passed over by one call.
pub fn many(rounds: usize) {
    head("Packets, those that are passed over many at once, nanoseconds a packet", "packets", &["port", "with an index"]);
    for Case { name, packets } in cases() {
        let turns = (60_000 / packets.len()).max(1);
        let plain = RefCell::new(Plain::open());
        let indexed = RefCell::new(Demux::open(1, ROWS, DEFAULT_BUFFERS, &[]).expect("opens"));
        let mut demux = SiDemux::builder().build();
        let mut port: [Side; 2] = [
            Box::new(|| {
                for _ in 0..turns {
                    take_all(&packets, |all| plain.borrow_mut().pass(all), |packet| _ = black_box(plain.borrow_mut().feed(packet)));
                }
            }),
            Box::new(|| {
                for _ in 0..turns {
                    take_all(
                        &packets,
                        |all| indexed.borrow_mut().pass(0, all),
                        |packet| _ = black_box(indexed.borrow_mut().feed(0, packet).map(|fed| fed.len())),
                    );
                }
            }),
        ];
        let mut original: Side = Box::new(|| {
            for packet in packets.iter().cycle().take(turns * packets.len()) {
                black_box(demux.feed(packet).count());
            }
        });
        let row = measure(turns * packets.len(), rounds, &mut port, &mut original);
        drop((port, original));
        // As many packets and sections as the original counted.
        let count = (rounds as u64 + 1) * (turns * packets.len()) as u64;
        assert_eq!((plain.borrow().streams.packets, indexed.borrow().streams(0).packets), (count, count));
        assert_eq!(2 * plain.borrow().gate.completed, demux.stats().sections_completed);
        assert_eq!(2 * indexed.borrow().state().completed, demux.stats().sections_completed);
        row.print(name, 188);
    }
}
