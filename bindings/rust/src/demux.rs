//! The packet layer: packets in, the sections that they finish through a gate with an index.
use crate::calls::{self, StreamsState};
use crate::gate::{Gate, Offered, Record};
use crate::{
    Answer, BUFFER_BYTES, DEFAULT_SETTINGS, GateState, IN_PACKET, INPUTS, PID_WORDS, PLACE_ANSWER, PLACE_LENGTH, PLACE_START, PLACE_STORED,
    PLACE_WHERE, PLACE_WORDS, PLACE_WORKED, PLACES_WORDS, Refused,
};

/// The streams of one input.
struct Streams {
    state: StreamsState,
    pids: Box<[u64]>,
    buffers: Box<[u8]>,
}

impl Streams {
    fn open(count: usize) -> Result<Self, Refused> {
        let mut streams = Self {
            state: StreamsState::default(),
            pids: vec![0; PID_WORDS].into_boxed_slice(),
            buffers: vec![0; count * BUFFER_BYTES].into_boxed_slice(),
        };
        calls::streams_open(&mut streams.state, count as u64, &mut streams.pids, &streams.buffers).done().map(|()| streams)
    }
}

/// A gate and the streams of some inputs, which are counted from 0.
pub struct Demux {
    gate: Gate,
    streams: Vec<Streams>,
    places: Box<[u64]>,
}

impl Demux {
    /// With the default settings, for so many inputs, each with so many section buffers; the extra PIDs are watched and protected besides the well-known ones, on every input.
    pub fn open(inputs: usize, capacity: usize, buffers: usize, extra: &[u16]) -> Result<Self, Refused> {
        Self::open_with(DEFAULT_SETTINGS, inputs, capacity, buffers, extra)
    }

    /// The same with settings of the caller's own: [`crate::REPEATS`] and so on, or'ed.
    pub fn open_with(settings: u32, inputs: usize, capacity: usize, buffers: usize, extra: &[u16]) -> Result<Self, Refused> {
        let streams = (0..inputs.min(INPUTS)).map(|_| Streams::open(buffers)).collect::<Result<_, _>>()?;
        Ok(Self { gate: Gate::open_with(settings, capacity, extra)?, streams, places: vec![0; PLACES_WORDS].into_boxed_slice() })
    }

    /// Gives a packet that came on an input: the sections that it finished, in order, with the gate's answer to each.
    /// A packet that is malformed (30) or finds no section buffer (43) is counted. Of an input without streams the answer is 10, of one that there is not 37.
    pub fn feed<'a>(&'a mut self, input: u8, packet: &'a [u8]) -> Result<Fed<'a>, Refused> {
        // An input that there is not is refused whatever is lent (37); one without streams lends none.
        let at = if usize::from(input) < INPUTS { usize::from(input) } else { 0 };
        let Some(streams) = self.streams.get_mut(at) else {
            return Err(Refused(Answer::NOT_WHOLE));
        };
        let Record { words, pat_slots, pat_cells } = self.gate.watches.of(at as u8);
        let mut finished = 0;
        let answer = calls::indexed_feed(
            &mut self.gate.state,
            &mut streams.state,
            &mut self.gate.keys,
            &mut self.gate.changes,
            &mut self.gate.buckets,
            &mut self.gate.links,
            words,
            pat_slots,
            pat_cells,
            &mut streams.pids,
            &mut streams.buffers,
            input.into(),
            packet,
            &mut self.places,
            &mut finished,
        );
        match answer {
            Answer::FED => Ok(Fed { places: &self.places[..finished as usize * PLACE_WORDS], packet, buffers: &streams.buffers }),
            refused => Err(Refused(refused)),
        }
    }

    /// How many of the packets of 188 bytes at the front of some bytes that came on an input are passed over: each would finish nothing, and this call counts and
    /// leaves what as many feeds would. The next packet is for [`Demux::feed`]. 0 where that would refuse it.
    pub fn pass(&mut self, input: u8, packets: &[u8]) -> usize {
        let at = usize::from(input);
        if at >= self.streams.len() {
            return 0;
        }
        let streams = &mut self.streams[at];
        let Record { words, pat_slots, pat_cells } = self.gate.watches.of(input);
        calls::indexed_pass(
            &self.gate.state,
            &mut streams.state,
            &self.gate.keys,
            &self.gate.changes,
            &self.gate.buckets,
            &self.gate.links,
            words,
            pat_slots,
            pat_cells,
            &mut streams.pids,
            &streams.buffers,
            input.into(),
            packets,
            &self.places,
        ) as usize
    }

    /// Whether the PID is watched on the input.
    pub fn watches(&self, input: u8, pid: u16) -> bool {
        self.gate.watches(input, pid)
    }

    /// Settings and counters of the gate.
    pub fn state(&self) -> GateState {
        self.gate.state()
    }

    /// The streams of an input: buffers, packets and malformed packets.
    pub fn streams(&self, input: u8) -> StreamsState {
        self.streams.get(usize::from(input)).map_or(StreamsState::default(), |streams| streams.state)
    }
}

/// The sections that a packet finished: the gate's answer to each, and its bytes.
pub struct Fed<'a> {
    /// Of those that are still to come.
    places: &'a [u64],
    packet: &'a [u8],
    buffers: &'a [u8],
}

impl<'a> Iterator for Fed<'a> {
    type Item = (Offered, &'a [u8]);

    fn next(&mut self) -> Option<Self::Item> {
        let (place, rest) = self.places.split_at_checked(PLACE_WORDS)?;
        self.places = rest;
        let bytes = if place[PLACE_WHERE] == IN_PACKET { self.packet } else { self.buffers };
        let section = &bytes[place[PLACE_START] as usize..][..place[PLACE_LENGTH] as usize];
        let offered = match Answer(place[PLACE_ANSWER] as u8) {
            Answer::EMITTED => Offered::Emitted,
            Answer::SUPPRESSED => Offered::Suppressed,
            Answer::TOO_SHORT => Offered::TooShort(section.len()),
            _ => Offered::Mismatch { stored: place[PLACE_STORED] as u32, worked: place[PLACE_WORKED] as u32 },
        };
        Some((offered, section))
    }

    fn size_hint(&self) -> (usize, Option<usize>) {
        let count = self.places.len() / PLACE_WORDS;
        (count, Some(count))
    }
}

impl ExactSizeIterator for Fed<'_> {}
