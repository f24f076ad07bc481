//! The packet layer over lent memory, through both forms of the gate, and the two beside each other.
use crate::answer::{Answer, Fed, Finished, Judgement};
use crate::command::{Demux, Part};
use crate::gate::{Differs, Gates, Indexed, Plain, record, same_words, small};
use crate::lent::{Lent, words};
use petrizolu::{
    Answer as Number, BUFFER_BYTES, IN_BUFFERS, IN_PACKET, INPUTS, PID_WORDS, PLACE_ANSWER, PLACE_LENGTH, PLACE_START, PLACE_STORED,
    PLACE_WHERE, PLACE_WORDS, PLACE_WORKED, PLACES_WORDS, StreamsState, calls,
};

/// Rows of the gate, and section buffers of an input.
const ROWS: usize = 4096;
const BUFFERS: usize = 64;

/// What stands in the word for the number of sections before a packet, and no packet finishes as many.
const UNTOLD: u64 = u64::MAX;

/// The streams of an input.
#[derive(Clone, PartialEq)]
pub struct Streams {
    pub state: StreamsState,
    pub pids: Lent<u64>,
    pub buffers: Lent<u8>,
}

impl Streams {
    /// Memory for so many buffers, every byte of it `byte`; nothing is open.
    pub fn lend(buffers: usize, byte: u8) -> Self {
        Self { state: StreamsState::default(), pids: words(byte, PID_WORDS), buffers: Lent::new(byte, buffers * BUFFER_BYTES) }
    }

    pub fn open(&mut self, count: u64) -> Number {
        calls::streams_open(&mut self.state, count, &mut self.pids, &self.buffers)
    }
}

/// The places of the sections that a packet finished.
pub fn lend_places(byte: u8) -> Lent<u64> {
    words(byte, PLACES_WORDS)
}

impl Plain {
    /// Gives a packet of an input, with its streams.
    pub fn feed(&mut self, streams: &mut Streams, input: u32, packet: &[u8], places: &mut [u64], finished: &mut u64) -> Number {
        let watch = &mut self.watch[record(input)];
        calls::feed(
            &mut self.state,
            &mut streams.state,
            &mut self.keys,
            &mut self.changes,
            &mut watch.words,
            &mut watch.pat_slots,
            &mut watch.pat_cells,
            &mut streams.pids,
            &mut streams.buffers,
            input,
            packet,
            places,
            finished,
        )
    }
}

impl Indexed {
    /// As of the plain gate.
    pub fn feed(&mut self, streams: &mut Streams, input: u32, packet: &[u8], places: &mut [u64], finished: &mut u64) -> Number {
        let watch = &mut self.watch[record(input)];
        calls::indexed_feed(
            &mut self.state,
            &mut streams.state,
            &mut self.keys,
            &mut self.changes,
            &mut self.buckets,
            &mut self.links,
            &mut watch.words,
            &mut watch.pat_slots,
            &mut watch.pat_cells,
            &mut streams.pids,
            &mut streams.buffers,
            input,
            packet,
            places,
            finished,
        )
    }
}

/// What one form has besides its gate.
pub struct Form {
    pub streams: Vec<Streams>,
    pub places: Lent<u64>,
}

impl Form {
    fn lend(byte: u8) -> Self {
        Self { streams: (0..INPUTS).map(|_| Streams::lend(BUFFERS, byte)).collect(), places: lend_places(byte) }
    }
}

/// Both forms, each with memory of its own. Every command goes to both.
pub struct Demuxes {
    pub gates: Gates,
    pub plain: Form,
    pub indexed: Form,
}

impl Demuxes {
    /// Nothing is open, and no PID is watched; the other memory has bytes that are all `byte`.
    pub fn lend(byte: u8) -> Self {
        Self { gates: Gates::unopened(ROWS, byte), plain: Form::lend(byte), indexed: Form::lend(byte) }
    }

    /// Carries out a command on an input.
    pub fn answer(&mut self, input: u8, command: &Demux) -> Result<Answer, Differs> {
        let input = u32::from(input);
        let number = match command {
            Demux::Open(opening) => self.gates.open(input, opening)?,
            Demux::Streams(buffers) => self.open_streams(input, (*buffers).into())?,
            Demux::Packet(packet) => return self.feed(input, packet),
            Demux::Ask(pid) => self.gates.ask(input, *pid)?,
            Demux::Watched => return Ok(Answer::Watched(Part::Demux, self.gates.watched(input)?)),
        };
        Ok(Answer::Number(Part::Demux, number.0))
    }

    fn open_streams(&mut self, input: u32, count: u64) -> Result<Number, Differs> {
        let at = record(input);
        let plain = self.plain.streams[at].open(count);
        let indexed = self.indexed.streams[at].open(count);
        self.same_streams(at)?;
        self.gates.same(input, plain, indexed)
    }

    fn feed(&mut self, input: u32, packet: &[u8]) -> Result<Answer, Differs> {
        let at = record(input);
        let mut finished = [UNTOLD; 2];
        let before = self.plain.places.clone();
        let (plain, indexed) = (&mut self.plain, &mut self.indexed);
        let one = self.gates.plain.feed(&mut plain.streams[at], input, packet, &mut plain.places, &mut finished[0]);
        let other = self.gates.indexed.feed(&mut indexed.streams[at], input, packet, &mut indexed.places, &mut finished[1]);
        let number = self.gates.same(input, one, other)?;
        if finished[0] != finished[1] || self.plain.streams[at].state != self.indexed.streams[at].state {
            return Err(Differs(format!("plain finishes {}, indexed {}, or their counts differ", finished[0], finished[1])));
        }
        same_words("places", &self.plain.places, &self.indexed.places)?;
        let written = if number == Number::FED { finished[0] as usize * PLACE_WORDS } else { 0 };
        if (number == Number::FED) != (finished[0] != UNTOLD) || before[written..] != self.plain.places[written..] {
            return Err(Differs(format!("{number} tells {} sections, or writes other places", finished[0])));
        }
        if !matches!(number, Number::FED | Number::MALFORMED_PACKET | Number::NO_BUFFER) {
            return Ok(Answer::Number(Part::Demux, number.0));
        }
        let sections = self.plain.places[..written].chunks(PLACE_WORDS).map(|place| self.told(at, packet, place));
        let StreamsState { packets, malformed, .. } = self.plain.streams[at].state;
        Ok(Answer::Fed(Fed {
            number: number.0,
            packets: [packets, malformed],
            counters: self.gates.all_counters(),
            count: (written / PLACE_WORDS) as u64,
            sections: sections.collect::<Result<_, _>>()?,
        }))
    }

    /// The section that a place tells of, its bytes read from where it says.
    fn told(&self, at: usize, packet: &[u8], place: &[u64]) -> Result<Finished, Differs> {
        let part = |bytes: &[u8]| bytes[place[PLACE_START] as usize..][..place[PLACE_LENGTH] as usize].to_vec();
        let in_buffers = place[PLACE_WHERE] == IN_BUFFERS;
        let bytes = match place[PLACE_WHERE] {
            IN_PACKET => part(packet),
            IN_BUFFERS => part(&self.plain.streams[at].buffers),
            other => return Err(Differs(format!("a section in {other}"))),
        };
        if in_buffers && bytes != part(&self.indexed.streams[at].buffers) {
            return Err(Differs("the bytes of a section differ".into()));
        }
        let judgement = match (Number(place[PLACE_ANSWER] as u8), place[PLACE_STORED], place[PLACE_WORKED]) {
            (Number::EMITTED, 0, 0) => Judgement::Emitted,
            (Number::SUPPRESSED, 0, 0) => Judgement::Suppressed,
            (Number::CRC_MISMATCH, stored, worked) => Judgement::Mismatch(small(stored), small(worked)),
            (Number::TOO_SHORT, 0, 0) => Judgement::Short(bytes.len()),
            other => return Err(Differs(format!("a place tells {other:?}"))),
        };
        Ok(Finished { judgement, in_buffers, start: place[PLACE_START], bytes })
    }

    fn same_streams(&self, at: usize) -> Result<(), Differs> {
        let (plain, indexed) = (&self.plain.streams[at], &self.indexed.streams[at]);
        same_words("PID words", &plain.pids, &indexed.pids)?;
        same_words("section buffers", &plain.buffers, &indexed.buffers)
    }

    /// The words and buffers of all PIDs are many: they are compared at each opening and at the end.
    pub fn same_rows(&self) -> Result<(), Differs> {
        (0..INPUTS).try_for_each(|at| self.same_streams(at))?;
        self.gates.same_rows()
    }
}
