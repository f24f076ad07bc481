//! A gate of two rows, both in use, with keys of input 0, and the watch records of all inputs, that of input 0 with a PAT in its store.
use crate::{Case, Store, case};
use petrizolu::{Answer, CHANGE_STORED_CRC, DEFAULT_SETTINGS, FOLLOW_SECTIONS, Failure, GateState, INPUTS, WATCH_PAT_EVICTIONS};
use player::gate::Plain;

/// Complete PATs are followed, where a call does not say otherwise.
#[derive(Clone, Copy)]
pub enum Call {
    Offer,
    /// The PAT once more.
    OfferPat,
    Ask,
    Open,
    /// The watch record alone.
    Watch,
    /// The watch record, and then an offer.
    WatchOffer,
    /// The same where each changed PAT section is followed.
    OfferBySections,
    PatBySections,
    OpenBySections,
    WatchBySections,
    /// Where nothing is followed.
    OfferOff,
    /// After a refused opening, an offer to the store that was open.
    Former,
    /// After a refused opening, an offer to what was asked for.
    Anew,
}
use Call::*;

#[derive(Clone, PartialEq)]
pub struct Damaged {
    gate: Plain,
    input: u32,
    pid: u16,
}

/// A time and date section, the one that is offered to a damaged store.
const TDT: &[u8] = b"\x70\x70\x05\xC0\x79\x12\x45\x00";
/// A PAT that adds PID 0x0100 to the watch.
const PAT: &[u8] = b"\x00\xB0\x0D\x00\x01\xC1\x00\x00\x00\x01\xE1\x00\xE8\xF9\x5E\x7D";

/// The words of a record that its PAT store has: rows in use, then evictions, then the head of its row.
const PAT_ROWS: usize = 384;
const PAT_HEAD: usize = 386;
/// Of the head.
const PAT_STREAM: usize = PAT_HEAD + 2;
const PAT_LAST: usize = PAT_HEAD + 7;
const PAT_INPUT: usize = PAT_HEAD + 10;
/// The first slot, behind 32 words that a set collector does not use.
const PAT_SLOT: usize = 32;

const fn slot(length: u32, cell: u32) -> u32 {
    length << 16 | cell
}

/// The word `follow` of a gate.
const OFF: u64 = 0;
const TABLES: u64 = 1;
const SECTIONS: u64 = 2;

/// What is kept by value after an opening, and after `filled`.
const OPENED: GateState = GateState {
    capacity: 2,
    repeats: 0,
    follow: TABLES,
    change_rule: CHANGE_STORED_CRC,
    used: 0,
    first: 0,
    completed: 0,
    emitted: 0,
    suppressed: 0,
    crc_failures: 0,
    short_sections: 0,
    crc_mismatches: 0,
    evictions: 0,
};
const WHOLE: GateState = GateState { used: 2, completed: 2, emitted: 2, ..OPENED };

/// No section offered here fails its CRC, so nothing is told of a failure.
fn offer(gate: &mut Plain, input: u32, pid: u16, section: &[u8]) -> Answer {
    let mut failure = Failure::default();
    let answer = gate.offer(input, pid.into(), section, &mut failure);
    assert_eq!(failure, Failure::default());
    answer
}

impl Damaged {
    fn offer(&mut self) -> Answer {
        offer(&mut self.gate, self.input, self.pid, TDT)
    }

    fn offer_pat(&mut self) -> Answer {
        offer(&mut self.gate, self.input, 0, PAT)
    }

    /// An offer with another word `follow`. An offer writes no setting.
    fn following(&mut self, follow: u64, offer: fn(&mut Self) -> Answer) -> Answer {
        let before = std::mem::replace(&mut self.gate.state.follow, follow);
        let answer = offer(self);
        assert_eq!(std::mem::replace(&mut self.gate.state.follow, before), follow);
        answer
    }

    /// An opening with the capacity, the change rule and the PID that the case has. Whether a refusal left what is kept by value counts; what an opening makes of it
    /// does not, but its word `follow`.
    fn open(&mut self, settings: u32, capacity: u64, rule: u64) -> Answer {
        let before = self.gate.state;
        let answer = self.gate.open(0, capacity, settings, rule, &[self.pid]);
        if answer == Answer::DONE {
            assert_eq!(self.gate.state.follow, if settings == DEFAULT_SETTINGS { TABLES } else { SECTIONS });
            self.gate.state = before;
        }
        answer
    }

    fn open_watch(&mut self, settings: u32) -> Answer {
        self.gate.open_watch(0, settings, &[self.pid])
    }

    /// A refused opening and an offer on a PID, with this kept by value instead.
    fn refused(&mut self, state: GateState, pid: u16) -> Answer {
        let asked = self.gate.state;
        self.gate.state = state;
        assert_ne!(self.open(DEFAULT_SETTINGS, asked.capacity, asked.change_rule), Answer::DONE);
        let answer = offer(&mut self.gate, 0, pid, TDT);
        if self.gate.state == state {
            self.gate.state = asked;
        }
        answer
    }
}

impl Store for Damaged {
    type Call = Call;

    /// Two keys.
    fn filled() -> Self {
        let mut gate = Plain::lend(2, 0);
        assert_eq!(gate.open(0, 2, DEFAULT_SETTINGS, CHANGE_STORED_CRC, &[0x0014]), Answer::DONE);
        assert_eq!(gate.state, OPENED);
        assert_eq!((offer(&mut gate, 0, 0, PAT), offer(&mut gate, 0, 0x0014, TDT)), (Answer::EMITTED, Answer::EMITTED));
        assert_eq!(gate.state, WHOLE);
        for input in 1..INPUTS as u32 {
            assert_eq!(gate.open_watch(input, DEFAULT_SETTINGS, &[0x0014]), Answer::DONE);
        }
        Self { gate, input: 0, pid: 0x0014 }
    }

    fn name(call: Call) -> &'static str {
        match call {
            Offer => "offer",
            OfferPat => "offer the PAT",
            Ask => "ask",
            Open => "open",
            Watch => "open the watch",
            WatchOffer => "open the watch, offer",
            OfferBySections => "offer by sections",
            PatBySections => "offer the PAT by sections",
            OpenBySections => "open by sections",
            WatchBySections => "open the watch by sections",
            OfferOff => "offer, following off",
            Former => "open, offer to the store before",
            Anew => "open, offer to what it gave back",
        }
    }

    fn call(&mut self, call: Call) -> Answer {
        let asked = self.gate.state;
        match call {
            Offer => self.offer(),
            OfferPat => self.offer_pat(),
            Ask => self.gate.ask(0, self.pid.into()),
            Open => self.open(DEFAULT_SETTINGS, asked.capacity, asked.change_rule),
            Watch => self.open_watch(DEFAULT_SETTINGS),
            WatchOffer => {
                assert_eq!(self.open_watch(DEFAULT_SETTINGS), Answer::DONE);
                self.offer()
            }
            OfferBySections => self.following(SECTIONS, Self::offer),
            PatBySections => self.following(SECTIONS, Self::offer_pat),
            OpenBySections => self.open(DEFAULT_SETTINGS | FOLLOW_SECTIONS, asked.capacity, asked.change_rule),
            WatchBySections => self.open_watch(DEFAULT_SETTINGS | FOLLOW_SECTIONS),
            OfferOff => self.following(OFF, Self::offer),
            Former => self.refused(WHOLE, 0x0014),
            Anew => self.refused(GateState { capacity: asked.capacity, change_rule: asked.change_rule, ..OPENED }, self.pid),
        }
    }
}

const ALL: &[Call] = &[Offer, Ask, Open, Watch];
/// In all manners of following.
const MANNERS: &[Call] = &[Offer, OfferPat, Ask, Open, Watch, OfferBySections, PatBySections, OpenBySections, WatchBySections, OfferOff];
/// Those on the PID of the case.
const ON_THE_PID: &[Call] = &[Offer, Open, Watch, OfferBySections, OpenBySections, WatchBySections, OfferOff];
/// Those on the input of the case.
const ON_THE_INPUT: &[Call] = &[Offer, OfferPat, OfferBySections, PatBySections, OfferOff];

pub const CASES: &[Case<Damaged>] = &[
    case("nothing damaged", ALL, |_| {}),
    // 10: used above room, first not below it. Capacity 0 has room for one key.
    case("3 rows used of 2", ALL, |d| d.gate.state.used = 3),
    case("first row 2 of 2", ALL, |d| d.gate.state.first = 2),
    case("2 rows used, capacity 0", ALL, |d| d.gate.state.capacity = 0),
    case("1 row used, capacity 0", ALL, |d| d.gate.state = GateState { capacity: 0, used: 1, ..WHOLE }),
    // 10 and 13: less lent than the settings need.
    case("keys of 1 row", ALL, |d| d.gate.keys.lend(1)),
    case("changes of 1 row", ALL, |d| d.gate.changes.lend(1)),
    case("383 words of the watch", ALL, |d| d.gate.watch[0].words.lend(383)),
    case("capacity 3", ALL, |d| d.gate.state.capacity = 3),
    case("capacity 2^64 - 1", ALL, |d| d.gate.state.capacity = u64::MAX),
    // 10 and 13: a change rule that there is not.
    case("change rule 0", ALL, |d| d.gate.state.change_rule = 0),
    case("change rule 3", ALL, |d| d.gate.state.change_rule = 3),
    case("change rule 2^64 - 1", ALL, |d| d.gate.state.change_rule = u64::MAX),
    case("change rule 0, PID 8192", ALL, |d| {
        d.gate.state.change_rule = 0;
        d.pid = 8192;
    }),
    // 11: each of the seven counters at its end.
    case("completed at its end", ALL, |d| d.gate.state.completed = u64::MAX),
    case("emitted at its end", ALL, |d| d.gate.state.emitted = u64::MAX),
    case("suppressed at its end", ALL, |d| d.gate.state.suppressed = u64::MAX),
    case("CRC failures at their end", ALL, |d| d.gate.state.crc_failures = u64::MAX),
    case("short sections at their end", ALL, |d| d.gate.state.short_sections = u64::MAX),
    case("CRC mismatches at their end", ALL, |d| d.gate.state.crc_mismatches = u64::MAX),
    case("evictions at their end", ALL, |d| d.gate.state.evictions = u64::MAX),
    // 12, and the lower number first.
    case("PID 8192", ALL, |d| d.pid = 8192),
    case("PID 8192, completed at its end", ALL, |d| {
        d.pid = 8192;
        d.gate.state.completed = u64::MAX;
    }),
    case("PID 8192, completed at its end, 3 rows used of 2", ALL, |d| {
        d.pid = 8192;
        d.gate.state = GateState { used: 3, completed: u64::MAX, ..WHOLE };
    }),
    case("completed one below its end", ALL, |d| d.gate.state.completed = u64::MAX - 1),
    // 37, after 12. A key of another input is another key.
    case("input 1", &[Offer], |d| d.input = 1),
    case("input 15", &[Offer], |d| d.input = 15),
    case("input 16", &[Offer], |d| d.input = 16),
    case("input 255", &[Offer], |d| d.input = 255),
    case("input 256", &[Offer], |d| d.input = 256),
    case("input 2^32 - 1", &[Offer], |d| d.input = u32::MAX),
    case("input 255, PID 8192", &[Offer], |d| (d.input, d.pid) = (255, 8192)),
    case("input 16, completed at its end", &[Offer], |d| {
        d.input = 16;
        d.gate.state.completed = u64::MAX;
    }),
    case("input 16, 3 rows used of 2", &[Offer], |d| {
        d.input = 16;
        d.gate.state.used = 3;
    }),
    case("input 16, PID 8192, completed at its end, 3 rows used of 2", &[Offer], |d| {
        (d.input, d.pid) = (16, 8192);
        d.gate.state = GateState { used: 3, completed: u64::MAX, ..WHOLE };
    }),
    // What no history leaves and the rules do not name: the rules as they are written, first matching row.
    case("a key of 2^64 - 1", ALL, |d| d.gate.keys[1] = u64::MAX),
    case("a version and change number of 2^64 - 1", ALL, |d| d.gate.changes[1] = u64::MAX),
    case("the first word of the watch 0", ALL, |d| d.gate.watch[0].words[0] = 0),
    case("64 PIDs followed that no PAT named", ALL, |d| d.gate.watch[0].words[300] = u64::MAX),
    case("first row 1", ALL, |d| d.gate.state.first = 1),
    case("no row used, first row 1", ALL, |d| d.gate.state = GateState { used: 0, first: 1, ..WHOLE }),
    // After an opening that was refused, by 13 and by 12.
    case("capacity 3", &[Former, Anew], |d| d.gate.state.capacity = 3),
    case("keys of 1 row", &[Anew], |d| d.gate.keys.lend(1)),
    case("383 words of the watch", &[Anew], |d| d.gate.watch[0].words.lend(383)),
    case("change rule 3", &[Former, Anew], |d| d.gate.state.change_rule = 3),
    case("PID 8192", &[Former], |d| d.pid = 8192),
    // The PAT store. 10: rows in use above 1, a kept length outside 12 to 1,024 or a cell past the last in a row in use; where complete PATs are not followed, nobody looks.
    case("a PAT", MANNERS, |_| {}),
    case("2 PAT rows used", MANNERS, |d| d.gate.watch[0].words[PAT_ROWS] = 2),
    case("2^64 - 1 PAT rows used", MANNERS, |d| d.gate.watch[0].words[PAT_ROWS] = u64::MAX),
    case("a PAT section of 1 byte", MANNERS, |d| d.gate.watch[0].pat_slots[PAT_SLOT] = slot(1, 0)),
    case("a PAT section of 11 bytes", MANNERS, |d| d.gate.watch[0].pat_slots[PAT_SLOT] = slot(11, 0)),
    case("a PAT section of 1,025 bytes", MANNERS, |d| d.gate.watch[0].pat_slots[PAT_SLOT] = slot(1025, 0)),
    case("a PAT section of 65,535 bytes", MANNERS, |d| d.gate.watch[0].pat_slots[PAT_SLOT] = slot(65_535, 0)),
    case("a PAT section in cell 256", MANNERS, |d| d.gate.watch[0].pat_slots[PAT_SLOT] = slot(16, 256)),
    case("a PAT section in cell 65,535", MANNERS, |d| d.gate.watch[0].pat_slots[PAT_SLOT] = slot(16, 65_535)),
    case("a PAT of 256 sections, the last of 11 bytes", MANNERS, |d| {
        d.gate.watch[0].words[PAT_LAST] = u64::MAX;
        d.gate.watch[0].pat_slots[PAT_SLOT + 255] = slot(11, 0);
    }),
    // An opening mends what the words say of the store, and a row that is not in use is not looked at.
    case("2 PAT rows used", &[WatchOffer], |d| d.gate.watch[0].words[PAT_ROWS] = 2),
    case("a PAT section in cell 256", &[WatchOffer], |d| d.gate.watch[0].pat_slots[PAT_SLOT] = slot(16, 256)),
    case("PAT evictions at their end", &[WatchOffer], |d| d.gate.watch[0].words[WATCH_PAT_EVICTIONS] = u64::MAX),
    // 10 and 13: less of the record lent than complete PATs need; by sections 384 words are enough.
    case("397 words of the record", MANNERS, |d| d.gate.watch[0].words.lend(397)),
    case("384 words of the record", MANNERS, |d| d.gate.watch[0].words.lend(384)),
    case("383 words of the record", MANNERS, |d| d.gate.watch[0].words.lend(383)),
    case("287 PAT slots", MANNERS, |d| d.gate.watch[0].pat_slots.lend(287)),
    case("no PAT slots", MANNERS, |d| d.gate.watch[0].pat_slots.lend(0)),
    case("262,143 PAT cells", MANNERS, |d| d.gate.watch[0].pat_cells.lend(262_143)),
    case("no PAT cells", MANNERS, |d| d.gate.watch[0].pat_cells.lend(0)),
    case("287 PAT slots", &[Former, Anew], |d| d.gate.watch[0].pat_slots.lend(287)),
    // 11: a count of the PAT store at its end.
    case("PAT evictions at their end", MANNERS, |d| d.gate.watch[0].words[WATCH_PAT_EVICTIONS] = u64::MAX),
    case("the PAT row's tick at its end", MANNERS, |d| d.gate.watch[0].words[PAT_HEAD + 9] = u64::MAX),
    case("the PAT row's tick at its end, no PAT row used", MANNERS, |d| {
        d.gate.watch[0].words[PAT_HEAD + 9] = u64::MAX;
        d.gate.watch[0].words[PAT_ROWS] = 0;
    }),
    case("PAT evictions one below their end", MANNERS, |d| d.gate.watch[0].words[WATCH_PAT_EVICTIONS] = u64::MAX - 1),
    // The lower number first.
    case("PAT evictions at their end, 2 PAT rows used", MANNERS, |d| {
        d.gate.watch[0].words[PAT_ROWS] = 2;
        d.gate.watch[0].words[WATCH_PAT_EVICTIONS] = u64::MAX;
    }),
    case("PAT evictions at their end, 3 rows used of 2", &[Offer, OfferBySections, OfferOff], |d| {
        d.gate.state.used = 3;
        d.gate.watch[0].words[WATCH_PAT_EVICTIONS] = u64::MAX;
    }),
    case("2 PAT rows used, completed at its end", &[Offer, OfferBySections, OfferOff], |d| {
        d.gate.state.completed = u64::MAX;
        d.gate.watch[0].words[PAT_ROWS] = 2;
    }),
    case("PAT evictions at their end, PID 8192", ON_THE_PID, |d| {
        d.pid = 8192;
        d.gate.watch[0].words[WATCH_PAT_EVICTIONS] = u64::MAX;
    }),
    case("397 words of the record, PID 8192", ON_THE_PID, |d| {
        d.pid = 8192;
        d.gate.watch[0].words.lend(397);
    }),
    case("PAT evictions at their end, input 16", ON_THE_INPUT, |d| {
        d.input = 16;
        d.gate.watch[0].words[WATCH_PAT_EVICTIONS] = u64::MAX;
    }),
    case("2 PAT rows used, input 16", ON_THE_INPUT, |d| {
        d.input = 16;
        d.gate.watch[0].words[PAT_ROWS] = 2;
    }),
    // The record of the input is looked at, and no other.
    case("2 PAT rows used on input 0, input 1", ON_THE_INPUT, |d| {
        d.input = 1;
        d.gate.watch[0].words[PAT_ROWS] = 2;
    }),
    case("2 PAT rows used on input 1, input 1", ON_THE_INPUT, |d| {
        d.input = 1;
        d.gate.watch[1].words[PAT_ROWS] = 2;
    }),
    case("2 PAT rows used on input 1, input 0", ON_THE_INPUT, |d| d.gate.watch[1].words[PAT_ROWS] = 2),
    // The word `follow`: 0 is off, 2 by sections, any other by complete PATs.
    case("follow 3", &[Offer, OfferPat], |d| d.gate.state.follow = 3),
    case("follow 3, 397 words of the record", &[Offer, OfferPat], |d| {
        d.gate.state.follow = 3;
        d.gate.watch[0].words.lend(397);
    }),
    case("follow 2^64 - 1, 397 words of the record", &[Offer, OfferPat], |d| {
        d.gate.state.follow = u64::MAX;
        d.gate.watch[0].words.lend(397);
    }),
    case("follow 2, 384 words of the record", &[Offer, OfferPat], |d| {
        d.gate.state.follow = SECTIONS;
        d.gate.watch[0].words.lend(384);
    }),
    // No damage: at the limits, past the row's last slot, in the words that a set collector does not use, in a row that is not in use, in a head.
    case("a PAT section of 12 bytes in cell 255", MANNERS, |d| d.gate.watch[0].pat_slots[PAT_SLOT] = slot(12, 255)),
    case("a PAT section of 1,024 bytes in cell 255", MANNERS, |d| d.gate.watch[0].pat_slots[PAT_SLOT] = slot(1024, 255)),
    case("11 bytes past the PAT's last section", MANNERS, |d| d.gate.watch[0].pat_slots[PAT_SLOT + 1] = slot(11, 65_535)),
    case("a segment number in the PAT's row", MANNERS, |d| d.gate.watch[0].pat_slots[0] = u32::MAX),
    case("no PAT row used, a section of 11 bytes in cell 65,535", MANNERS, |d| {
        d.gate.watch[0].words[PAT_ROWS] = 0;
        d.gate.watch[0].pat_slots[PAT_SLOT] = slot(11, 65_535);
    }),
    case("a PAT of 2^64 sections", MANNERS, |d| d.gate.watch[0].words[PAT_LAST] = u64::MAX),
    case("a PAT of input 16", MANNERS, |d| d.gate.watch[0].words[PAT_INPUT] = 16),
    case("a PAT of another stream", MANNERS, |d| d.gate.watch[0].words[PAT_STREAM] = u64::MAX),
    case("a PAT of another stream, evictions one below their end", MANNERS, |d| {
        d.gate.watch[0].words[PAT_STREAM] = 2;
        d.gate.watch[0].words[WATCH_PAT_EVICTIONS] = u64::MAX - 1;
    }),
];
