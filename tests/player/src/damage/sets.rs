//! A set collector of three rows, two in use, and four cells of 64 bytes.
use crate::{Case, Opens, Store, case, told};
use petrizolu::{Answer, NO_PID, SetsState, listed_section};
use player::sets::Sets;

#[derive(Clone, Copy)]
pub enum Call {
    Push,
    /// The same section as a list.
    All,
    Next,
    Clear,
    Open,
    /// After a refused opening, a push to the store that was open.
    Former,
    /// After a refused opening, a push to what was asked for.
    Anew,
}
use Call::*;

#[derive(Clone, PartialEq)]
pub struct Damaged {
    sets: Sets,
    input: u32,
    pid: u32,
    row: u64,
    /// What stands in a list behind the section.
    behind: &'static [u8],
}

/// The only section of a set.
const ONLY: &[u8] = b"\x42\xB0\x0D\x00\x01\xC1\x00\x00\xAA\xAA\xAA\xAA\xAB\x3D\x3D\xBD";
/// The first section of another set, of two.
const FIRST: &[u8] = b"\x42\xB0\x0D\x00\x02\xC1\x00\x01\xB0\xB0\xB0\xB0\xF5\xB8\x1C\xB0";
/// The second of the two, which is pushed to a damaged store.
const SECOND: &[u8] = b"\x42\xB0\x0D\x00\x02\xC1\x01\x01\xB1\xB1\xB1\xB1\xE5\xFD\xFB\x93";

/// What is kept by value after `filled`.
const WHOLE: SetsState = SetsState { limit: 3, size: 64, count: 4, used: 2, evictions: 0, clock: 2 };

impl Damaged {
    fn push(&mut self) -> Answer {
        self.sets.push(self.input, self.pid, SECOND).0
    }

    /// Of a list of one section all is taken or nothing, and nothing by a refusal of the list or of the store.
    fn push_all(&mut self) -> Answer {
        let (input, pid) = (u8::try_from(self.input).expect("a byte"), u16::try_from(self.pid).expect("two bytes"));
        let list = [&listed_section(input, pid, SECOND).expect("16 bytes"), self.behind].concat();
        let (answer, row, taken) = self.sets.push_all(&list);
        let refused = [Answer::NOT_WHOLE, Answer::COUNTER_FULL, Answer::NO_PID_GIVEN, Answer::OVERLONG_SECTION].contains(&answer);
        assert_eq!(taken, if refused { 0 } else { list.len() as u64 }, "what is taken after {answer}");
        assert!(answer == Answer::SET || row == 0, "a row after {answer}");
        answer
    }
}

impl Opens for Damaged {
    type State = SetsState;

    fn state(&mut self) -> &mut SetsState {
        &mut self.sets.state
    }

    fn opened(&mut self, asked: SetsState) -> Answer {
        self.sets.open(asked.limit, asked.size, asked.count)
    }
}

impl Store for Damaged {
    type Call = Call;

    /// Row 0 has a set that went out, row 1 the first of two sections.
    fn filled() -> Self {
        let mut sets = Sets::lend(3, 256, 0);
        let answers = (sets.open(3, 64, 4), sets.push(0, 0x0011, ONLY), sets.push(0, 0x0011, FIRST).0);
        assert_eq!(answers, (Answer::DONE, (Answer::SET, 0), Answer::NOTHING));
        assert_eq!(sets.state, WHOLE);
        Self { sets, input: 0, pid: 0x0011, row: 0, behind: &[] }
    }

    fn name(call: Call) -> &'static str {
        match call {
            Push => "push",
            All => "push all",
            Next => "next section",
            Clear => "clear",
            Open => "open",
            Former => "open, push to the store before",
            Anew => "open, push to what it gave back",
        }
    }

    fn call(&mut self, call: Call) -> Answer {
        let asked = self.sets.state;
        match call {
            Push => self.push(),
            All => self.push_all(),
            Next => told(|place| self.sets.next(self.row, 0, place)),
            Clear => self.sets.clear(),
            Open => self.open(asked),
            Former => self.refused(WHOLE, Self::push),
            Anew => self.refused(SetsState { used: 0, evictions: 0, clock: 0, ..asked }, Self::push),
        }
    }
}

const ALL: &[Call] = &[Push, All, Next, Clear, Open];
/// Where the input or the PID is none that a list can say.
const UNLISTED: &[Call] = &[Push, Next, Clear, Open];

/// The word of a slot with a kept length of 16 bytes, those of the sections here.
const KEPT: u32 = 16 << 16;

pub const CASES: &[Case<Damaged>] = &[
    case("nothing damaged", ALL, |_| {}),
    // 10 and 13: settings that opening refuses, and used above the limit.
    case("cell size 11", ALL, |d| d.sets.state.size = 11),
    case("cell size 4097, no cells", ALL, |d| d.sets.state = SetsState { size: 4097, count: 0, ..WHOLE }),
    case("cell size 4096, no cells", ALL, |d| d.sets.state = SetsState { size: 4096, count: 0, ..WHOLE }),
    case("65536 cells", ALL, |d| d.sets.state.count = 65536),
    case("limit 4", ALL, |d| d.sets.state.limit = 4),
    case("limit 2^64 - 1", ALL, |d| d.sets.state.limit = u64::MAX),
    case("4 rows used of 3", ALL, |d| d.sets.state.used = 4),
    // 10 and 13: a lent slice too short by one.
    case("35 words of heads", ALL, |d| d.sets.heads.lend(35)),
    case("863 words of slots", ALL, |d| d.sets.slots.lend(863)),
    case("255 bytes of cells", ALL, |d| d.sets.cells.lend(255)),
    // 10: a filled slot of a row in use whose cell number is past the last, or whose kept length is not within 12 to the cell size.
    case("a slot that names cell 4 of 4", ALL, |d| d.sets.slots[32] = KEPT + 4),
    case("a slot that names cell 65535", ALL, |d| d.sets.slots[32] = KEPT + 65535),
    case("a kept length of 11", ALL, |d| d.sets.slots[32] = 11 << 16),
    case("a kept length of 65", ALL, |d| d.sets.slots[32] = 65 << 16),
    case("a kept length of 11 in a slot that was empty", ALL, |d| d.sets.slots[321] = 11 << 16),
    // Not 10: what stands in no slot of a row in use, a slot of length 0, and lengths within the bounds.
    case("a slot of length 0 that names cell 65535", ALL, |d| d.sets.slots[32] = 65535),
    case("a kept length of 12", ALL, |d| d.sets.slots[32] = 12 << 16),
    case("a kept length of 64", ALL, |d| d.sets.slots[32] = 64 << 16),
    case("a kept length of 11 past the row's last slot", ALL, |d| d.sets.slots[33] = 11 << 16),
    case("a kept length of 11 in a row not in use", ALL, |d| d.sets.slots[608] = 11 << 16),
    case("a segment's word of 2^32 - 1", ALL, |d| d.sets.slots[0] = u32::MAX),
    case("a cell named twice", ALL, |d| d.sets.slots[321] = KEPT),
    // Heads that no history leaves and the rules do not name: the rules as they are written, first matching row.
    case("a PID of 9000 in a head", ALL, |d| d.sets.heads[12] = 9000),
    case("a key that stands twice", ALL, |d| d.sets.heads[2] = 2),
    case("a last_section_number of 300", ALL, |d| d.sets.heads[19] = 300),
    case("a version of 2^64 - 1", ALL, |d| d.sets.heads[18] = u64::MAX),
    case("a mark on a row that is not full", ALL, |d| d.sets.heads[20] = 7),
    case("a tick of 2^64 - 1", ALL, |d| d.sets.heads[9] = u64::MAX),
    case("two rows of one tick", ALL, |d| d.sets.heads[9] = 2),
    case("a clock below a tick in use", ALL, |d| d.sets.state.clock = 0),
    // 11, 12, and the lower number first; limit 0.
    case("evictions at their end", ALL, |d| d.sets.state.evictions = u64::MAX),
    case("evictions one below their end", ALL, |d| d.sets.state.evictions = u64::MAX - 1),
    case("the clock at its end", ALL, |d| d.sets.state.clock = u64::MAX),
    case("the clock one below its end", ALL, |d| d.sets.state.clock = u64::MAX - 1),
    case("PID 8192", ALL, |d| d.pid = 8192),
    case("PID 8192, evictions at their end", ALL, |d| {
        d.pid = 8192;
        d.sets.state.evictions = u64::MAX;
    }),
    case("PID 8192, evictions at their end, 4 rows used of 3", ALL, |d| {
        d.pid = 8192;
        d.sets.state = SetsState { used: 4, evictions: u64::MAX, ..WHOLE };
    }),
    // 41, after 11 and before 12: no PID given, or 8192 in the head of a row in use, whichever it is.
    case("no PID", UNLISTED, |d| d.pid = NO_PID),
    case("no PID, input 16", UNLISTED, |d| (d.input, d.pid) = (16, NO_PID)),
    case("no PID, limit 0", UNLISTED, |d| {
        d.pid = NO_PID;
        d.sets.state = SetsState { limit: 0, used: 0, ..WHOLE };
    }),
    case("no PID, evictions at their end", UNLISTED, |d| {
        d.pid = NO_PID;
        d.sets.state.evictions = u64::MAX;
    }),
    case("no PID, 4 rows used of 3", UNLISTED, |d| {
        d.pid = NO_PID;
        d.sets.state.used = 4;
    }),
    case("a PID of 8192 in the first head", ALL, |d| d.sets.heads[0] = 8192),
    case("a PID of 8192 in the last head in use", ALL, |d| d.sets.heads[12] = 8192),
    case("a PID of 8192 in both heads in use", ALL, |d| (d.sets.heads[0], d.sets.heads[12]) = (8192, 8192)),
    case("a PID of 8192 in a head not in use", ALL, |d| d.sets.heads[24] = 8192),
    case("a PID of 8192 in the first head, no row used", ALL, |d| {
        d.sets.heads[0] = 8192;
        d.sets.state.used = 0;
    }),
    case("a PID of 8192 in a head, PID 9000", ALL, |d| (d.sets.heads[12], d.pid) = (8192, 9000)),
    case("a PID of 8192 in a head, no PID", UNLISTED, |d| (d.sets.heads[12], d.pid) = (8192, NO_PID)),
    case("a PID of 8192 in a head, input 16", ALL, |d| (d.sets.heads[12], d.input) = (8192, 16)),
    case("a PID of 8192 in a head, row 2", ALL, |d| (d.sets.heads[12], d.row) = (8192, 2)),
    case("a PID of 8192 in a head, evictions at their end", ALL, |d| {
        d.sets.heads[12] = 8192;
        d.sets.state.evictions = u64::MAX;
    }),
    case("a PID of 8192 in a head, 4 rows used of 3", ALL, |d| {
        d.sets.heads[12] = 8192;
        d.sets.state.used = 4;
    }),
    case("a PID of 8192 in a head, a kept length of 11", ALL, |d| (d.sets.heads[12], d.sets.slots[32]) = (8192, 11 << 16)),
    // No 41: words that are no PID that a call can give, and 8192 elsewhere in a head.
    case("a PID of 8191 in a head", ALL, |d| d.sets.heads[12] = 8191),
    case("a PID of 8193 in a head", ALL, |d| d.sets.heads[12] = 8193),
    case("a PID of 2^64 - 1 in a head", ALL, |d| d.sets.heads[12] = u64::MAX),
    case("a PID of 2^32 + 8192 in a head", ALL, |d| d.sets.heads[12] = (1 << 32) + 8192),
    case("a table_id and an extension of 8192 in a head", ALL, |d| (d.sets.heads[13], d.sets.heads[14]) = (8192, 8192)),
    // 37, after 12; and an input that no call can give, which no section has: its row is met by none.
    case("input 1", ALL, |d| d.input = 1),
    case("input 16", ALL, |d| d.input = 16),
    case("input 256", UNLISTED, |d| d.input = 256),
    case("input 255, PID 8192", ALL, |d| (d.input, d.pid) = (255, 8192)),
    case("input 16, evictions at their end", ALL, |d| {
        d.input = 16;
        d.sets.state.evictions = u64::MAX;
    }),
    case("an input of 16 in a head", ALL, |d| d.sets.heads[22] = 16),
    case("an input of 2^64 - 1 in a head", ALL, |d| d.sets.heads[22] = u64::MAX),
    case("limit 0, 2 rows used", ALL, |d| d.sets.state.limit = 0),
    case("limit 0, no row used", ALL, |d| d.sets.state = SetsState { limit: 0, used: 0, ..WHOLE }),
    // Of a list, judged before the store: cut (10), with a section of more than 4,098 bytes (42), the first bad one deciding.
    case("a list that is cut", &[All], |d| d.behind = b"\x00\x00\x11\x00"),
    case("a list with an overlong section", &[All], |d| d.behind = b"\x00\x00\x11\x10\x03"),
    case("a list with an overlong section, then cut", &[All], |d| d.behind = b"\x00\x00\x11\x10\x03\x00"),
    case("a list with an overlong section, 4 rows used of 3", &[All], |d| {
        d.behind = b"\x00\x00\x11\x10\x03";
        d.sets.state.used = 4;
    }),
    case("a list with an overlong section, a PID of 8192 in a head", &[All], |d| {
        d.behind = b"\x00\x00\x11\x10\x03";
        d.sets.heads[12] = 8192;
    }),
    case("a list that is cut, evictions at their end", &[All], |d| {
        d.behind = b"\x00";
        d.sets.state.evictions = u64::MAX;
    }),
    // 9: a row that is not in use has no section.
    case("row 2", &[Next], |d| d.row = 2),
    case("row 2^64 - 1", &[Next], |d| d.row = u64::MAX),
    case("no row used", &[Next], |d| d.sets.state.used = 0),
    // After an opening that was refused.
    case("limit 4", &[Former, Anew], |d| d.sets.state.limit = 4),
    case("cell size 11", &[Former, Anew], |d| d.sets.state.size = 11),
    case("255 bytes of cells", &[Anew], |d| d.sets.cells.lend(255)),
];
