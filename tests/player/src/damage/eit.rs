//! An EIT collector of three rows and three schedules, two and one in use, and four cells of 64 bytes.
use crate::{Case, Opens, Store, case, told};
use petrizolu::{Answer, EitState, Filter, NO_PID, listed_section};
use player::eit::Eit;

#[derive(Clone, Copy)]
pub enum Call {
    Push,
    /// The same section as a list.
    All,
    Drop,
    /// A drop of a kind, whatever the PID.
    DropKind,
    /// A drop of an input and a PID.
    DropInput,
    Next,
    Table,
    Clear,
    Open,
    /// After a refused opening, a push to the store that was open.
    Former,
    /// After a refused opening, a push to what was asked for.
    Anew,
}
use Call::*;

#[derive(Clone, PartialEq)]
pub struct Damaged {
    eit: Eit,
    input: u32,
    pid: u32,
    kind: u64,
    row: u64,
    table: u64,
}

/// A present/following set of one section.
const PRESENT: &[u8] = b"\x4E\xB0\x0F\x00\x01\xC1\x00\x00\x00\x01\x00\x01\x00\x4E\xCC\x8F\x87\x8E";
/// A schedule of one table of one section.
const SCHEDULE: &[u8] = b"\x50\xB0\x0F\x00\x01\xC1\x00\x00\x00\x01\x00\x01\x00\x50\x72\xA5\x90\x6F";
/// The schedule's next version, which is pushed to a damaged store.
const VERSION: &[u8] = b"\x50\xB0\x0F\x00\x01\xC3\x00\x00\x00\x01\x00\x01\x00\x50\x92\x65\xD9\x14";

/// What is kept by value after `filled`.
const WHOLE: EitState = EitState { limit: 3, size: 64, count: 4, used: 2, evictions: 0, schedules: 1, schedule_evictions: 0, clock: 2 };

impl Damaged {
    fn push(&mut self) -> Answer {
        self.eit.push(self.input, self.pid, VERSION).0
    }

    /// Of a list of one section all is taken or nothing, and nothing by a refusal of the store.
    fn push_all(&mut self) -> Answer {
        let (input, pid) = (u8::try_from(self.input).expect("a byte"), u16::try_from(self.pid).expect("two bytes"));
        let list = listed_section(input, pid, VERSION).expect("18 bytes");
        let (answer, _, taken) = self.eit.push_all(&list);
        let refused = [Answer::NOT_WHOLE, Answer::COUNTER_FULL, Answer::NO_PID_GIVEN].contains(&answer);
        assert_eq!(taken, if refused { 0 } else { list.len() as u64 }, "what is taken after {answer}");
        answer
    }
}

impl Opens for Damaged {
    type State = EitState;

    fn state(&mut self) -> &mut EitState {
        &mut self.eit.state
    }

    fn opened(&mut self, asked: EitState) -> Answer {
        self.eit.open(asked.limit, asked.size, asked.count)
    }
}

impl Store for Damaged {
    type Call = Call;

    /// Sets in rows 0 and 1, a schedule in row 0; both went out.
    fn filled() -> Self {
        let mut eit = Eit::lend(3, 256, 0);
        let answers = (eit.open(3, 64, 4), eit.push(0, 0x0012, PRESENT), eit.push(0, 0x0012, SCHEDULE));
        assert_eq!(answers, (Answer::DONE, (Answer::SET, 0), (Answer::SCHEDULE, 0)));
        assert_eq!(eit.state, WHOLE);
        Self { eit, input: 0, pid: 0x0012, kind: 0, row: 0, table: 0 }
    }

    fn name(call: Call) -> &'static str {
        match call {
            Push => "push",
            All => "push all",
            Drop => "drop",
            DropKind => "drop of a kind",
            DropInput => "drop of an input",
            Next => "next section",
            Table => "next in the schedule",
            Clear => "clear",
            Open => "open",
            Former => "open, push to the store before",
            Anew => "open, push to what it gave back",
        }
    }

    fn call(&mut self, call: Call) -> Answer {
        let asked = self.eit.state;
        match call {
            Push => self.push(),
            All => self.push_all(),
            Drop => self.eit.drop_matching(&Filter { pid: self.pid.into(), ..Filter::ALL }),
            DropKind => self.eit.drop_matching(&Filter { kind: self.kind, ..Filter::ALL }),
            DropInput => self.eit.drop_matching(&Filter { input: self.input.into(), pid: self.pid.into(), ..Filter::ALL }),
            Next => told(|place| self.eit.next(self.row, 0, place)),
            Table => told(|place| self.eit.next_in_schedule(self.row, self.table, 0, place)),
            Clear => self.eit.clear(),
            Open => self.open(asked),
            Former => self.refused(WHOLE, Self::push),
            Anew => self.refused(EitState { used: 0, evictions: 0, schedules: 0, schedule_evictions: 0, clock: 0, ..asked }, Self::push),
        }
    }
}

const ALL: &[Call] = &[Push, All, Drop, Next, Table, Clear, Open];
const KIND: &[Call] = &[DropKind];
const INPUT: &[Call] = &[Push, DropInput];
const PIDS: &[Call] = &[Push, Drop, DropKind, DropInput, Next, Table, Clear, Open];

/// The word of a slot with a kept length of 18 bytes, those of the sections here.
const KEPT: u32 = 18 << 16;

pub const CASES: &[Case<Damaged>] = &[
    case("nothing damaged", ALL, |_| {}),
    // 10 and 13: settings that opening refuses, and counts above the limit.
    case("cell size 11", ALL, |d| d.eit.state.size = 11),
    case("cell size 4097, no cells", ALL, |d| d.eit.state = EitState { size: 4097, count: 0, ..WHOLE }),
    case("65536 cells", ALL, |d| d.eit.state.count = 65536),
    case("limit 4", ALL, |d| d.eit.state.limit = 4),
    case("4 rows used of 3", ALL, |d| d.eit.state.used = 4),
    case("4 schedules of 3", ALL, |d| d.eit.state.schedules = 4),
    // 10 and 13: a lent slice too short by one.
    case("35 words of heads", ALL, |d| d.eit.heads.lend(35)),
    case("863 words of slots", ALL, |d| d.eit.slots.lend(863)),
    case("255 bytes of cells", ALL, |d| d.eit.cells.lend(255)),
    case("35 words of schedule heads", ALL, |d| d.eit.schedule_heads.lend(35)),
    case("13823 words of units", ALL, |d| d.eit.units.lend(13823)),
    // 10: a filled slot of a row in use, or of a table that a schedule in use has, whose cell number is past the last or whose kept length is not
    // within 12 to the cell size.
    case("a set's slot that names cell 4 of 4", ALL, |d| d.eit.slots[32] = KEPT + 4),
    case("a set's kept length of 11", ALL, |d| d.eit.slots[32] = 11 << 16),
    case("a set's kept length of 65", ALL, |d| d.eit.slots[320] = 65 << 16),
    case("a schedule's slot that names cell 4 of 4", ALL, |d| d.eit.units[32] = KEPT + 4),
    case("a schedule's kept length of 11", ALL, |d| d.eit.units[32] = 11 << 16),
    case("a schedule's kept length of 65", ALL, |d| d.eit.units[32] = 65 << 16),
    // Not 10: what stands in no slot of a row in use, in a table that a schedule has not, or in a schedule not in use.
    case("a kept length of 11 past the set's last slot", ALL, |d| d.eit.slots[33] = 11 << 16),
    case("a kept length of 11 in a row not in use", ALL, |d| d.eit.slots[608] = 11 << 16),
    case("a kept length of 11 past the table's last slot", ALL, |d| d.eit.units[33] = 11 << 16),
    case("a kept length of 11 in a table not present", ALL, |d| d.eit.units[320] = 11 << 16),
    case("a kept length of 11 in a schedule not in use", ALL, |d| d.eit.units[4640] = 11 << 16),
    case("a kept length of 11, no schedule used", ALL, |d| {
        d.eit.units[32] = 11 << 16;
        d.eit.state.schedules = 0;
    }),
    // Words that no history leaves and the rules do not name: the rules as they are written, first matching row.
    case("a segment's word of 300", ALL, |d| d.eit.slots[288] = 300),
    case("a table_id of 0x70 in a set's head", ALL, |d| d.eit.heads[1] = 0x70),
    case("a table_id of 256 in a set's head", ALL, |d| d.eit.heads[1] = 256),
    case("a PID of 9000 in a set's head", ALL, |d| d.eit.heads[12] = 9000),
    case("a last_section_number of 300", ALL, |d| d.eit.heads[19] = 300),
    case("a kind of 7 in a schedule's head", ALL, |d| d.eit.schedule_heads[1] = 7),
    case("a last_table_id of 0x51 in a schedule's head", ALL, |d| d.eit.schedule_heads[7] = 0x51),
    case("a last_table_id of 0x4F in a schedule's head", ALL, |d| d.eit.schedule_heads[7] = 0x4F),
    case("a table present that never came", ALL, |d| d.eit.units[288] = 1),
    case("a table's last_section_number of 300", ALL, |d| d.eit.units[2] = 300),
    // A drop of a kind: a table_id of no EIT, 256 and more among them, is of none of the four, so only a filter that names no kind, 4, takes it; the
    // word of a schedule's head is compared as it is.
    case("kind 0", KIND, |d| d.kind = 0),
    case("kind 2", KIND, |d| d.kind = 2),
    case("kind 4", KIND, |d| d.kind = 4),
    case("a table_id of 0x70 in a set's head, kind 0", KIND, |d| d.eit.heads[1] = 0x70),
    case("a table_id of 256 in a set's head, kind 0", KIND, |d| d.eit.heads[1] = 256),
    case("a table_id of 0x14E in a set's head, kind 0", KIND, |d| d.eit.heads[1] = 0x14E),
    case("a table_id of 0x70 in a set's head, kind 4", KIND, |d| {
        d.eit.heads[1] = 0x70;
        d.kind = 4;
    }),
    case("a table_id of 256 in a set's head, kind 4", KIND, |d| {
        d.eit.heads[1] = 256;
        d.kind = 4;
    }),
    case("a kind of 7 in a schedule's head, kind 7", KIND, |d| {
        d.eit.schedule_heads[1] = 7;
        d.kind = 7;
    }),
    // 11, 12, and the lower number first.
    case("evictions at their end", ALL, |d| d.eit.state.evictions = u64::MAX),
    case("schedule evictions at their end", ALL, |d| d.eit.state.schedule_evictions = u64::MAX),
    case("the clock at its end", ALL, |d| d.eit.state.clock = u64::MAX),
    case("the clock one below its end", ALL, |d| d.eit.state.clock = u64::MAX - 1),
    case("a clock below a tick in use", ALL, |d| d.eit.state.clock = 0),
    case("PID 8192", ALL, |d| d.pid = 8192),
    case("PID 8192, evictions at their end", ALL, |d| {
        d.pid = 8192;
        d.eit.state.evictions = u64::MAX;
    }),
    case("PID 8192, evictions at their end, 4 schedules of 3", ALL, |d| {
        d.pid = 8192;
        d.eit.state = EitState { evictions: u64::MAX, schedules: 4, ..WHOLE };
    }),
    // 41, after 11 and before 12: no PID given or wanted, or 8192 in the head of a set or a schedule in use, whichever it is.
    case("no PID", PIDS, |d| d.pid = NO_PID),
    case("no PID, input 16", PIDS, |d| (d.input, d.pid) = (16, NO_PID)),
    case("no PID, evictions at their end", PIDS, |d| {
        d.pid = NO_PID;
        d.eit.state.evictions = u64::MAX;
    }),
    case("no PID, schedule evictions at their end", PIDS, |d| {
        d.pid = NO_PID;
        d.eit.state.schedule_evictions = u64::MAX;
    }),
    case("no PID, 4 schedules of 3", PIDS, |d| {
        d.pid = NO_PID;
        d.eit.state.schedules = 4;
    }),
    case("a PID of 8192 in the first set's head", PIDS, |d| d.eit.heads[0] = 8192),
    case("a PID of 8192 in the last set's head", PIDS, |d| d.eit.heads[12] = 8192),
    case("a PID of 8192 in a set's head not in use", PIDS, |d| d.eit.heads[24] = 8192),
    case("a PID of 8192 in the schedule's head", PIDS, |d| d.eit.schedule_heads[0] = 8192),
    case("a PID of 8192 in a schedule's head not in use", PIDS, |d| d.eit.schedule_heads[12] = 8192),
    case("a PID of 8192 in the schedule's head, no schedule used", PIDS, |d| {
        d.eit.schedule_heads[0] = 8192;
        d.eit.state.schedules = 0;
    }),
    case("a PID of 8192 in a set's head and in the schedule's", PIDS, |d| (d.eit.heads[0], d.eit.schedule_heads[0]) = (8192, 8192)),
    case("a PID of 8192 in a set's head, PID 9000", PIDS, |d| (d.eit.heads[12], d.pid) = (8192, 9000)),
    case("a PID of 8192 in the schedule's head, PID 9000", PIDS, |d| (d.eit.schedule_heads[0], d.pid) = (8192, 9000)),
    case("a PID of 8192 in the schedule's head, no PID", PIDS, |d| (d.eit.schedule_heads[0], d.pid) = (8192, NO_PID)),
    case("a PID of 8192 in the schedule's head, input 16", PIDS, |d| (d.eit.schedule_heads[0], d.input) = (8192, 16)),
    case("a PID of 8192 in the schedule's head, row 2", PIDS, |d| (d.eit.schedule_heads[0], d.row) = (8192, 2)),
    case("a PID of 8192 in a set's head, evictions at their end", PIDS, |d| {
        d.eit.heads[12] = 8192;
        d.eit.state.evictions = u64::MAX;
    }),
    case("a PID of 8192 in the schedule's head, schedule evictions at their end", PIDS, |d| {
        d.eit.schedule_heads[0] = 8192;
        d.eit.state.schedule_evictions = u64::MAX;
    }),
    case("a PID of 8192 in a set's head, 4 rows used of 3", PIDS, |d| {
        d.eit.heads[12] = 8192;
        d.eit.state.used = 4;
    }),
    case("a PID of 8192 in the schedule's head, a schedule's kept length of 11", PIDS, |d| {
        (d.eit.schedule_heads[0], d.eit.units[32]) = (8192, 11 << 16);
    }),
    // No 41: words that are no PID that a call can give.
    case("a PID of 8193 in a set's head", PIDS, |d| d.eit.heads[12] = 8193),
    case("a PID of 2^64 - 1 in a set's head", PIDS, |d| d.eit.heads[12] = u64::MAX),
    case("a PID of 8193 in the schedule's head", PIDS, |d| d.eit.schedule_heads[0] = 8193),
    case("a PID of 2^64 - 1 in the schedule's head", PIDS, |d| d.eit.schedule_heads[0] = u64::MAX),
    case("a kind of 8192 in the schedule's head", PIDS, |d| d.eit.schedule_heads[1] = 8192),
    // 37, after 12; and an input that no call can give, which no section has: its row is met by none.
    case("input 0", INPUT, |_| {}),
    case("input 1", INPUT, |d| d.input = 1),
    case("input 16", INPUT, |d| d.input = 16),
    case("input 256", INPUT, |d| d.input = 256),
    case("input 255, PID 8192", INPUT, |d| (d.input, d.pid) = (255, 8192)),
    case("input 16, evictions at their end", INPUT, |d| {
        d.input = 16;
        d.eit.state.evictions = u64::MAX;
    }),
    case("input 16, 4 schedules of 3", INPUT, |d| {
        d.input = 16;
        d.eit.state.schedules = 4;
    }),
    case("an input of 16 in a set's head", ALL, |d| d.eit.heads[22] = 16),
    case("an input of 2^64 - 1 in a set's head", ALL, |d| d.eit.heads[22] = u64::MAX),
    case("an input of 16 in a schedule's head", ALL, |d| d.eit.schedule_heads[10] = 16),
    // Limit 0, and 9: a row not in use has no section, nor has a table not present.
    case("limit 0, 2 rows used", ALL, |d| d.eit.state.limit = 0),
    case("limit 0, 1 schedule used", ALL, |d| d.eit.state = EitState { limit: 0, used: 0, ..WHOLE }),
    case("limit 0, nothing used", ALL, |d| d.eit.state = EitState { limit: 0, used: 0, schedules: 0, ..WHOLE }),
    case("schedule 1", &[Table], |d| d.row = 1),
    case("row 2", &[Next], |d| d.row = 2),
    case("table 1", &[Table], |d| d.table = 1),
    case("table 16", &[Table], |d| d.table = 16),
    case("a last_table_id of 0x4F in a schedule's head, table 1", &[Table], |d| {
        d.eit.schedule_heads[7] = 0x4F;
        d.table = 1;
    }),
    case("a last_table_id of 0x51 in a schedule's head, table 1", &[Table], |d| {
        d.eit.schedule_heads[7] = 0x51;
        d.table = 1;
    }),
    // After an opening that was refused.
    case("limit 4", &[Former, Anew], |d| d.eit.state.limit = 4),
    case("cell size 11", &[Former, Anew], |d| d.eit.state.size = 11),
    case("13823 words of units", &[Anew], |d| d.eit.units.lend(13823)),
];
