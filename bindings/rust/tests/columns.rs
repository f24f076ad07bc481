//! Many sections in one call at hundreds of rows, where a column of tags finds them: the same answers, rows, counts and lent memory as one by one, on stores
//! from opening and on stores with damaged keys, on both sides of the fewest rows for which a column is made.
use petrizolu::calls::{self, EitState, SetsState};
use petrizolu::{HEAD_WORDS, SLOT_WORDS, UNIT_WORDS, crc, listed_section};

const ROWS: [usize; 3] = [511, 512, 700];
const SIZE: usize = 64;
const PID: u16 = 0x12;

/// A linear congruence, so that a run can be made again.
struct Numbers(u64);

impl Numbers {
    fn below(&mut self, n: usize) -> usize {
        self.0 = self.0.wrapping_mul(6_364_136_223_846_793_005).wrapping_add(1_442_695_040_888_963_407);
        (self.0 >> 33) as usize % n
    }
}

/// What was lent to a collector, and what its calls told.
trait Store: Clone + PartialEq + std::fmt::Debug {
    fn open(rows: usize) -> Self;
    fn push(&mut self, section: &[u8]) -> (u8, u64);
    fn push_all(&mut self, list: &[u8]) -> (u8, u64, usize);
    fn heads(&mut self) -> &mut [u64];
    /// Of a table: what the key differs in, the version, and what tells two sections of one version apart.
    fn section(table: usize, version: u8, filling: u8) -> Vec<u8>;
}

fn closed(mut bytes: Vec<u8>) -> Vec<u8> {
    bytes[2] = bytes.len() as u8 + 1;
    let last = crc(&bytes).to_be_bytes();
    [bytes, last.to_vec()].concat()
}

#[derive(Clone, PartialEq, Debug)]
struct SetStore {
    state: SetsState,
    heads: Vec<u64>,
    slots: Vec<u32>,
    cells: Vec<u8>,
}

impl Store for SetStore {
    fn open(rows: usize) -> Self {
        let mut store = Self {
            state: SetsState::default(),
            heads: vec![0; rows * HEAD_WORDS],
            slots: vec![0; rows * SLOT_WORDS],
            cells: vec![0; (rows + 1) * SIZE],
        };
        let opened =
            calls::sets_open(&mut store.state, rows as u64, SIZE as u64, rows as u64 + 1, &store.heads, &store.slots, &store.cells);
        assert_eq!(opened.0, 7);
        store
    }

    fn push(&mut self, section: &[u8]) -> (u8, u64) {
        let mut row = u64::MAX;
        let answer = calls::sets_push(&mut self.state, &mut self.heads, &mut self.slots, &mut self.cells, 0, PID.into(), section, &mut row);
        (answer.0, row)
    }

    fn push_all(&mut self, list: &[u8]) -> (u8, u64, usize) {
        let (mut row, mut taken) = (u64::MAX, 0);
        let answer = calls::sets_push_all(&mut self.state, &mut self.heads, &mut self.slots, &mut self.cells, list, &mut row, &mut taken);
        (answer.0, row, taken as usize)
    }

    fn heads(&mut self) -> &mut [u64] {
        &mut self.heads
    }

    fn section(table: usize, version: u8, filling: u8) -> Vec<u8> {
        let head = [0x42, 0xB0, 0, (table >> 8) as u8, table as u8, 0xC1 | version << 1, 0, 0];
        closed([&head[..], &[filling; 40]].concat())
    }
}

#[derive(Clone, PartialEq, Debug)]
struct EitStore {
    state: EitState,
    heads: Vec<u64>,
    slots: Vec<u32>,
    cells: Vec<u8>,
    schedule_heads: Vec<u64>,
    units: Vec<u32>,
}

impl Store for EitStore {
    fn open(rows: usize) -> Self {
        let mut store = Self {
            state: EitState::default(),
            heads: vec![0; rows * HEAD_WORDS],
            slots: vec![0; rows * SLOT_WORDS],
            cells: vec![0; (rows + 200) * SIZE],
            schedule_heads: vec![0; rows * HEAD_WORDS],
            units: vec![0; rows * UNIT_WORDS],
        };
        let opened = calls::eit_open(
            &mut store.state,
            rows as u64,
            SIZE as u64,
            rows as u64 + 200,
            &store.heads,
            &store.slots,
            &store.cells,
            &store.schedule_heads,
            &store.units,
        );
        assert_eq!(opened.0, 7);
        store
    }

    fn push(&mut self, section: &[u8]) -> (u8, u64) {
        let mut row = u64::MAX;
        let (heads, slots, cells) = (&mut self.heads, &mut self.slots, &mut self.cells);
        let (schedule_heads, units) = (&mut self.schedule_heads, &mut self.units);
        let answer = calls::eit_push(&mut self.state, heads, slots, cells, schedule_heads, units, 0, PID.into(), section, &mut row);
        (answer.0, row)
    }

    fn push_all(&mut self, list: &[u8]) -> (u8, u64, usize) {
        let (mut row, mut taken) = (u64::MAX, 0);
        let (heads, slots, cells) = (&mut self.heads, &mut self.slots, &mut self.cells);
        let (schedule_heads, units) = (&mut self.schedule_heads, &mut self.units);
        let answer = calls::eit_push_all(&mut self.state, heads, slots, cells, schedule_heads, units, list, &mut row, &mut taken);
        (answer.0, row, taken as usize)
    }

    fn heads(&mut self) -> &mut [u64] {
        &mut self.heads
    }

    /// Present/following of one service, and a schedule of the next.
    fn section(table: usize, version: u8, filling: u8) -> Vec<u8> {
        let table_id = if table % 2 == 0 { 0x4E } else { 0x50 };
        let head = [table_id, 0xF0, 0, (table >> 8) as u8, table as u8, 0xC1 | version << 1, 0, 0, 0, 1, 0, 2, 0, table_id];
        let event = [[filling; 10].as_slice(), &[0, 0]].concat();
        closed([&head[..], &event, &event].concat())
    }
}

/// Mostly repeats; now and then another version, a conflict, a new key or a CRC that does not fit.
fn next<S: Store>(rows: usize, versions: &mut [u8], numbers: &mut Numbers) -> Vec<u8> {
    let table = numbers.below(rows);
    match numbers.below(120) {
        0 => {
            versions[table] = (versions[table] + 1) % 32;
            S::section(table, versions[table], 1)
        }
        1 => S::section(table, versions[table], 2),
        2 => S::section(rows + numbers.below(50), 0, 1),
        3 => {
            let mut section = S::section(table, versions[table], 1);
            section[9] ^= 1;
            section
        }
        _ => S::section(table, versions[table], 1),
    }
}

/// The list in one call after another, beside its sections one by one.
fn beside<S: Store>(store: &mut S, sections: &[Vec<u8>]) {
    let list: Vec<u8> = sections.iter().flat_map(|section| listed_section(0, PID, section).expect("short enough")).collect();
    let mut single = store.clone();
    let (mut at, mut pushed) = (0, sections.iter());
    while at < list.len() {
        let (answer, row, taken) = store.push_all(&list[at..]);
        let end = at + taken;
        let mut last = (0, 0);
        while at < end {
            let section = pushed.next().expect("no more bytes than sections");
            last = single.push(section);
            at += section.len() + 5;
            assert!(last.0 == 4 || at == end, "{} in the middle of a call", last.0);
        }
        assert_eq!((at, (answer, row)), (end, last));
        assert!(*store == single, "memory after {at} bytes");
    }
}

fn runs<S: Store>(seed: u64) {
    let mut numbers = Numbers(seed);
    for rows in ROWS {
        let mut store = S::open(rows);
        let mut versions = vec![0; rows + 50];
        for table in 0..rows {
            store.push(&S::section(table, 0, 1));
        }
        for round in 0..60 {
            // From the half on with keys that stand twice, and keys that no section has.
            if round >= 30 {
                let (from, to, word) = (numbers.below(rows), numbers.below(rows), numbers.below(6));
                let heads = store.heads();
                heads.copy_within(from * HEAD_WORDS..from * HEAD_WORDS + 6, to * HEAD_WORDS);
                if round % 3 == 0 {
                    heads[from * HEAD_WORDS + word.max(1)] = u64::MAX - word as u64;
                }
            }
            let sections: Vec<Vec<u8>> = (0..100).map(|_| next::<S>(rows, &mut versions, &mut numbers)).collect();
            beside(&mut store, &sections);
        }
    }
}

#[test]
fn sets() {
    runs::<SetStore>(1);
}

#[test]
fn events() {
    runs::<EitStore>(2);
}
