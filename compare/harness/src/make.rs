//! Scripts made from a seed. Inside the domain: sections of exactly 3 + section_length bytes that obey the layouts, PIDs 0 to 8191, enough
//! cells. Damaged: bytes of every kind, openings that are refused. Cell-bound: few and small cells.
use crate::apart::is_apart;
use crate::second::{Reading, Second, crc};
use player::command::{By, Command, Filter, Part};

#[derive(Clone, Copy, Debug, PartialEq, Eq)]
pub enum Domain {
    Inside,
    Damaged,
    CellBound,
}

impl Domain {
    pub fn named(name: &str) -> Option<Domain> {
        Some(match name {
            "inside" => Domain::Inside,
            "damaged" => Domain::Damaged,
            "cells" => Domain::CellBound,
            _ => return None,
        })
    }
}

/// A script of at least so many commands.
pub fn script(seed: u64, commands: usize, domain: Domain) -> Vec<Command> {
    let mut dice = Dice::new(seed ^ (domain as u64) << 60);
    let mut script = if domain == Domain::Damaged { before_opening(&mut dice) } else { Vec::new() };
    while script.len() < commands {
        let part = match domain {
            Domain::CellBound => dice.of(&[Part::Sets, Part::Eit]),
            _ => dice.of(&[Part::Gate, Part::Sets, Part::Eit]),
        };
        let length = 40 + dice.below(400);
        let run = match part {
            Part::Gate => gate_run(&mut dice, length, domain),
            _ => collector_run(&mut dice, length, domain, part),
        };
        if domain != Domain::Inside || has_cells(&run) {
            script.extend(run);
        }
    }
    script
}

/// Commands to collectors that nobody has opened.
fn before_opening(dice: &mut Dice) -> Vec<Command> {
    let mut commands = Vec::new();
    for part in [Part::Sets, Part::Eit] {
        let table = tables(dice, part == Part::Eit).remove(0);
        let section = table.section(0, 0, part == Part::Eit, 4096);
        commands.push(Command::Push { part, pid: Some(table.pid).filter(|_| !dice.once_in(3)), section });
        commands.push(Command::Clear { part });
    }
    commands.push(Command::Drop(Filter::default()));
    commands
}

/// Whether there were cells enough: a run that would have needed more is outside the domain.
fn has_cells(run: &[Command]) -> bool {
    let mut second = Second::new(Reading::default());
    run.iter().all(|command| !matches!(second.answer(command).number(), Some((_, 20 | 21))))
}

/// Numbers that look random and come from a seed.
pub struct Dice(u64);

impl Dice {
    pub fn new(seed: u64) -> Dice {
        let mut dice = Dice(seed.wrapping_mul(0x9E37_79B9_7F4A_7C15) | 1);
        for _ in 0..8 {
            dice.next();
        }
        dice
    }

    pub fn next(&mut self) -> u64 {
        self.0 ^= self.0 << 13;
        self.0 ^= self.0 >> 7;
        self.0 ^= self.0 << 17;
        self.0.wrapping_mul(0x2545_F491_4F6C_DD1D) >> 11
    }

    pub fn below(&mut self, end: usize) -> usize {
        (self.next() % end as u64) as usize
    }

    pub fn byte(&mut self) -> u8 {
        self.next() as u8
    }

    pub fn bytes(&mut self, count: usize) -> Vec<u8> {
        (0..count).map(|_| self.byte()).collect()
    }

    /// Once in so many times.
    pub fn once_in(&mut self, times: usize) -> bool {
        self.below(times) == 0
    }

    pub fn of<T: Copy>(&mut self, choices: &[T]) -> T {
        choices[self.below(choices.len())]
    }
}

// ---- Sections

pub fn sealed(mut bytes: Vec<u8>) -> Vec<u8> {
    bytes.extend(crc(&bytes).to_be_bytes());
    bytes
}

/// Bytes 0 to 2: a section of so many bytes in all. The two bits after the syntax indicator are reserved, and written 1.
fn start(table_id: u8, long: bool, total: usize) -> [u8; 3] {
    let [high, low] = (total as u16 - 3).to_be_bytes();
    [table_id, if long { 0xB0 } else { 0x70 } | high, low]
}

#[derive(Clone, Copy)]
pub struct Head {
    pub table_id: u8,
    pub extension: u16,
    pub version: u8,
    pub current_next: bool,
    pub number: u8,
    pub last: u8,
}

pub fn long(head: Head, body: &[u8]) -> Vec<u8> {
    let mut bytes = start(head.table_id, true, 12 + body.len()).to_vec();
    bytes.extend(head.extension.to_be_bytes());
    bytes.extend([0xC0 | head.version << 1 | u8::from(head.current_next), head.number, head.last]);
    bytes.extend(body);
    sealed(bytes)
}

pub fn short(table_id: u8, body: &[u8]) -> Vec<u8> {
    let mut bytes = start(table_id, false, 3 + body.len()).to_vec();
    bytes.extend(body);
    bytes
}

/// Makes section_length and the CRC fit the bytes again, where there is room for them.
pub fn mend(bytes: &mut Vec<u8>) {
    let total = bytes.len();
    if total >= 3 {
        let [high, low] = (total as u16 - 3).to_be_bytes();
        bytes[1] = bytes[1] & 0xF0 | high & 0x0F;
        bytes[2] = low;
    }
    if total >= 4 {
        bytes.truncate(total - 4);
        *bytes = sealed(std::mem::take(bytes));
    }
}

/// Another section with the same key and the same stored CRC: a bit of its version or its body is changed, and the four bytes before the CRC so
/// that it fits.
pub fn same_crc(dice: &mut Dice, bytes: &[u8]) -> Option<Vec<u8>> {
    let total = bytes.len();
    if total < 17 || bytes[1] & 0x80 == 0 {
        return None;
    }
    let mut other = bytes.to_vec();
    if dice.once_in(2) {
        other[5] ^= 2 << dice.below(5);
    } else {
        other[8] ^= 1;
    }
    // 32 steps back from the stored CRC; the bytes before it are what takes the register there.
    let stored = u32::from_be_bytes(bytes[total - 4..].try_into().ok()?);
    let back = (0..32).fold(stored, |register, _| match register & 1 {
        1 => (register ^ 0x04C1_1DB7) >> 1 | 1 << 31,
        _ => register >> 1,
    });
    let forged = back ^ crc(&other[..total - 8]);
    other[total - 8..total - 4].copy_from_slice(&forged.to_be_bytes());
    Some(other)
}

pub fn damaged(dice: &mut Dice, mut bytes: Vec<u8>) -> Vec<u8> {
    if bytes.is_empty() {
        return dice.bytes(2);
    }
    let (at, more) = (dice.below(bytes.len()), 1 + dice.below(13));
    match dice.below(10) {
        0 => bytes[at] ^= 1 << dice.below(8),
        1 => bytes.truncate(at),
        2 => bytes.extend(dice.bytes(more)),
        3 => {
            bytes.truncate(dice.below(20));
            mend(&mut bytes);
        }
        4 => {
            bytes.extend(dice.bytes(more));
            mend(&mut bytes);
        }
        5 => {
            bytes[at] = dice.byte();
            mend(&mut bytes);
        }
        6 if bytes.len() > 1 => {
            bytes[1] &= 0x7F;
            if dice.once_in(2) {
                mend(&mut bytes);
            }
        }
        7 => {
            let count = dice.below(24);
            bytes = dice.bytes(count);
        }
        8 if dice.once_in(20) => {
            bytes.resize(dice.of(&[4095, 4096, 4097, 4098]), 0);
            mend(&mut bytes);
        }
        _ => {
            let last = bytes.len() - 1;
            bytes[last] ^= 1;
        }
    }
    bytes
}

// ---- The gate

/// A PAT of a few programmes, over few PIDs, so that one PAT drops what another added.
pub fn pat(dice: &mut Dice) -> Vec<u8> {
    let mut body = Vec::new();
    for _ in 0..dice.below(5) {
        let pid = dice.of(&[0x0000, 0x0010, 0x0012, 0x0050, 0x0100, 0x0101, 0x0102, 0x0103, 0x1FFF]);
        body.extend(dice.of(&[0u16, 1, 2, 3, 0xFFFF]).to_be_bytes());
        body.extend((pid | (dice.below(8) as u16) << 13).to_be_bytes());
    }
    let last = dice.below(2) as u8;
    let number = dice.below(usize::from(last) + 1) as u8;
    let (version, current_next) = (dice.below(4) as u8, !dice.once_in(10));
    long(Head { table_id: 0, extension: 1, version, current_next, number, last }, &body)
}

pub fn gate_section(dice: &mut Dice) -> Vec<u8> {
    let few = dice.below(8);
    let body: Vec<u8> = (0..few).map(|_| dice.below(3) as u8).collect();
    match dice.below(10) {
        0..=2 => pat(dice),
        3 => short(dice.of(&[0x00, 0x70, 0x71, 0x72, 0x7E]), &body),
        4 => {
            let mut tot = short(0x73, &[&body[..], &[0; 4]].concat());
            mend(&mut tot);
            tot
        }
        _ => {
            let last = dice.of(&[0, 0, 1, 7]);
            let head = Head {
                table_id: dice.of(&[0x02, 0x40, 0x42, 0x4A, 0x4E, 0x50, 0xFF]),
                extension: dice.of(&[1, 2, 0x0100]),
                version: dice.below(3) as u8,
                current_next: !dice.once_in(8),
                number: dice.below(usize::from(last) + 1) as u8,
                last,
            };
            let long_body = dice.once_in(200);
            let count = dice.below(if long_body { 4000 } else { 12 });
            let body = dice.bytes(count);
            long(head, &body)
        }
    }
}

fn gate_run(dice: &mut Dice, length: usize, domain: Domain) -> Vec<Command> {
    let wild = domain == Domain::Damaged;
    let mut run = vec![gate_opening(dice, false)];
    let pids = [0x0000, 0x0000, 0x0001, 0x0010, 0x0011, 0x0012, 0x0014, 0x001B, 0x0050, 0x0100, 0x0101, 0x0102, 0x1FFF];
    let mut sent: Vec<(u16, Vec<u8>)> = Vec::new();
    while run.len() < length {
        let (mut pid, mut section) = match sent.len() {
            held if held > 0 && dice.below(10) < 4 => sent[dice.below(held)].clone(),
            held => {
                let new = (dice.of(&pids), gate_section(dice));
                if held < 12 {
                    sent.push(new.clone());
                } else {
                    sent[dice.below(held)] = new.clone();
                }
                new
            }
        };
        if dice.once_in(12) {
            section = same_crc(dice, &section).unwrap_or(section);
        } else if wild && dice.once_in(6) {
            section = damaged(dice, section);
        } else if dice.once_in(20) {
            let last = section.len() - 1;
            section[last] ^= 0x10;
        }
        if wild && dice.once_in(60) {
            pid = dice.of(&[0x2000, 0x2014, 0xFFFF]);
        }
        run.push(Command::Gate { by: dice.of(&[By::Packets, By::Offer]), pid, section });
        if dice.once_in(25) {
            run.push(if dice.once_in(2) { Command::Watched } else { Command::Ask { pid: dice.of(&pids) } });
        }
        if wild && dice.once_in(100) {
            run.push(Command::Ask { pid: dice.of(&[0x1FFF, 0x2000, 0xFFFF]) });
            run.push(gate_opening(dice, true));
        }
    }
    run.push(Command::Watched);
    run
}

pub fn gate_opening(dice: &mut Dice, refused: bool) -> Command {
    let extra = (0..dice.below(4)).map(|_| dice.of(&[0x0000, 0x0050, 0x0100, 0x0101, 0x1FFF])).collect();
    let (repeats, follow, well_known) = (dice.once_in(4), !dice.once_in(7), !dice.once_in(7));
    let capacity = dice.of(&[0, 1, 2, 3, 5, 8, 20, 512, 65_536]);
    let rule = 1;
    let pats = false;
    match refused {
        false => Command::GateOpen { capacity, repeats, follow, well_known, rule, pats, extra },
        true if dice.once_in(2) => Command::GateOpen { capacity, repeats, follow, well_known, rule, pats, extra: vec![0x0100, 0x2000] },
        true => Command::GateOpen { capacity: dice.of(&[65_537, u32::MAX]), repeats, follow, well_known, rule, pats, extra },
    }
}

/// The same script, with a question for all counters at the end of each run of the gate.
pub fn counted(script: Vec<Command>) -> Vec<Command> {
    let opens = |command: &Command| matches!(command, Command::GateOpen { .. });
    let mut all = Vec::with_capacity(script.len() + script.len() / 50);
    for command in script {
        if opens(&command) && !all.is_empty() {
            all.push(Command::Counters);
        }
        all.push(command);
    }
    all.push(Command::Counters);
    all
}

/// The same script by change rule 2. Openings that are refused for their capacity are refused for a rule that there is not.
pub fn by_rule_2(mut script: Vec<Command>) -> Vec<Command> {
    for command in &mut script {
        if let Command::GateOpen { capacity, rule, .. } = command {
            (*capacity, *rule) = match *capacity {
                65_537 => (512, 0),
                u32::MAX => (512, 3),
                capacity => (capacity, 2),
            };
        }
    }
    script
}

// ---- Several inputs

/// The script of a seed with its commands on several inputs, which share its capacity and its limits; where it is damaged, on inputs too that there are not.
pub fn on_inputs(seed: u64, commands: usize, domain: Domain) -> Vec<Command> {
    let mut dice = Dice::new(seed ^ 0x1A << 48 ^ (domain as u64) << 60);
    let wrong = domain == Domain::Damaged;
    spread(&mut dice, script(seed, commands, domain), &[0, 1, 1, 3, 15], wrong)
}

/// The commands, each on the input before it, mostly. Some sections come on one input and then on another, as those of two tuners on one multiplex do.
fn spread(dice: &mut Dice, commands: Vec<Command>, inputs: &[u8], wrong: bool) -> Vec<Command> {
    let mut all = vec![Command::Input(dice.of(inputs))];
    for mut command in commands {
        if dice.once_in(12) {
            all.push(another_input(dice, inputs, wrong));
        }
        if let Command::Drop(filter) = &mut command {
            filter.this_input = dice.once_in(2);
        }
        let section = matches!(command, Command::Gate { .. } | Command::Push { .. });
        if section && dice.once_in(6) {
            all.extend([command.clone(), another_input(dice, inputs, wrong)]);
        }
        all.push(command);
    }
    all
}

pub fn another_input(dice: &mut Dice, inputs: &[u8], wrong: bool) -> Command {
    let wrong = wrong && dice.once_in(15);
    Command::Input(dice.of(if wrong { &[16, 17, 255] } else { inputs }))
}

/// A script on several inputs that share room enough: nothing leaves, so each input answers as if it were alone.
pub fn apart(seed: u64, commands: usize) -> Vec<Command> {
    let mut dice = Dice::new(seed ^ 0x2A << 48);
    let first = dice.below(14) as u8;
    let inputs = dice.of(&[[0, 1, 2], [0, 7, 15], [first, first + 1, first + 2], [15, 14, 0]]);
    let mut script = Vec::new();
    while script.len() < commands {
        let part = dice.of(&[Part::Gate, Part::Sets, Part::Eit]);
        let run = apart_run(&mut dice, part, &inputs);
        if is_apart(&run) {
            script.extend(run);
        }
    }
    script
}

/// A run of one part, opened with all the room that is lent.
fn apart_run(dice: &mut Dice, part: Part, inputs: &[u8]) -> Vec<Command> {
    let length = 40 + dice.below(400);
    let mut run = match part {
        Part::Gate => gate_run(dice, length, Domain::Inside),
        _ => collector_run(dice, length, Domain::Inside, part),
    };
    let opening = run.remove(0);
    let mut all = match opening {
        Command::GateOpen { repeats, follow, rule, .. } => {
            inputs.iter().flat_map(|&input| [Command::Input(input), roomy_gate(dice, repeats, follow, rule)]).collect()
        }
        Command::Open { part, cells, size, .. } => vec![Command::Open { part, limit: 64, cells, size }],
        other => panic!("no opening: {other}"),
    };
    all.extend(spread(dice, run, inputs, false));
    if part == Part::Gate {
        all.push(Command::Counters);
    }
    all
}

/// An opening whose watch is of one input: each has its own extra PIDs.
fn roomy_gate(dice: &mut Dice, repeats: bool, follow: bool, rule: u64) -> Command {
    let Command::GateOpen { well_known, extra, .. } = gate_opening(dice, false) else { panic!("an opening") };
    Command::GateOpen { capacity: 65_536, repeats, follow, well_known, rule, pats: false, extra }
}

// ---- The collectors

/// A sub-table as a broadcaster sends it, section after section.
#[derive(Clone)]
struct Table {
    pid: u16,
    head: Head,
    network: (u16, u16),
    last_table_id: u8,
    /// How many sections each segment of eight has.
    segments: [u8; 32],
    /// Makes the bytes of this version.
    salt: u64,
    next: usize,
}

impl Table {
    /// The numbers that the broadcaster sends.
    fn numbers(&self) -> Vec<u8> {
        (0..=self.head.last).filter(|number| number % 8 < self.segments[usize::from(number / 8)]).collect()
    }

    /// A new version, mostly; the number of its sections may change with it or alone.
    fn renew(&mut self, dice: &mut Dice, eit: bool) {
        if !dice.once_in(5) {
            self.head.version = (self.head.version + 1) % 32;
        }
        if dice.below(5) < 2 {
            self.head.last = match (eit, self.head.table_id) {
                (false, _) => dice.of(&[0, 0, 0, 1, 1, 2, 3, 7, 8]),
                (true, 0x4E | 0x4F) => dice.of(&[0, 1, 1, 1, 2]),
                (true, _) => dice.of(&[0, 0, 0, 0, 1, 1, 3, 7, 8, 8, 9, 15, 16, 24, 40, 248, 255]),
            };
        }
        self.segments = std::array::from_fn(|_| dice.of(&[1, 1, 1, 1, 2, 3, 8]));
        self.salt = dice.next();
        self.next = 0;
    }

    /// The section of a number. The same number gives the same bytes, but where the sender is caught at a change of them (`variant`).
    fn section(&self, number: u8, variant: u64, eit: bool, largest: usize) -> Vec<u8> {
        let head = Head { number, ..self.head };
        let mut dice = Dice::new(self.salt ^ u64::from(number) << 8 ^ variant << 20 ^ u64::from(head.table_id) << 32);
        if !eit {
            let count = dice.below((largest - 12).min(12) + 1);
            return long(head, &dice.bytes(count));
        }
        let segment = number / 8;
        let end = (8 * segment).saturating_add(self.segments[usize::from(segment)] - 1).min(head.last);
        // Most senders give the number itself; its low bits alone mean the same, and anything else must be borne.
        let end = match dice.below(20) {
            0 => end % 8,
            1 => dice.byte(),
            _ => end,
        };
        let mut body = [self.network.0.to_be_bytes(), self.network.1.to_be_bytes()].concat();
        body.extend([end, self.last_table_id]);
        let events = if largest >= 4096 && dice.once_in(300) { 12 } else { dice.of(&[0, 0, 0, 1, 1, 2]) };
        for _ in 0..events {
            let descriptors = if events == 12 { dice.below(300) } else { dice.of(&[0, 0, 3, 7]) };
            if 12 + body.len() + 12 + descriptors > largest {
                break;
            }
            body.extend(dice.bytes(10));
            body.extend(((dice.below(16) as u16) << 12 | descriptors as u16).to_be_bytes());
            body.extend(dice.bytes(descriptors));
        }
        long(head, &body)
    }
}

/// The sub-tables of a few services.
fn tables(dice: &mut Dice, eit: bool) -> Vec<Table> {
    let mut all = Vec::new();
    for service in 0..1 + dice.below(4) {
        let pid = dice.of(&[0x0011, 0x0000, 0x0012, 0x0012, 0x0013]);
        let current_next = !dice.once_in(7);
        let network = (dice.of(&[1, 2]), dice.of(&[1, 2]));
        for (table_id, last_table_id) in table_ids(dice, eit) {
            let extension = 1 + service as u16 % 3;
            let version = dice.below(32) as u8;
            let head = Head { table_id, extension, version, current_next, number: 0, last: 0 };
            let mut table = Table { pid, head, network, last_table_id, segments: [1; 32], salt: 0, next: 0 };
            table.renew(dice, eit);
            all.push(table);
        }
    }
    all
}

fn table_ids(dice: &mut Dice, eit: bool) -> Vec<(u8, u8)> {
    if !eit {
        return vec![(dice.of(&[0x00, 0x02, 0x40, 0x42, 0x4A, 0x4E, 0x50]), 0), (dice.of(&[0x02, 0x42, 0xFF]), 0)];
    }
    let count = dice.of(&[1, 2, 2, 3, 4, 16]);
    let range = |first: u8| (0..count).map(|i| (first + i, first + count - 1)).collect();
    match dice.below(5) {
        0 => vec![(0x4E, 0x4E)],
        1 => vec![(0x4F, 0x4F)],
        2 => range(0x50),
        3 => range(0x60),
        _ => vec![(0x4E, 0x4E), (0x50, 0x51), (0x51, 0x51), (0x60, 0x60)],
    }
}

pub fn collector_run(dice: &mut Dice, length: usize, domain: Domain, part: Part) -> Vec<Command> {
    let eit = part == Part::Eit;
    let limit = dice.of(&[0, 1, 1, 2, 2, 3, 4, 5, 8, 16, 64]);
    let (cells, size) = match domain {
        Domain::CellBound => (dice.of(&[0, 1, 2, 3, 5, 8, 13, 40, 60]), dice.of(&[12, 18, 30, 64, 200, 4096])),
        _ => dice.of(&[(256, 4096), (512, 512), (2048, 128), (8192, 128)]),
    };
    // The largest section that the sender makes; a cell-bound run has some that no cell takes.
    let largest = if domain == Domain::CellBound { 64.max(usize::from(size)) } else { usize::from(size) };
    let mut run = vec![Command::Open { part, limit, cells, size }];
    let mut tables = tables(dice, eit);
    // How many times rarer than usual anything changes: sets of many sections are completed in calm runs only.
    let calm = dice.of(&[1, 1, 1, 20]);
    let mut now = 0;
    while run.len() < length {
        if dice.once_in(8 * calm) {
            now = dice.below(tables.len());
        }
        unrest(dice, &mut tables, now, eit, calm);
        let numbers = tables[now].numbers();
        let table = &mut tables[now];
        let number = match dice.below(20) {
            0..=14 => {
                table.next += 1;
                numbers[(table.next - 1) % numbers.len()]
            }
            15..=18 => dice.of(&numbers),
            _ => dice.below(usize::from(table.head.last) + 1) as u8,
        };
        let carousel_is_round = table.next > 0 && table.next.is_multiple_of(numbers.len());
        let variant = if dice.once_in(40) { 1 } else { 0 };
        let mut section = table.section(number, variant, eit, largest);
        wrong(dice, &mut section, eit);
        if domain == Domain::Damaged && dice.once_in(25) {
            section = damaged(dice, section);
        }
        let mut pid = Some(table.pid).filter(|_| !dice.once_in(50));
        if domain == Domain::Damaged && dice.once_in(100) {
            pid = Some(dice.of(&[0x2000, 0xFFFE]));
        }
        run.push(Command::Push { part, pid, section });
        if carousel_is_round && dice.below(5) < 3 {
            now = (now + 1) % tables.len();
        }
        if dice.once_in(250) {
            run.push(Command::Clear { part });
        }
        if eit && dice.once_in(100) {
            run.push(Command::Drop(filter(dice, &tables, domain)));
        }
        if domain == Domain::Damaged && dice.once_in(200) {
            let (limit, cells, size) = dice.of(&[(65, 1, 12), (1, 257, 4096), (1, 1, 11), (1, 1, 4097)]);
            run.push(Command::Open { part, limit, cells, size });
        }
    }
    run
}

/// One table of a schedule with all its 32 segments, section after section, and nothing between: scripts of many tables seldom come to the last segment.
pub fn whole_table(seed: u64) -> Vec<Command> {
    let mut dice = Dice::new(seed);
    let part = Part::Eit;
    let head =
        Head { table_id: 0x50, extension: 1, version: dice.below(32) as u8, current_next: true, number: 0, last: dice.of(&[248, 255]) };
    let table = Table { pid: 0x0012, head, network: (1, 1), last_table_id: 0x50, segments: [1; 32], salt: dice.next(), next: 0 };
    let mut run = vec![Command::Open { part, limit: 1, cells: 64, size: 512 }];
    run.extend(table.numbers().into_iter().map(|number| Command::Push {
        part,
        pid: Some(table.pid),
        section: table.section(number, 0, true, 512),
    }));
    run
}

/// What a broadcaster changes between two sections: a version, current_next, or the range of a schedule.
fn unrest(dice: &mut Dice, tables: &mut [Table], now: usize, eit: bool, calm: usize) {
    if dice.once_in(25 * calm) {
        tables[now].renew(dice, eit);
    }
    if dice.once_in(120 * calm) {
        tables[now].head.current_next ^= true;
    }
    if eit && dice.once_in(33 * calm) {
        let here = tables[now].clone();
        let table_id = here.head.table_id;
        let range = match dice.below(6) {
            0 => table_id,
            1 => table_id - 1,
            2 => 0x60,
            3 => dice.byte(),
            _ => table_id & 0xF0 | dice.below(4) as u8,
        };
        let of_service = |t: &Table| t.head.extension == here.head.extension && t.network == here.network;
        let whole_service = dice.once_in(2);
        for table in tables.iter_mut() {
            let same_kind = table.head.table_id & 0xF0 == table_id & 0xF0;
            if table.head.table_id == table_id || (whole_service && of_service(table) && same_kind) {
                table.last_table_id = range;
                if !dice.once_in(3) {
                    table.head.version = (table.head.version + 1) % 32;
                }
            }
        }
    }
}

/// Wrong in a way that keeps the layout: a short form, a section_number above the last, a wrong CRC, a table_id that is no EIT's.
fn wrong(dice: &mut Dice, section: &mut Vec<u8>, eit: bool) {
    match dice.below(200) {
        0 => *section = short(section[0], &section[3..]),
        1 => {
            section[6] = section[7].saturating_add(1);
            section[7] = section[6] - 1;
            mend(section);
        }
        2 => {
            let last = section.len() - 1;
            section[last] ^= 4;
        }
        3 if eit => {
            section[0] = dice.of(&[0x00, 0x42, 0x4D, 0x70]);
            mend(section);
        }
        4 if eit => {
            // 12 to 17 bytes, and no EIT.
            let count = dice.below(6);
            let head = Head { table_id: 0x42, extension: 1, version: 0, current_next: true, number: 0, last: 0 };
            *section = long(head, &dice.bytes(count));
        }
        5 => {
            // Both wrong: 16 comes before 17.
            section[6] = section[7].saturating_add(1);
            section[7] = section[6] - 1;
        }
        _ => {}
    }
}

fn filter(dice: &mut Dice, tables: &[Table], domain: Domain) -> Filter {
    let table = &tables[dice.below(tables.len())];
    let mut exact = |times: usize| dice.once_in(times);
    let mut filter = Filter {
        pid: exact(3).then_some(Some(table.pid)),
        kind: exact(3).then_some(match table.head.table_id {
            0x4E => 0,
            0x4F => 1,
            0x50..=0x5F => 2,
            _ => 3,
        }),
        service_id: exact(2).then_some(table.head.extension),
        transport_stream_id: exact(3).then_some(table.network.0),
        original_network_id: exact(3).then_some(table.network.1),
        current_next: exact(5).then_some(table.head.current_next.into()),
        this_input: false,
    };
    if domain == Domain::Damaged && exact(6) {
        filter.pid = Some(Some(0x2000));
    }
    if exact(8) {
        filter.pid = Some(None);
    }
    filter
}
