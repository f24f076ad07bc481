//! Commands as the bytes of a tape. Numbers are high byte first.
//!
//! ```text
//! 10 gate open     capacity u32, flags u8 (1 repeats, 2 follow, 4 well-known PIDs; change rule: neither 8 nor 10 is 1, 8 alone 2, 10 alone 0,
//!                  which there is not, both 3, neither is there; 20 with 2 complete PATs are followed, 2 alone each changed PAT section, 20
//!                  alone does nothing), count u8, that many PIDs u16
//! 11 gate section  PID u16, length u16, the bytes: as a packet would deliver them, so only on a watched PID
//! 12 gate offer    PID u16, length u16, the bytes: offered, watched or not
//! 13 gate ask      PID u16
//! 14 gate watched
//! 15 gate counters
//! 16 gate pats     how many rows of the PAT store are in use, and how many left it, of the input that is current
//! 20 sets open     limit u16, cells u16, cell size u16
//! 21 sets push     PID u16 (FFFF none, which is refused), length u16, the bytes
//! 22 sets clear
//! 23 sets all      length u32, the bytes of a section list: one after another, until one answers something else than 4
//! 24 sets entries  reader u8 (1 networks', 2 bouquets', 3 services'), row u16, skip u16, room u16: the entries of a set
//! 25 sets read     reader u8, skip u16, room u16, length u16, the bytes: those of a section
//! 30 31 32         as 20 to 22 of the EIT collector
//! 33 eit drop      mask u8 (1 PID, 2 kind, 4 service_id, 8 transport_stream_id, 10 original_network_id, 20 current_next, 40 the input that is
//!                  current), PID u16 (FFFF none, which is refused), kind u8 (0 and 1 present/following actual and other, 2 and 3 schedule actual and other),
//!                  service_id u16, transport_stream_id u16, original_network_id u16, current_next u8
//! 34 eit events    row u16, skip u16, room u16: the entries of a set
//! 35 eit table     row u16, table u8, skip u16, room u16: those of a table of a schedule
//! 36 eit read      skip u16, room u16, length u16, the bytes: those of a section
//! 37 eit date      day u32
//! 38 eit all       as 23
//! 40 demux open    as 10 of the packet layer's own gate, and of flags 20 with 2: complete PATs are followed
//! 41 demux streams section buffers u16
//! 42 demux packet  length u16, the bytes
//! 43 demux ask     PID u16
//! 44 demux watched
//! 60 guides sets   list words u16, then twice: PID u16 (FFFF none, which is refused), length u16, the bytes of a set
//! 61 guides schedules  the same of two schedules
//! 62 guides held   number u16, then twice: length u16, the bytes of a set
//! 70 logs write    capacity u32, repeats u8, change rule u8, limit u32, cell size u32, cells u32, PIDs u8 (0 with, 1 without, 2 before); room u32; length u32, the bytes of a section list
//! 71 logs check    the same settings; the log's length u32; length u32, the bytes of a section list; the bytes of the log
//! 72 logs read     place u32, length u32, the bytes of a log
//! 73 logs offer    answer u8, change rule u8, input u8, PID u16, length u16, the bytes of a section
//! 74 logs set      input u8, PID u16 (FFFF none), length u16, the bytes of a section
//! 50 input         u8: the commands after it are on this input, until the next one; a tape begins on input 0
//! ```
use crate::command::{By, Command, Demux, Filter, Opening, Page, Part};
use crate::guides;
use crate::logs;
use std::io::{self, ErrorKind, Read};

/// Stands on a tape for "no PID".
const NO_PID: u16 = 0xFFFF;
/// The change rules that the flags 8 and 10 (hexadecimal) of an opening choose from.
const RULES: [u64; 4] = [1, 2, 0, 3];

// ---- reading

/// Why there is no next command.
#[derive(Debug)]
pub enum Stop {
    End,
    /// The tape ends inside a command.
    Cut,
    /// No command begins with this byte.
    Bad,
    Unreadable(io::Error),
}

impl From<io::Error> for Stop {
    fn from(error: io::Error) -> Stop {
        match error.kind() {
            ErrorKind::UnexpectedEof => Stop::Cut,
            _ => Stop::Unreadable(error),
        }
    }
}

/// A tape that is being read.
pub struct Tape<R> {
    input: R,
    /// Bytes read.
    read: u64,
    /// Where the last command begins, counted from 0.
    pub place: u64,
}

impl<R: Read> Tape<R> {
    pub fn new(input: R) -> Self {
        Self { input, read: 0, place: 0 }
    }

    pub fn next_command(&mut self) -> Result<Command, Stop> {
        self.place = self.read;
        let first = match self.byte() {
            Err(Stop::Cut) => return Err(Stop::End),
            first => first?,
        };
        let part = if first < 0x30 { Part::Sets } else { Part::Eit };
        Ok(match first {
            0x10 => self.opening()?.gate(),
            0x11 => Command::Gate { by: By::Packets, pid: self.short()?, section: self.section()? },
            0x12 => Command::Gate { by: By::Offer, pid: self.short()?, section: self.section()? },
            0x13 => Command::Ask { pid: self.short()? },
            0x14 => Command::Watched,
            0x15 => Command::Counters,
            0x16 => Command::Pats,
            0x20 | 0x30 => Command::Open { part, limit: self.short()?, cells: self.short()?, size: self.short()? },
            0x21 | 0x31 => Command::Push { part, pid: self.maybe_pid()?, section: self.section()? },
            0x22 | 0x32 => Command::Clear { part },
            0x23 | 0x38 => Command::PushAll { part, list: self.list()? },
            0x24 => Command::Entries { reader: self.byte()?, row: self.short()?, page: self.page()? },
            0x25 => {
                let reader = self.byte()?;
                let page = self.page()?;
                Command::ReadTable { reader, section: self.section()?, page }
            }
            0x33 => self.filter()?,
            0x34 => Command::Events { row: self.short()?, table: None, page: self.page()? },
            0x35 => Command::Events { row: self.short()?, table: Some(self.byte()?), page: self.page()? },
            0x36 => {
                let page = self.page()?;
                Command::Read { section: self.section()?, page }
            }
            0x37 => Command::Date(self.bytes().map(u32::from_be_bytes)?),
            0x40..=0x44 => Command::Demux(self.demux(first)?),
            0x60..=0x62 => Command::Guides(guides::read(first, self, Self::short, Self::maybe_pid, Self::section)?),
            0x70..=0x74 => Command::Logs(logs::read(first, |count| self.many(count))?),
            0x50 => Command::Input(self.byte()?),
            _ => return Err(Stop::Bad),
        })
    }

    fn bytes<const N: usize>(&mut self) -> Result<[u8; N], Stop> {
        let mut bytes = [0; N];
        self.input.read_exact(&mut bytes)?;
        self.read += N as u64;
        Ok(bytes)
    }

    fn byte(&mut self) -> Result<u8, Stop> {
        self.bytes().map(u8::from_be_bytes)
    }

    fn short(&mut self) -> Result<u16, Stop> {
        self.bytes().map(u16::from_be_bytes)
    }

    fn maybe_pid(&mut self) -> Result<Option<u16>, Stop> {
        Ok(Some(self.short()?).filter(|&pid| pid != NO_PID))
    }

    fn section(&mut self) -> Result<Vec<u8>, Stop> {
        let length = self.short()?;
        self.many(length.into())
    }

    fn list(&mut self) -> Result<Vec<u8>, Stop> {
        let length = self.bytes().map(u32::from_be_bytes)?;
        self.many(length as usize)
    }

    fn many(&mut self, count: usize) -> Result<Vec<u8>, Stop> {
        let mut bytes = vec![0; count];
        self.input.read_exact(&mut bytes)?;
        self.read += count as u64;
        Ok(bytes)
    }

    fn page(&mut self) -> Result<Page, Stop> {
        Ok(Page { skip: self.short()?, room: self.short()? })
    }

    fn opening(&mut self) -> Result<Opening, Stop> {
        let capacity = self.bytes().map(u32::from_be_bytes)?;
        let flags = self.byte()?;
        let extra = (0..self.byte()?).map(|_| self.short()).collect::<Result<_, _>>()?;
        let rule = RULES[usize::from(flags >> 3 & 3)];
        let on = |flag: u8| flags & flag != 0;
        Ok(Opening { capacity, repeats: on(1), follow: on(2), well_known: on(4), rule, pats: on(0x20), extra })
    }

    fn demux(&mut self, first: u8) -> Result<Demux, Stop> {
        Ok(match first {
            0x40 => Demux::Open(self.opening()?),
            0x41 => Demux::Streams(self.short()?),
            0x42 => Demux::Packet(self.section()?),
            0x43 => Demux::Ask(self.short()?),
            _ => Demux::Watched,
        })
    }

    fn filter(&mut self) -> Result<Command, Stop> {
        let mask = self.byte()?;
        let exact = |bit: u8| mask & bit != 0;
        Ok(Command::Drop(Filter {
            pid: Some(self.maybe_pid()?).filter(|_| exact(0x01)),
            kind: Some(self.byte()?).filter(|_| exact(0x02)),
            service_id: Some(self.short()?).filter(|_| exact(0x04)),
            transport_stream_id: Some(self.short()?).filter(|_| exact(0x08)),
            original_network_id: Some(self.short()?).filter(|_| exact(0x10)),
            current_next: Some(self.byte()?).filter(|_| exact(0x20)),
            this_input: exact(0x40),
        }))
    }
}

// ---- writing

pub fn tape_of(script: &[Command]) -> Vec<u8> {
    let mut tape = Vec::new();
    script.iter().for_each(|command| write_command(command, &mut tape));
    tape
}

fn write_command(command: &Command, tape: &mut Vec<u8>) {
    let collector = |part: &Part, command: u8| if *part == Part::Eit { 0x30 + command } else { 0x20 + command };
    match command {
        Command::Input(input) => tape.extend([0x50, *input]),
        Command::GateOpen { .. } => write_opening(command, 0x10, tape),
        Command::Gate { by, pid, section } => {
            tape.push(if *by == By::Packets { 0x11 } else { 0x12 });
            write_section(tape, *pid, section);
        }
        Command::Ask { pid } => {
            tape.push(0x13);
            tape.extend(pid.to_be_bytes());
        }
        Command::Watched => tape.push(0x14),
        Command::Counters => tape.push(0x15),
        Command::Pats => tape.push(0x16),
        Command::Open { part, limit, cells, size } => {
            tape.push(collector(part, 0));
            tape.extend([limit, cells, size].into_iter().flat_map(|n| n.to_be_bytes()));
        }
        Command::Push { part, pid, section } => {
            tape.push(collector(part, 1));
            write_section(tape, pid.unwrap_or(NO_PID), section);
        }
        Command::PushAll { part, list } => {
            tape.push(if *part == Part::Eit { 0x38 } else { 0x23 });
            tape.extend(u32::try_from(list.len()).expect("at most 4 GiB").to_be_bytes());
            tape.extend(list);
        }
        Command::Clear { part } => tape.push(collector(part, 2)),
        Command::Drop(filter) => {
            tape.push(0x33);
            write_filter(tape, filter);
        }
        Command::Events { row, table, page } => {
            tape.push(if table.is_none() { 0x34 } else { 0x35 });
            tape.extend(row.to_be_bytes());
            tape.extend(table);
            write_page(tape, page);
        }
        Command::Read { section, page } => {
            tape.push(0x36);
            write_page(tape, page);
            write_bytes(tape, section);
        }
        Command::Date(day) => {
            tape.push(0x37);
            tape.extend(day.to_be_bytes());
        }
        Command::Entries { reader, row, page } => {
            tape.extend([0x24, *reader]);
            tape.extend(row.to_be_bytes());
            write_page(tape, page);
        }
        Command::ReadTable { reader, section, page } => {
            tape.extend([0x25, *reader]);
            write_page(tape, page);
            write_bytes(tape, section);
        }
        Command::Demux(Demux::Open(_)) => write_opening(command, 0x40, tape),
        Command::Demux(Demux::Streams(buffers)) => {
            tape.push(0x41);
            tape.extend(buffers.to_be_bytes());
        }
        Command::Demux(Demux::Packet(packet)) => {
            tape.push(0x42);
            write_bytes(tape, packet);
        }
        Command::Demux(Demux::Ask(pid)) => {
            tape.push(0x43);
            tape.extend(pid.to_be_bytes());
        }
        Command::Demux(Demux::Watched) => tape.push(0x44),
        Command::Guides(command) => guides::write(command, tape, NO_PID),
        Command::Logs(command) => logs::write(command, tape, NO_PID),
    }
}

fn write_opening(command: &Command, first: u8, tape: &mut Vec<u8>) {
    let Opening { capacity, repeats, follow, well_known, rule, pats, extra } = command.opening().expect("an opening");
    tape.push(first);
    tape.extend(capacity.to_be_bytes());
    let by = RULES.iter().position(|&known| known == rule).expect("a rule that a tape can name") as u8;
    tape.push(u8::from(repeats) | u8::from(follow) << 1 | u8::from(well_known) << 2 | by << 3 | u8::from(pats) << 5);
    tape.push(u8::try_from(extra.len()).expect("at most 255 extra PIDs"));
    tape.extend(extra.iter().flat_map(|pid| pid.to_be_bytes()));
}

fn write_section(tape: &mut Vec<u8>, pid: u16, section: &[u8]) {
    tape.extend(pid.to_be_bytes());
    write_bytes(tape, section);
}

fn write_bytes(tape: &mut Vec<u8>, bytes: &[u8]) {
    tape.extend(u16::try_from(bytes.len()).expect("at most 65,535 bytes").to_be_bytes());
    tape.extend(bytes);
}

fn write_page(tape: &mut Vec<u8>, page: &Page) {
    tape.extend(page.skip.to_be_bytes());
    tape.extend(page.room.to_be_bytes());
}

fn write_filter(tape: &mut Vec<u8>, filter: &Filter) {
    let exact = [
        filter.pid.is_some(),
        filter.kind.is_some(),
        filter.service_id.is_some(),
        filter.transport_stream_id.is_some(),
        filter.original_network_id.is_some(),
        filter.current_next.is_some(),
        filter.this_input,
    ];
    tape.push(exact.iter().rev().fold(0, |mask, &bit| mask << 1 | u8::from(bit)));
    tape.extend(filter.pid.flatten().unwrap_or(NO_PID).to_be_bytes());
    tape.push(filter.kind.unwrap_or(0));
    for field in [filter.service_id, filter.transport_stream_id, filter.original_network_id] {
        tape.extend(field.unwrap_or(0).to_be_bytes());
    }
    tape.push(filter.current_next.unwrap_or(0));
}
