//! A guide monitor in Rust over the proved library: reads records from standard input or from the file named, a PID (two bytes, high byte
//! first) and a section each, or with --ts a transport stream, and prints each new section, each complete set and schedule with their events,
//! transport streams and services, and totals, as examples/monitor.c does; repeats wait until there are many, and go on in one call. With -w FOLDER each set and schedule that goes out is also written to a
//! file there, which `./run compare_guides` takes. With -l LIMIT FOLDER it keeps a log besides, and the list of the sections that it is of: the files log and
//! sections there, to which `./run check_log 4096 0 2 LIMIT 4096 256 with FOLDER/sections < FOLDER/log` says yes.

use petrizolu::{
    Answer, BAT, Complete, DEFAULT_CHANGE_RULE, Demux, EVENT, Eit, Ended, Entry, Gate, GateState, Listing, NIT, Name, Offered,
    PACKET_BYTES, Refused, SDT, SERVICE, Section, Sets, TRANSPORT_STREAM, UNDEFINED, date, listed_section, offer_record, set_record,
};
use std::fs::File;
use std::io::{self, BufReader, BufWriter, Read, Write};
use std::path::{Path, PathBuf};

const SCHEDULE_ACTUAL: u8 = 2;

/// All records, and all packets, come on one input.
const INPUT: u8 = 0;
const NULL_PID: u16 = 0x1FFF;

/// How many bytes of repeats wait at most.
const GATHERED: usize = 1 << 16;

/// What stands behind the gate.
struct Monitor {
    sets: Sets,
    eit: Eit,
    /// Sections that wait for one of the collectors, as a section list, and whether for the EIT collector; all of them go on before anything else is printed.
    gathered: Vec<u8>,
    of_events: bool,
    unwatched: u64,
    complete_sets: u64,
    complete_schedules: u64,
    refused: u64,
    /// Of the files that are written, if any.
    folder: Option<PathBuf>,
    log: Option<Log>,
}

/// A log that is kept, and the set collector that it tells of: it gets every sound section, of an EIT and of the short form too, and is never cleared.
struct Log {
    sets: Sets,
    records: BufWriter<File>,
    sections: BufWriter<File>,
}

impl Log {
    fn open(limit: usize, folder: &Path) -> io::Result<Self> {
        let [records, sections] = ["log", "sections"].map(|name| File::create(folder.join(name)).map(BufWriter::new));
        Ok(Self { sets: Sets::open(limit, 4096, 256).map_err(not_open)?, records: records?, sections: sections? })
    }

    /// The record of the gate's answer; and where the collector has a set by this section, the set's.
    fn keep(&mut self, pid: u16, offered: Offered, section: &[u8]) -> io::Result<()> {
        let record = offer_record(offered.answer(), DEFAULT_CHANGE_RULE, INPUT, pid, section);
        let listed = listed_section(INPUT, pid, section);
        let (Ok(record), Some(listed)) = (record, listed) else { return Ok(()) };
        self.sections.write_all(&listed)?;
        self.records.write_all(&record)?;
        let sound = matches!(offered, Offered::Emitted | Offered::Suppressed);
        if sound && matches!(self.sets.push(INPUT, Some(pid), section), Ok(Some(_))) {
            self.records.write_all(&set_record(INPUT, Some(pid), section))?;
        }
        Ok(())
    }

    fn close(mut self) -> io::Result<()> {
        self.records.flush()?;
        self.sections.flush()
    }
}

fn show_sections(sections: &[Section]) {
    for section in sections {
        println!("  section {}, {} bytes", section.number, section.bytes.len());
    }
}

fn date_text(day: u32) -> String {
    match date(day) {
        0 => format!("day {day}"),
        date => format!("{:04}-{:02}-{:02}", date / 10000, date / 100 % 100, date % 100),
    }
}

fn seconds_text(seconds: u32) -> String {
    match seconds {
        UNDEFINED => "undefined".into(),
        _ => format!("{:02}:{:02}:{:02}", seconds / 3600, seconds / 60 % 60, seconds % 60),
    }
}

fn show_events(listing: Result<Listing, Refused>) {
    let Ok(Listing { entries, ended }) = listing else { return };
    for Entry { id, day, time, duration, .. } in entries.into_iter().filter(|entry| entry.kind == EVENT) {
        println!("  event {id:04X} on {} at {} for {}", date_text(day), seconds_text(time), seconds_text(duration));
    }
    if let Some(Ended { section, place, .. }) = ended {
        println!("  broken at byte {place} of section {section}");
    }
}

/// The reader of a table_id (EN 300 468, table 2).
fn reader_of(table_id: u8) -> Option<u32> {
    match table_id {
        0x40 | 0x41 => Some(NIT),
        0x4A => Some(BAT),
        0x42 | 0x46 => Some(SDT),
        _ => None,
    }
}

fn show_entries(listing: Result<Listing, Refused>) {
    let Ok(Listing { entries, ended }) = listing else { return };
    for Entry { kind, id, original_network_id, running_status, free_ca_mode, .. } in entries {
        let scrambled = if free_ca_mode == 1 { ", scrambled" } else { "" };
        match kind {
            TRANSPORT_STREAM => println!("  stream {id:04X} of network {original_network_id:04X}"),
            SERVICE => println!("  service {id:04X} of network {original_network_id:04X}, running status {running_status}{scrambled}"),
            _ => {}
        }
    }
    if let Some(Ended { answer: Answer::BROKEN_LOOP, section, place }) = ended {
        println!("  broken at byte {place} of section {section}");
    }
}

/// A set or a schedule in a file: its PID in two bytes, and its sections. The name is PID-TABLE-EXTENSION, of an EIT -TSID-ONID more; of one that is not yet
/// in force -next more. A set that goes out again is written anew.
fn write_copy(folder: Option<&PathBuf>, name: &Name, table_id: u8, sections: &[Section]) {
    let Some(folder) = folder else { return };
    let pid = name.pid;
    let mut file = format!("{pid:04X}-{table_id:02X}-{:04X}", name.extension);
    if (0x4E..=0x6F).contains(&table_id) {
        file += &format!("-{:04X}-{:04X}", name.transport_stream_id, name.original_network_id);
    }
    if !name.current_next {
        file += "-next";
    }
    let mut bytes = pid.to_be_bytes().to_vec();
    sections.iter().for_each(|section| bytes.extend(section.bytes));
    if let Err(error) = std::fs::write(folder.join(&file), bytes) {
        eprintln!("{file}: {error}");
        std::process::exit(1);
    }
}

impl Monitor {
    fn open(folder: Option<PathBuf>, log: Option<Log>) -> io::Result<Self> {
        Ok(Self {
            sets: Sets::open(64, 4096, 1024).map_err(not_open)?,
            eit: Eit::open(64, 4096, 1024).map_err(not_open)?,
            gathered: Vec::new(),
            of_events: false,
            unwatched: 0,
            complete_sets: 0,
            complete_schedules: 0,
            refused: 0,
            folder,
            log,
        })
    }

    /// A section and the gate's answer to it. A repeat goes on too: it completes a set that was evicted between two of its sections, or found no cell.
    fn judged(&mut self, pid: u16, offered: Offered, section: &[u8]) {
        if let Some(Err(error)) = self.log.as_mut().map(|log| log.keep(pid, offered, section)) {
            eprintln!("the log: {error}");
            std::process::exit(1);
        }
        match offered {
            // It may complete a set, which is shown at once.
            Offered::Emitted => {
                self.push_gathered();
                println!("new pid {pid:04X} table {:02X}, {} bytes", section[0], section.len());
                self.gather(pid, section);
                self.push_gathered();
            }
            Offered::Suppressed => self.gather(pid, section),
            Offered::TooShort(length) => {
                self.push_gathered();
                println!("short pid {pid:04X}, {length} bytes");
            }
            Offered::Mismatch { stored, worked } => {
                self.push_gathered();
                println!("mismatch pid {pid:04X}, stored {stored:08X}, worked {worked:08X}");
            }
        }
    }

    fn gather(&mut self, pid: u16, section: &[u8]) {
        let of_events = (0x4E..=0x6F).contains(&section[0]);
        if of_events != self.of_events || self.gathered.len() > GATHERED {
            self.push_gathered();
        }
        self.of_events = of_events;
        self.gathered.extend(listed_section(INPUT, pid, section).expect("no section is longer"));
    }

    /// What waits goes to its collector: behind each section that has something to say the call ends, and goes on with the rest.
    fn push_gathered(&mut self) {
        let gathered = std::mem::take(&mut self.gathered);
        let mut list = &gathered[..];
        while !list.is_empty() {
            let taken = if self.of_events { self.push_events(list) } else { self.push_sets(list) };
            list = if taken == 0 { &[] } else { &list[taken..] };
        }
    }

    fn push_sets(&mut self, list: &[u8]) -> usize {
        let (told, taken) = self.sets.push_all(list);
        match told {
            // A TDT or TOT: there is no set of it.
            Ok(None) | Err(Refused(Answer::SHORT_FORM)) => {}
            Ok(Some(row)) => {
                self.complete_sets += 1;
                let name = self.sets.name(&row);
                let Name { pid, table_id, extension, version, .. } = name;
                println!("set pid {pid:04X} table {table_id:02X} extension {extension:04X} version {version}");
                let sections = self.sets.sections(&row);
                show_sections(&sections);
                write_copy(self.folder.as_ref(), &name, table_id, &sections);
                if let Some(reader) = reader_of(table_id) {
                    show_entries(self.sets.entries(reader, &row));
                }
            }
            Err(Refused(answer)) => self.refuse(answer),
        }
        taken
    }

    fn push_events(&mut self, list: &[u8]) -> usize {
        let (told, taken) = self.eit.push_all(list);
        match told {
            Ok(None) => {}
            Ok(Some(Complete::Set(row))) => {
                self.complete_sets += 1;
                let name = self.eit.name(&row);
                let Name { pid, table_id, extension, version, .. } = name;
                println!("present/following pid {pid:04X} service {extension:04X} version {version}");
                let sections = self.eit.sections(&row);
                show_sections(&sections);
                write_copy(self.folder.as_ref(), &name, table_id, &sections);
                show_events(self.eit.events(&row));
            }
            Ok(Some(Complete::Schedule(row))) => {
                self.complete_schedules += 1;
                let name = self.eit.schedule_name(&row);
                let Name { pid, table_id: kind, extension, last, .. } = name;
                let first = if kind == SCHEDULE_ACTUAL { 0x50 } else { 0x60 };
                println!("schedule pid {pid:04X} service {extension:04X} tables {first:02X} to {last:02X}");
                let mut all = Vec::new();
                for table_id in first..=last {
                    println!(" table {table_id:02X}");
                    let sections = self.eit.table_sections(&row, table_id - first);
                    show_sections(&sections);
                    all.extend(sections);
                    show_events(self.eit.table_events(&row, table_id - first));
                }
                write_copy(self.folder.as_ref(), &name, first, &all);
            }
            Err(Refused(answer)) => self.refuse(answer),
        }
        taken
    }

    fn refuse(&mut self, answer: Answer) {
        self.refused += 1;
        println!("refused {answer}");
    }

    /// No section comes any more.
    fn input_ends(&mut self, cut: bool) {
        self.push_gathered();
        if cut {
            println!("cut");
        }
    }

    fn end(self, gate: GateState) -> io::Result<()> {
        println!(
            "sections {} new {} repeats {} crc {} unwatched {}",
            gate.completed, gate.emitted, gate.suppressed, gate.crc_failures, self.unwatched
        );
        let eit = self.eit.state();
        println!(
            "sets {} schedules {} refused {} evicted {}",
            self.complete_sets,
            self.complete_schedules,
            self.refused,
            self.sets.state().evictions + eit.evictions + eit.schedule_evictions
        );
        self.log.map_or(Ok(()), Log::close)
    }
}

/// The next record: its PID, with the section in `section`; none at the end of the input.
fn read_record(input: &mut impl Read, section: &mut Vec<u8>) -> io::Result<Option<u16>> {
    let mut head = [0; 5];
    if input.read(&mut head[..1])? == 0 {
        return Ok(None);
    }
    input.read_exact(&mut head[1..])?;
    let rest = usize::from(u16::from_be_bytes([head[3] & 0x0F, head[4]]));
    section.clear();
    section.extend_from_slice(&head[2..]);
    section.resize(3 + rest, 0);
    input.read_exact(&mut section[3..])?;
    Ok(Some(u16::from_be_bytes([head[0], head[1]])))
}

/// What is read, until the input ends; whether it is cut there.
fn until_the_end(mut read: impl FnMut() -> io::Result<bool>) -> io::Result<bool> {
    loop {
        match read() {
            Ok(true) => {}
            Ok(false) => return Ok(false),
            Err(error) if error.kind() == io::ErrorKind::UnexpectedEof => return Ok(true),
            Err(error) => return Err(error),
        }
    }
}

fn not_open(Refused(answer): Refused) -> io::Error {
    io::Error::other(format!("the stores do not open: {answer}"))
}

fn read_records(mut input: impl Read, mut monitor: Monitor) -> io::Result<()> {
    let mut gate = Gate::open(4096, &[]).map_err(not_open)?;
    let mut section = Vec::new();
    let cut = until_the_end(|| {
        let Some(pid) = read_record(&mut input, &mut section)? else { return Ok(false) };
        if !gate.watches(INPUT, pid) {
            monitor.unwatched += 1;
        } else if let Ok(offered) = gate.offer(INPUT, pid, &section) {
            monitor.judged(pid, offered, &section);
        }
        Ok(true)
    })?;
    monitor.input_ends(cut);
    monitor.end(gate.state())
}

fn pid_of(packet: &[u8]) -> u16 {
    u16::from_be_bytes([packet[1] & 0x1F, packet[2]])
}

/// Fills the block; less where the input ends.
fn read_block(input: &mut impl Read, block: &mut [u8]) -> io::Result<usize> {
    let mut filled = 0;
    while filled < block.len() {
        match input.read(&mut block[filled..]) {
            Ok(0) => break,
            Ok(n) => filled += n,
            Err(error) if error.kind() == io::ErrorKind::Interrupted => {}
            Err(error) => return Err(error),
        }
    }
    Ok(filled)
}

/// A packet, and each section that it finishes. Packets of PIDs that are not watched are counted, but null packets.
fn take_packet(demux: &mut Demux, monitor: &mut Monitor, packet: &[u8]) {
    let pid = pid_of(packet);
    let watched = demux.watches(INPUT, pid);
    match demux.feed(INPUT, packet) {
        Ok(fed) => {
            monitor.unwatched += u64::from(!watched && pid != NULL_PID);
            fed.for_each(|(offered, section)| monitor.judged(pid, offered, section));
        }
        Err(Refused(Answer::NO_BUFFER)) => {
            monitor.push_gathered();
            println!("no buffer for pid {pid:04X}");
        }
        Err(_) => {}
    }
}

/// Packets one after another: those that are passed over by one call, each other by a feed.
fn take_packets(demux: &mut Demux, monitor: &mut Monitor, mut packets: &[u8]) {
    while !packets.is_empty() {
        let (passed, rest) = packets.split_at(demux.pass(INPUT, packets) * PACKET_BYTES);
        let unwatched = |packet: &&[u8]| !demux.watches(INPUT, pid_of(packet)) && pid_of(packet) != NULL_PID;
        monitor.unwatched += passed.chunks_exact(PACKET_BYTES).filter(unwatched).count() as u64;
        let Some((packet, rest)) = rest.split_at_checked(PACKET_BYTES) else { return };
        take_packet(demux, monitor, packet);
        packets = rest;
    }
}

fn read_packets(mut input: impl Read, mut monitor: Monitor) -> io::Result<()> {
    let mut demux = Demux::open(1, 4096, 64, &[]).map_err(not_open)?;
    let mut block = [0; 256 * PACKET_BYTES];
    let cut = loop {
        let filled = read_block(&mut input, &mut block)?;
        let cut = filled % PACKET_BYTES;
        take_packets(&mut demux, &mut monitor, &block[..filled - cut]);
        if filled < block.len() {
            break cut != 0;
        }
    };
    monitor.input_ends(cut);
    let streams = demux.streams(INPUT);
    println!("packets {} malformed {}", streams.packets, streams.malformed);
    monitor.end(demux.state())
}

fn main() -> io::Result<()> {
    let mut words = std::env::args_os().skip(1).peekable();
    let folder = words.next_if(|word| word == "-w").and_then(|_| words.next()).map(PathBuf::from);
    let log = match words.next_if(|word| word == "-l") {
        None => None,
        Some(_) => {
            let limit = words.next().and_then(|word| word.to_str()?.parse().ok()).ok_or_else(|| io::Error::other("-l LIMIT FOLDER"))?;
            Some(Log::open(limit, Path::new(&words.next().ok_or_else(|| io::Error::other("-l LIMIT FOLDER"))?))?)
        }
    };
    let packets = words.next_if(|word| word == "--ts").is_some();
    let input: Box<dyn Read> = match words.next() {
        Some(file) => Box::new(BufReader::new(std::fs::File::open(file)?)),
        None => Box::new(io::stdin().lock()),
    };
    let monitor = Monitor::open(folder, log)?;
    if packets { read_packets(input, monitor) } else { read_records(input, monitor) }
}
