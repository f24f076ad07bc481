//! Networks, bouquets and services: scripts that ask for their entries, the port beside the second implementation; and the program `tables` beside what the second implementation
//! makes of its input. The original lists nothing.
use crate::beside;
use crate::make::{self, Dice, Domain, Head, damaged, long, mend};
use crate::program::Program;
use crate::second::{Reading, Second, crc};
use player::answer::{Answer, Out, Set, hex};
use player::command::{Command, Page, Part};
use std::path::Path;

/// The table_ids of the three readers (EN 300 468, table 2), and two of none.
const TABLES: [u8; 7] = [0x40, 0x41, 0x42, 0x46, 0x4A, 0x00, 0x4E];

// ---- scripts

/// A script of runs of the set collector whose sections say something, with questions for what they say.
pub fn script(seed: u64, commands: usize) -> Vec<Command> {
    let mut dice = Dice::new(seed ^ 0x4B << 48);
    let mut script = if dice.once_in(3) { vec![question(&mut dice)] } else { Vec::new() };
    while script.len() < commands {
        let domain = dice.of(&[Domain::Inside, Domain::Inside, Domain::Damaged, Domain::CellBound]);
        let length = 40 + dice.below(200);
        let mut size = 0;
        for command in make::collector_run(&mut dice, length, domain, Part::Sets) {
            match command {
                Command::Push { part, pid, section } => {
                    let section = spoken(section, size);
                    let read = if dice.once_in(3) { damaged(&mut dice, section.clone()) } else { section.clone() };
                    script.push(Command::Push { part, pid, section });
                    if dice.once_in(3) {
                        let reader = reader_for(&mut dice, read.first().copied().unwrap_or(0));
                        script.push(Command::ReadTable { reader, section: read, page: page(&mut dice) });
                    }
                    if dice.once_in(2) {
                        script.push(question(&mut dice));
                    }
                }
                Command::Open { size: asked, .. } => {
                    size = usize::from(asked);
                    script.push(command);
                }
                command => script.push(command),
            }
        }
    }
    script
}

/// Mostly the reader of the table, else any number.
fn reader_for(dice: &mut Dice, table_id: u8) -> u8 {
    match table_id {
        0x40 | 0x41 if !dice.once_in(5) => 1,
        0x4A if !dice.once_in(5) => 2,
        0x42 | 0x46 if !dice.once_in(5) => 3,
        _ => dice.of(&[0, 1, 1, 2, 3, 3, 4, 255]),
    }
}

fn question(dice: &mut Dice) -> Command {
    let reader = dice.of(&[1, 1, 1, 2, 2, 3, 3, 3, 0, 4]);
    Command::Entries { reader, row: dice.of(&[0, 0, 0, 0, 1, 1, 2, 3, 7, 64, 0xFFFF]), page: page(dice) }
}

fn page(dice: &mut Dice) -> Page {
    Page { skip: dice.of(&[0, 0, 0, 0, 1, 2, 5, 12, 0xFFFF]), room: dice.of(&[0, 1, 2, 5, 64, 64, 300]) }
}

/// The section with another table_id and a body of that table, where it is sound; the same bytes always get the same body, and table_ids are exchanged for others one for one.
fn spoken(section: Vec<u8>, size: usize) -> Vec<u8> {
    let sound = section.len() >= 12 && section[1] & 0x80 != 0 && crc(&section) == 0;
    if !sound {
        return section;
    }
    let mut dice = Dice::new(section.iter().fold(1, |sum: u64, &byte| sum.wrapping_mul(31).wrapping_add(byte.into())));
    let mut bytes = section[..8].to_vec();
    bytes[0] = TABLES[usize::from(section[0] ^ section[4]) % TABLES.len()];
    let room = size.min(4096).saturating_sub(12);
    let mut body = match bytes[0] {
        0x42 | 0x46 => services(&mut dice, room),
        0x00 | 0x4E => section[8..section.len() - 4].to_vec(),
        _ => streams(&mut dice, room),
    };
    if dice.once_in(20) && !body.is_empty() {
        let at = dice.below(body.len());
        body[at] = dice.of(&[0, 1, 0xFF, 0xF0, body[at].wrapping_add(1), body[at].wrapping_sub(1)]);
    }
    if dice.once_in(40) {
        body.truncate(dice.below(4));
    }
    if dice.once_in(40) {
        body.push(dice.byte());
    }
    bytes.extend(body);
    bytes.extend([0; 4]);
    mend(&mut bytes);
    bytes
}

fn counted(dice: &mut Dice, bytes: Vec<u8>) -> Vec<u8> {
    let mut all = ((dice.below(16) as u16) << 12 | bytes.len() as u16).to_be_bytes().to_vec();
    all.extend(bytes);
    all
}

/// EN 300 468, 5.2.1 and 5.2.2, from byte 8 on.
fn streams(dice: &mut Dice, room: usize) -> Vec<u8> {
    let first = descriptors(dice);
    let mut body = counted(dice, if first.len() + 4 <= room { first } else { Vec::new() });
    let mut streams = Vec::new();
    let many = dice.once_in(60);
    for _ in 0..if many { 60 } else { dice.of(&[0, 1, 1, 2, 3]) } {
        let mut stream = dice.of(&[0u16, 1, 0x0100, 0xFFFF]).to_be_bytes().to_vec();
        stream.extend(dice.of(&[1u16, 0x2174, 0xFF01]).to_be_bytes());
        let loop_of = descriptors(dice);
        stream.extend(counted(dice, loop_of));
        if body.len() + 2 + streams.len() + stream.len() <= room {
            streams.extend(stream);
        }
    }
    body.extend(counted(dice, streams));
    body
}

/// EN 300 468, 5.2.3, from byte 8 on.
fn services(dice: &mut Dice, room: usize) -> Vec<u8> {
    let mut body = dice.of(&[1u16, 0x2174, 0xFF01]).to_be_bytes().to_vec();
    body.push(dice.of(&[0xFF, 0]));
    let many = dice.once_in(60);
    for _ in 0..if many { 60 } else { dice.of(&[0, 1, 1, 2, 3]) } {
        let mut service = dice.of(&[0u16, 1, 0x0100, 0xFFFF]).to_be_bytes().to_vec();
        service.push(dice.byte());
        let loop_of = descriptors(dice);
        service.extend(counted(dice, loop_of));
        if body.len() + service.len() <= room {
            body.extend(service);
        }
    }
    body
}

/// A descriptor loop; now and then long, with a byte left over, or with a length that runs past it.
fn descriptors(dice: &mut Dice) -> Vec<u8> {
    let mut bytes = Vec::new();
    for _ in 0..if dice.once_in(150) { 10 } else { dice.of(&[0, 0, 1, 1, 2, 5]) } {
        let length = if dice.once_in(60) { 255 } else { dice.of(&[0, 0, 1, 3, 9]) };
        bytes.extend([dice.of(&[0x40, 0x41, 0x47, 0x48, 0xFF]), length]);
        bytes.extend((0..length).map(|_| dice.byte()));
    }
    if dice.once_in(30) {
        let wrong: &[u8] = dice.of(&[&[0x4D][..], &[0x4D, 1], &[0x4D, 255, 0], &[0, 2, 7]]);
        bytes.extend(wrong);
    }
    bytes
}

// ---- the program

/// What `tables` writes on an input, by the second implementation; with a reader named, every set is read by it.
fn output(input: &[u8], named: Option<u8>) -> String {
    let mut second = Second::new(Reading::default());
    second.open_sets(64, 512, 4096);
    let mut run =
        Run { second, named, text: String::new(), sections: 0, sets: 0, streams: 0, services: 0, descriptors: 0, refused: 0, other: 0 };
    if !crate::watch::each_record(input, |pid, section| run.take(pid, section)) {
        run.text.push_str("cut\n");
    }
    let Run { sections, sets, streams, services, descriptors, refused, other, .. } = run;
    let totals = format!(
        "sections {sections} sets {sets} streams {streams} services {services} descriptors {descriptors} refused {refused} other {other}\n"
    );
    run.text + &totals
}

struct Run {
    second: Second,
    named: Option<u8>,
    text: String,
    sections: u64,
    sets: u64,
    streams: u64,
    services: u64,
    descriptors: u64,
    refused: u64,
    other: u64,
}

impl Run {
    fn line(&mut self, line: String) {
        self.text.push_str(&line);
        self.text.push('\n');
    }

    fn take(&mut self, pid: u16, section: &[u8]) {
        self.sections += 1;
        let told = self.second.answer(&Command::Push { part: Part::Sets, pid: Some(pid), section: section.to_vec() });
        let Answer::Collected(number, _, out) = told else { panic!("a section was pushed") };
        match (number, out) {
            (_, Out::Set(set)) => {
                self.sets += 1;
                let by_table = match set.table_id {
                    0x40 | 0x41 => Some(1),
                    0x4A => Some(2),
                    0x42 | 0x46 => Some(3),
                    _ => None,
                };
                if let Some(reader) = self.named.or(by_table) {
                    let Set { table_id, extension, current_next, version, last, .. } = set;
                    let current = u8::from(current_next);
                    self.line(format!("set {pid:04X} {table_id:02X} {extension:04X} current {current} version {version} last {last}"));
                    self.entries(reader, &set.sections);
                }
            }
            (4, _) => {}
            (15, _) => self.other += 1,
            (12, _) => {
                self.refused += 1;
                self.line(format!("badpid {pid:04X}"));
            }
            (number, _) => {
                self.refused += 1;
                self.line(format!("refused {number} {pid:04X} {:02X} {}", section[0], section.len()));
            }
        }
    }

    /// The lines of a set's entries, or why there are none.
    fn entries(&mut self, reader: u8, sections: &[Vec<u8>]) {
        let all = Page { skip: 0, room: u16::MAX };
        let mut told = Vec::new();
        for section in sections {
            let answer = self.second.answer(&Command::ReadTable { reader, section: section.clone(), page: all });
            let Answer::Entries(_, number, Some(([_, at, place], entries))) = answer else { panic!("a reader tells something") };
            if number > 9 {
                return self.line(format!("broken {number} section {at} byte {place}"));
            }
            told.extend(entries.into_iter().map(|words| (section, words)));
        }
        told.into_iter().for_each(|(section, words)| self.entry(section, words));
    }

    fn entry(&mut self, section: &[u8], [kind, number, at, id, length, network, _, _, _, running, ca, flags]: [u32; 12]) {
        match kind {
            3 => {
                self.streams += 1;
                self.line(format!("stream {number} {id:04X} network {network:04X} descriptors {length}"));
            }
            4 => {
                self.services += 1;
                let [schedule, following] = [flags >> 1, flags & 1];
                self.line(format!(
                    "service {number} {id:04X} network {network:04X} schedule {schedule} following {following} running {running} ca {ca} descriptors {length}"
                ));
            }
            _ => {
                self.descriptors += 1;
                let bytes = &section[at as usize + 2..][..length as usize];
                let bytes = if bytes.is_empty() { String::new() } else { format!(" {}", hex(bytes)) };
                self.line(format!("descriptor {id:02X} {length}{bytes}"));
            }
        }
    }
}

fn record(pid: u16, section: Vec<u8>) -> Vec<u8> {
    [&pid.to_be_bytes(), &section[..]].concat()
}

fn head(table_id: u8, number: u8, last: u8) -> Head {
    Head { table_id, extension: 1, version: 0, current_next: true, number, last }
}

/// The largest sections that there are: 680 transport streams, 816 services, 2,040 descriptors of no bytes; and a table of 256 sections of 816 services.
fn largest() -> Vec<(&'static str, Vec<u8>)> {
    let short = |length: usize| (0xF000 | length as u16).to_be_bytes();
    let streams = [&[0xF0, 0][..], &short(4080), &[0, 1, 0x21, 0x74, 0xF0, 0].repeat(680)].concat();
    let services = |count| [&[0x21, 0x74, 0xFF][..], &[0, 1, 0xFD, 0x80, 0].repeat(count)].concat();
    let descriptors = [&short(4080)[..], &[0x40, 0].repeat(2040), &[0xF0, 0]].concat();
    let many = (0..=255).flat_map(|number| record(0x11, long(head(0x42, number, 255), &services(816)))).collect();
    let empty = (0..=255).flat_map(|number| record(0x10, long(head(0x40, number, 255), &descriptors))).collect();
    vec![
        ("680 transport streams", record(0x10, long(head(0x40, 0, 0), &streams))),
        ("816 services", record(0x11, long(head(0x42, 0, 0), &services(816)))),
        ("2,040 descriptors of no bytes", record(0x10, long(head(0x40, 0, 0), &descriptors))),
        ("256 sections of 816 services", many),
        ("256 sections of 2,040 descriptors of no bytes", empty),
    ]
}

/// The program on its stored input, cut at each place near an end of a record, on feeds of seeds by each reader, and on the largest sections and tables there are.
fn compare_program(root: &Path) -> bool {
    let program = Program::new(root, "tables");
    let (stored, mut good) = beside::stored(root, "tables", |input| output(input, None));
    let mut inputs: Vec<Vec<u8>> = (0..=120).map(|end| stored[..end].to_vec()).collect();
    inputs.push(stored);
    inputs.extend((0..40).map(|seed| beside::feed(seed, script(seed, 400), 0x0010)));
    let mut same = 0;
    for (at, input) in inputs.iter().enumerate() {
        let (named, words): (_, &[&str]) =
            if at < 121 { (None, &[]) } else { [(None, &[][..]), (Some(1), &["nit"]), (Some(2), &["bat"]), (Some(3), &["sdt"])][at % 4] };
        same += usize::from(program.output_of(words, input) == output(input, named));
    }
    println!("tables on {} inputs, an empty one among them, with and without a reader: {same} equal", inputs.len());
    good &= same == inputs.len();
    good &= program.output_of(&["pat"], &inputs[121]) == "usage: tables [nit|bat|sdt]\n";
    largest().iter().fold(good, |good, (name, input)| beside::large(&program, name, input, |input| output(input, None)) && good)
}

// ---- the comparison

/// The scripts of networks/; seeds, the port beside the second implementation; and the program.
pub fn compare(root: &Path, seeds: usize, commands: usize) -> bool {
    let written = beside::as_said(root, "networks");
    let seeds = beside::seeds_alike("entries of networks, bouquets and services", seeds, |seed| script(seed, commands));
    written && seeds && compare_program(root)
}
