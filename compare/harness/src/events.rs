//! What a guide says: scripts that ask for its entries, the port beside the second implementation; and the program `events` beside what the second implementation makes of its
//! input. The original lists nothing.
use crate::beside;
use crate::make::{self, Dice, Domain, damaged, mend};
use crate::program::Program;
use crate::report::Report;
use crate::second::{Reading, Second, crc};
use player::answer::{Answer, Out, Set, hex};
use player::command::{Command, Page, Part};
use std::fmt::Write as _;
use std::path::Path;

// ---- scripts

/// A script of runs of the EIT collector whose sections say something, with questions for what they say.
pub fn script(seed: u64, commands: usize) -> Vec<Command> {
    let mut dice = Dice::new(seed ^ 0x4A << 48);
    let mut script = if dice.once_in(3) { vec![question(&mut dice)] } else { Vec::new() };
    while script.len() < commands {
        let domain = dice.of(&[Domain::Inside, Domain::Inside, Domain::Damaged, Domain::CellBound]);
        let length = 40 + dice.below(200);
        let mut size = 0;
        for command in make::collector_run(&mut dice, length, domain, Part::Eit) {
            match command {
                Command::Push { part, pid, section } => {
                    let section = spoken(section, size);
                    let read = if dice.once_in(3) { damaged(&mut dice, section.clone()) } else { section.clone() };
                    script.push(Command::Push { part, pid, section });
                    if dice.once_in(4) {
                        script.push(Command::Read { section: read, page: page(&mut dice) });
                    }
                    if dice.once_in(2) {
                        script.push(question(&mut dice));
                    }
                }
                Command::Open { size: asked, .. } => {
                    size = usize::from(asked);
                    script.push(command);
                }
                command => script.push(command),
            }
        }
    }
    script
}

fn question(dice: &mut Dice) -> Command {
    if dice.once_in(20) {
        let edge = dice.of(&[0, 15_078, 15_079, 49_273, 51_603, 51_604, 65_535, 65_536, u32::MAX]);
        return Command::Date(if dice.once_in(2) { edge } else { dice.below(66_000) as u32 });
    }
    let table = dice.once_in(2).then(|| dice.of(&[0, 0, 0, 1, 1, 2, 3, 15, 16, 255]));
    Command::Events { row: dice.of(&[0, 0, 0, 0, 1, 1, 2, 3, 7, 64, 0xFFFF]), table, page: page(dice) }
}

fn page(dice: &mut Dice) -> Page {
    Page { skip: dice.of(&[0, 0, 0, 0, 1, 2, 5, 12, 0xFFFF]), room: dice.of(&[0, 1, 2, 5, 64, 64, 300]) }
}

/// The section with other events in place of its own, where it is a sound EIT; the same bytes always get the same events.
fn spoken(section: Vec<u8>, size: usize) -> Vec<u8> {
    let sound = section.len() >= 18 && (0x4E..=0x6F).contains(&section[0]) && section[1] & 0x80 != 0 && crc(&section) == 0;
    if !sound {
        return section;
    }
    let mut dice = Dice::new(section.iter().fold(1, |sum: u64, &byte| sum.wrapping_mul(31).wrapping_add(byte.into())));
    let mut bytes = section[..14].to_vec();
    let many = dice.once_in(60);
    for _ in 0..if many { 40 } else { dice.of(&[0, 1, 1, 2, 3]) } {
        let event = event(&mut dice);
        if bytes.len() + event.len() + 4 <= size {
            bytes.extend(event);
        }
    }
    bytes.extend([0; 4]);
    mend(&mut bytes);
    bytes
}

/// EN 300 468, 5.2.4.
fn event(dice: &mut Dice) -> Vec<u8> {
    let descriptors = descriptors(dice);
    let mut event = dice.of(&[0u16, 1, 0x0100, 0xFFFF]).to_be_bytes().to_vec();
    event.extend(dice.of(&[0u16, 15_078, 15_079, 49_273, 60_480, 65_535]).to_be_bytes());
    for _ in 0..6 {
        let digit = |dice: &mut Dice| if dice.once_in(40) { dice.below(16) } else { dice.below(10) } as u8;
        event.push(digit(dice) << 4 | digit(dice));
    }
    event.extend(((dice.below(16) as u16) << 12 | descriptors.len() as u16).to_be_bytes());
    event.extend(descriptors);
    event
}

/// A descriptor loop; now and then with a byte left over, or with a length that runs past it.
fn descriptors(dice: &mut Dice) -> Vec<u8> {
    let mut bytes = Vec::new();
    for _ in 0..dice.of(&[0, 0, 1, 1, 2, 5]) {
        let length = if dice.once_in(60) { 255 } else { dice.of(&[0, 0, 1, 3, 9]) };
        bytes.extend([dice.of(&[0x4D, 0x4E, 0x50, 0x54, 0xFF]), length]);
        bytes.extend((0..length).map(|_| dice.below(256) as u8));
    }
    if dice.once_in(15) {
        let wrong: &[u8] = dice.of(&[&[0x4D][..], &[0x4D, 1], &[0x4D, 255, 0], &[0, 2, 7]]);
        bytes.extend(wrong);
    }
    bytes
}

// ---- the program

/// What `events` writes on an input, by the second implementation.
fn output(input: &[u8]) -> String {
    let mut second = Second::new(Reading::default());
    second.open_eit(64, 512, 4096);
    let mut run = Run { second, text: String::new(), sections: 0, sets: 0, schedules: 0, events: 0, descriptors: 0, refused: 0, other: 0 };
    if !crate::watch::each_record(input, |pid, section| run.take(pid, section)) {
        run.text.push_str("cut\n");
    }
    let Run { sections, sets, schedules, events, descriptors, refused, other, .. } = run;
    let totals = format!(
        "sections {sections} sets {sets} schedules {schedules} events {events} descriptors {descriptors} refused {refused} other {other}\n"
    );
    run.text + &totals
}

struct Run {
    second: Second,
    text: String,
    sections: u64,
    sets: u64,
    schedules: u64,
    events: u64,
    descriptors: u64,
    refused: u64,
    other: u64,
}

impl Run {
    fn line(&mut self, line: String) {
        self.text.push_str(&line);
        self.text.push('\n');
    }

    fn take(&mut self, pid: u16, section: &[u8]) {
        self.sections += 1;
        let told = self.second.answer(&Command::Push { part: Part::Eit, pid: Some(pid), section: section.to_vec() });
        let Answer::Collected(number, _, out) = told else { panic!("a section was pushed") };
        match (number, out) {
            (_, Out::Set(set)) => {
                self.sets += 1;
                let Set { table_id, version, last, .. } = set;
                self.line(format!("set {pid:04X} {table_id:02X} {} version {version} last {last}", named(&set)));
                self.entries(&set);
            }
            (_, Out::Schedule { first, last, sets }) => {
                self.schedules += 1;
                self.line(format!("schedule {pid:04X} {first:02X} {last:02X} {}", named(&sets[0])));
                for set in &sets {
                    self.line(format!("table {:02X} version {} last {}", set.table_id, set.version, set.last));
                    self.entries(set);
                }
            }
            (4, _) => {}
            (15 | 18, _) => self.other += 1,
            (12, _) => {
                self.refused += 1;
                self.line(format!("badpid {pid:04X}"));
            }
            (number, _) => {
                self.refused += 1;
                self.line(format!("refused {number} {pid:04X} {:02X} {}", section[0], section.len()));
            }
        }
    }

    /// The lines of a set's entries, to the first descriptor that runs past its loop.
    fn entries(&mut self, set: &Set) {
        for section in &set.sections {
            let all = Page { skip: 0, room: u16::MAX };
            let told = self.second.answer(&Command::Read { section: section.clone(), page: all });
            let Answer::Entries(_, number, Some(([_, at, place], entries))) = told else { panic!("kept sections are sections") };
            for words in entries {
                self.entry(section, words);
            }
            if number == 32 {
                self.line(format!("broken 32 section {at} byte {place}"));
                return;
            }
        }
    }

    fn entry(&mut self, section: &[u8], [kind, number, at, id, length, _, day, time, duration, running, ca, _]: [u32; 12]) {
        let at = at as usize;
        if kind == 2 {
            self.descriptors += 1;
            let bytes = &section[at + 2..at + 2 + length as usize];
            let bytes = if bytes.is_empty() { String::new() } else { format!(" {}", hex(bytes)) };
            return self.line(format!("descriptor {id:02X} {length}{bytes}"));
        }
        self.events += 1;
        let Answer::Date(date) = self.second.answer(&Command::Date(day)) else { panic!("a date was asked for") };
        let date = if date == 0 { "-".into() } else { format!("{:04}-{:02}-{:02}", date / 10_000, date / 100 % 100, date % 100) };
        let count = |seconds: u32| if seconds == u32::MAX { "undefined".into() } else { seconds.to_string() };
        let digits = |from: usize| section[at + from..at + from + 3].iter().map(|byte| format!("{byte:02X}")).collect::<Vec<_>>().join(":");
        let mut line = format!("event {number} {id:04X} day {day} {date} time {} {}", count(time), digits(4));
        let _ = write!(line, " duration {} {} running {running} ca {ca} descriptors {length}", count(duration), digits(7));
        self.line(line);
    }
}

fn named(set: &Set) -> String {
    let section = &set.sections[0];
    let word = |at: usize| u16::from_be_bytes([section[at], section[at + 1]]);
    format!("{:04X} stream {:04X} network {:04X} current {}", set.extension, word(8), word(10), u8::from(set.current_next))
}

/// A schedule of one table of 256 sections of 4,096 bytes, each an event with 2,033 descriptors of no bytes.
fn largest() -> Vec<u8> {
    let mut feed = Vec::new();
    for number in 0..=255u8 {
        let head = make::Head { table_id: 0x50, extension: 1, version: 0, current_next: true, number, last: 255 };
        let event = [0, number, 0xC0, 0x79, 0x12, 0x45, 0, 1, 0x45, 0x30, 0x8F, 0xE2];
        let body = [&[0, 1, 0x21, 0x74, number | 7, 0x50], &event[..], &[0x40, 0].repeat(2033)].concat();
        feed.extend([0x00, 0x12]);
        feed.extend(make::long(head, &body));
    }
    feed
}

/// The program on its stored input, cut at each place near an end of a record, on feeds of seeds, and on the largest table there is.
fn compare_program(root: &Path) -> bool {
    let program = Program::new(root, "events");
    let (stored, mut good) = beside::stored(root, "events", output);
    let mut inputs: Vec<Vec<u8>> = (0..=120).map(|end| stored[..end].to_vec()).collect();
    inputs.extend((0..40).map(|seed| beside::feed(seed, script(seed, 400), 0x0012)));
    let same = inputs.iter().filter(|input| program.output(input) == output(input)).count();
    println!("events on {} inputs, an empty one among them: {same} equal", inputs.len());
    good &= same == inputs.len();
    beside::large(&program, "a table of 256 sections of 2,033 descriptors", &largest(), output) && good
}

// ---- the comparison

/// The scripts of events/; seeds, the port beside the second implementation; every day; and the program.
pub fn compare(root: &Path, seeds: usize, commands: usize) -> bool {
    let written = beside::as_said(root, "events");
    let days: Vec<Command> = (0..=65_600).map(Command::Date).collect();
    let dates = beside::alike("the dates of days 0 to 65,600", &days, &mut Report::default());
    println!("the dates of days 0 to 65,600: {}", if dates { "equal" } else { "DIFFER" });
    let seeds = beside::seeds_alike("entries", seeds, |seed| script(seed, commands));
    written && dates && seeds && compare_program(root)
}
