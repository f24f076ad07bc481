//! Logs: those of section lists written, checked and spoilt, the port beside the second implementation; and the programs `write_log`, `check_log` and `show_log` beside what the
//! second implementation makes of the same lists and logs. The original has no log.
use crate::beside;
use crate::make::{self, Dice, Domain, damaged, gate_section, long, same_crc, short};
use crate::program::Program;
use crate::second::{Reading, Second, records_of, verdict};
use player::answer::Answer;
use player::command::{Command, Part};
use player::logs::{Logs, Settings, Told};
use std::fmt::Write as _;
use std::path::Path;

// ---- section lists

/// A section as a list has it.
pub fn listed(input: u8, pid: u16, section: &[u8]) -> Vec<u8> {
    [&[input][..], &pid.to_be_bytes(), &(section.len() as u16).to_be_bytes(), section].concat()
}

/// Sections of a set collector's or an EIT collector's run, and others of the gate's; PIDs and inputs that there are not among them, sections under 3 bytes, broken ones, repeats.
fn sections(dice: &mut Dice, count: usize) -> Vec<Vec<u8>> {
    let mut all = Vec::new();
    let mut sent: Vec<(u8, u16, Vec<u8>)> = Vec::new();
    while all.len() < count {
        let part = dice.of(&[Part::Sets, Part::Sets, Part::Eit]);
        let domain = dice.of(&[Domain::Inside, Domain::Damaged, Domain::CellBound]);
        let length = 20 + dice.below(60);
        let inputs: &[u8] = dice.of(&[&[0], &[0, 0, 1], &[0, 3, 15]]);
        let high = if dice.once_in(4) { 0x1000 } else { 0 };
        for command in make::collector_run(dice, length, domain, part) {
            let Command::Push { pid, section, .. } = command else { continue };
            let new = (dice.of(inputs), pid.unwrap_or(0x0011) + high, section);
            let (mut input, mut pid, mut section) = match dice.below(6) {
                0 if !sent.is_empty() => sent[dice.below(sent.len())].clone(),
                1 => (dice.of(inputs), dice.of(&[0x0000, 0x0011, 0x0014, 0x0100, 0x1FFF]), gate_section(dice)),
                _ => new,
            };
            match dice.below(60) {
                0 => pid = dice.of(&[0x2000, 0x2014, 0xFFFF]),
                1 => input = dice.of(&[16, 17, 200, 255]),
                2 => section = damaged(dice, section),
                3 => section.truncate(dice.below(5)),
                4 => section = same_crc(dice, &section).unwrap_or(section),
                5 => section = dice.of(&[&[0x02u8, 0xB0, 0x00][..], &[0x73, 0x70, 0x00], &[0x42], &[]]).to_vec(),
                6 if dice.once_in(6) => {
                    // As long as section_length lets them be; no cell has room for the last two.
                    section.resize(dice.of(&[4095, 4096, 4097, 4098]), 0x55);
                    make::mend(&mut section);
                }
                _ => {}
            }
            section.truncate(4098);
            if sent.len() < 40 {
                sent.push((input, pid, section.clone()));
            }
            all.push(listed(input, pid, &section));
        }
    }
    all.truncate(count);
    all
}

fn settings(dice: &mut Dice) -> Settings {
    let (count, size) = dice.of(&[
        (0, 4096),
        (1, 64),
        (3, 30),
        (8, 12),
        (13, 64),
        (40, 200),
        (64, 4096),
        (64, 4096),
        (256, 4096),
        (8192, 128),
        (65_535, 12),
    ]);
    Settings {
        capacity: dice.of(&[0, 1, 2, 5, 20, 512, 512, 65_536]),
        repeats: dice.once_in(4),
        rule: dice.of(&[1, 2, 2]),
        limit: dice.of(&[0, 1, 1, 2, 3, 5, 16, 64, 256]),
        size,
        count,
        pids: dice.of(&[0, 0, 2]),
    }
}

/// Settings that opening refuses, or more than is lent.
fn refused(dice: &mut Dice, good: Settings) -> Settings {
    match dice.below(8) {
        0 => Settings { capacity: dice.of(&[65_537, u32::MAX]), ..good },
        1 => Settings { rule: dice.of(&[0, 3, 255]), ..good },
        2 => Settings { limit: dice.of(&[257, u32::MAX]), ..good },
        3 => Settings { size: dice.of(&[0, 11, 4097, u32::MAX]), count: 1, ..good },
        4 => Settings { size: 12, count: dice.of(&[65_536, u32::MAX]), ..good },
        5 => Settings { size: 4096, count: 257, ..good },
        _ => Settings { pids: dice.of(&[1, 1, 3, 255]), ..good },
    }
}

/// A list that is 42 or 10: cut, or with an overlong section, whose bytes may be there.
pub fn bad_list(dice: &mut Dice, sections: &[Vec<u8>]) -> Vec<u8> {
    let mut list = sections.concat();
    let whole = sections[..dice.below(sections.len())].concat();
    let overlong = dice.of(&[4099u16, 4100, 0xFFFF]);
    let head = [&[dice.byte()], &dice.bytes(2)[..], &overlong.to_be_bytes()].concat();
    match dice.below(5) {
        0 => list.truncate(dice.below(list.len() + 1)),
        1 => list = [whole, head].concat(),
        2 => list = [whole, head, vec![0; overlong.into()]].concat(),
        3 => list = [whole, head[..dice.below(5)].to_vec()].concat(),
        _ => {
            list.pop();
            list = [list, head].concat();
        }
    }
    list
}

// ---- spoilt logs

/// The log of these records with one place spoilt: it is another log.
fn spoilt(dice: &mut Dice, records: &[Vec<u8>]) -> Vec<u8> {
    let right = records.concat();
    loop {
        let log = touched(dice, records.to_vec());
        if log != right {
            return log;
        }
    }
}

/// With one place touched: two equal records change nothing by changing places.
fn touched(dice: &mut Dice, mut records: Vec<Vec<u8>>) -> Vec<u8> {
    let last = records.len().saturating_sub(1);
    let at = dice.below(records.len().max(1));
    match dice.below(8) {
        _ if records.is_empty() => records.push(dice.of(&[&[3u8, 0, 0, 0x11, 0, 3][..], &[3, 0], &[7], &[0]]).to_vec()),
        0 | 1 => {
            let byte = dice.below(records[at].len());
            records[at][byte] ^= 1 << dice.below(8);
        }
        2 if dice.once_in(3) => records.truncate(at),
        2 => {
            let all = records.concat();
            let end = dice.below(all.len());
            records = vec![all[..end].to_vec()];
        }
        3 => drop(records.remove(at)),
        4 => records.insert(at, records[at].clone()),
        5 if last > 0 => records.swap(at.min(last - 1), at.min(last - 1) + 1),
        6 => records[at][0] = dice.of(&[0, 7, 0x30, 255]),
        _ => {
            let more = dice.of(&[0usize, 1, 5]);
            let behind = records[at][..records[at].len() - more].to_vec();
            records.push(behind);
        }
    }
    records.concat()
}

// ---- scripts

/// How many spoilt logs a seed has, and of how many sections their lists are.
const SPOILT: usize = 20;

fn few(sections: usize) -> usize {
    (sections / 25).max(40)
}

fn answered(logs: Logs) -> Told {
    let Answer::Logs(told) = Second::new(Reading::default()).answer(&Command::Logs(logs)) else { panic!("a command of logs") };
    told
}

fn records(settings: &Settings, list: &[u8]) -> Vec<Vec<u8>> {
    records_of(&mut Reading::default(), settings, false, list).expect("a whole list, and settings that open")
}

/// What a seed is about: settings, a long list, a short one for logs to spoil.
struct Case {
    settings: Settings,
    long: Vec<u8>,
    short: Vec<Vec<u8>>,
}

fn case(dice: &mut Dice, count: usize) -> Case {
    Case { settings: settings(dice), long: sections(dice, count).concat(), short: sections(dice, few(count)) }
}

fn begun(seed: u64) -> Dice {
    Dice::new(seed ^ 0x7C << 48)
}

/// The log of a list of so many sections written and checked, with too little room too; logs of a shorter one that are spoilt; lists and settings that are refused; records read and made.
pub fn script(seed: u64, count: usize) -> Vec<Command> {
    let mut dice = begun(seed);
    let Case { settings, long: list, short: few } = case(&mut dice, count);
    let log = records(&settings, &list).concat();
    let room = log.len() as u32;
    let mut script = vec![
        Logs::Write { settings, room, list: list.clone() },
        Logs::Write { settings, room: room.saturating_sub(1), list: list.clone() },
        Logs::Check { settings, list, log },
    ];
    let list = few.concat();
    let expected = records(&settings, &list);
    for _ in 0..SPOILT {
        script.push(Logs::Check { settings, list: list.clone(), log: spoilt(&mut dice, &expected) });
    }
    let log = expected.concat();
    for _ in 0..4 {
        let bad = bad_list(&mut dice, &few);
        let mut unopened = refused(&mut dice, settings);
        if dice.once_in(3) {
            unopened.pids = 1;
        }
        let (settings, list) = dice.of(&[(&settings, &bad), (&settings, &bad), (&unopened, &bad), (&unopened, &list)]);
        script.push(Logs::Write { settings: *settings, room: log.len() as u32, list: list.clone() });
        script.push(Logs::Check { settings: *settings, list: list.clone(), log: log.clone() });
    }
    for _ in 0..10 {
        let place = dice.below(log.len() + 3) as u32;
        let start =
            expected.iter().scan(0, |sum, record| Some(std::mem::replace(sum, *sum + record.len()))).nth(dice.below(expected.len().max(1)));
        let end = if dice.once_in(3) { dice.below(log.len() + 1) } else { log.len() };
        script.push(Logs::Read { place: if dice.once_in(3) { place } else { start.unwrap_or(0) as u32 }, log: log[..end].to_vec() });
        script.push(made(&mut dice));
    }
    script.into_iter().map(Command::Logs).collect()
}

/// A record of an answer, or of a set, whatever the section.
fn made(dice: &mut Dice) -> Logs {
    let body = dice.bytes(3);
    let mut section = match dice.below(4) {
        0 => short(dice.of(&[0x70, 0x73]), &body),
        1 => damaged(dice, vec![0x42, 0xB0, 0x00]),
        2 => long(make::Head { table_id: 0x42, extension: 0x0102, version: 9, current_next: dice.once_in(2), number: 1, last: 3 }, &body),
        _ => gate_section(dice),
    };
    if dice.once_in(20) {
        section.resize(dice.of(&[4098, 4099]), 0x55);
    }
    let input = dice.of(&[0, 1, 15, 15, 16]);
    let pid = dice.of(&[0x0011, 0x1FFF, 0x1FFF, 0x2000]);
    if dice.once_in(3) {
        return Logs::Set { input, pid: if dice.once_in(2) { Some(pid) } else { None }, section };
    }
    Logs::Offer { answer: dice.of(&[1, 1, 2, 2, 3, 31, 12, 37, 0]), rule: dice.of(&[0, 1, 1, 2, 2, 2, 2]), input, pid, section }
}

// ---- the programs

/// The words of the settings.
fn words(settings: &Settings) -> Vec<String> {
    let Settings { capacity, repeats, rule, limit, size, count, pids } = *settings;
    let numbers = [capacity, repeats.into(), rule.into(), limit, size, count].map(|number| number.to_string());
    [&numbers[..], &[["with", "without", "before"][usize::from(pids)].into()]].concat()
}

/// What `check_log` and `write_log` say where there is no log to speak of.
fn refusal(number: u8) -> &'static str {
    match number {
        42 => "42 too-long\n",
        10 => "10 sections-cut\n",
        41 => "41 no-pid\n",
        13 => "13 too-little\n",
        _ => "44 no-room\n",
    }
}

/// What `check_log` says of a log.
fn checked(settings: &Settings, list: &[u8], log: &[u8]) -> String {
    match records_of(&mut Reading::default(), settings, false, list) {
        Err(number) => refusal(number).into(),
        Ok(expected) => match verdict(&Reading::default(), log, &expected) {
            None => "8 yes\n".into(),
            Some((wrong, place)) => format!("{} {} {place}\n", wrong.number(), wrong.word()),
        },
    }
}

/// What `show_log` prints of a log.
fn shown(log: &[u8]) -> String {
    let mut text = String::new();
    let (mut place, mut count) = (0, 0);
    loop {
        let Told::Read { number, words } = answered(Logs::Read { place, log: log[..].to_vec() }) else { panic!("a record was asked for") };
        let Some([kind, input, pid, table, extension, section, version, change, length, current, last, next]) = words else {
            let _ = match number {
                38 => writeln!(text, "38 unknown {place}"),
                39 => writeln!(text, "39 cut {place}"),
                _ => writeln!(text, "{count} records"),
            };
            return text;
        };
        let _ = match kind {
            1 | 2 => {
                let word = ["emitted", "suppressed"][kind as usize - 1];
                writeln!(text, "{word} {input} {pid:04X} {table:02X} {extension:04X} {section} {version} {change:08X}")
            }
            3 | 4 => writeln!(text, "{} {input} {pid:04X} {length}", ["short", "mismatch"][kind as usize - 3]),
            5 => writeln!(text, "set {input} {pid:04X} {table:02X} {extension:04X} {current} {version} {last}"),
            _ => writeln!(text, "set {input} PID unknown {table:02X} {extension:04X} {current} {version} {last}"),
        };
        count += 1;
        place = next as u32;
    }
}

/// The programs on the lists and logs of a seed; says the first thing that differs.
fn programs_alike(root: &Path, seed: u64, count: usize) -> Option<String> {
    let folder = root.join("target/compare/logs");
    std::fs::create_dir_all(&folder).expect("below target/ can be written");
    let path = folder.join("sections");
    let file = path.to_str().expect("a path in ASCII");
    let [write, check, show] = ["write_log", "check_log", "show_log"].map(|name| Program::new(root, name));
    let lends = |list: &[u8]| std::fs::write(&path, list).expect("below target/ can be written");
    let write_of = |settings: &Settings, room: &str| {
        let words = [words(settings), vec![room.into(), file.into()]].concat();
        write.bytes_of(&words.iter().map(String::as_str).collect::<Vec<_>>(), &[])
    };
    let check_of = |settings: &Settings, log: &[u8]| {
        let words = [words(settings), vec![file.into()]].concat();
        check.output_of(&words.iter().map(String::as_str).collect::<Vec<_>>(), log)
    };
    let mut dice = begun(seed);
    let Case { settings, long: list, short: few } = case(&mut dice, count);
    let log = records(&settings, &list).concat();
    lends(&list);
    let less = log.len().saturating_sub(1).to_string();
    let is_before = settings.pids == 2;
    let written = if is_before { refusal(41).into() } else { log.clone() };
    if write_of(&settings, "-") != written || write_of(&settings, &log.len().to_string()) != written {
        return Some("write_log writes another log".into());
    }
    if !log.is_empty() && write_of(&settings, &less) != refusal(if is_before { 41 } else { 44 }).as_bytes() {
        return Some("write_log with room for one byte less".into());
    }
    if check_of(&settings, &log) != "8 yes\n" {
        return Some("check_log does not say yes".into());
    }
    if show.output(&log[..log.len().min(4000)]) != shown(&log[..log.len().min(4000)]) {
        return Some("show_log".into());
    }
    let list = few.concat();
    let expected = records(&settings, &list);
    lends(&list);
    for _ in 0..SPOILT {
        let log = spoilt(&mut dice, &expected);
        let (said, right) = (check_of(&settings, &log), checked(&settings, &list, &log));
        if said != right {
            return Some(format!("check_log says {said}not {right}of the spoilt log of {settings}"));
        }
        if show.output(&log) != shown(&log) {
            return Some("show_log of a spoilt log".into());
        }
    }
    for _ in 0..4 {
        let bad = bad_list(&mut dice, &few);
        lends(&bad);
        let opened = Settings { pids: dice.of(&[0, 1, 2]), ..refused(&mut dice, settings) };
        for settings in [settings, opened] {
            let right = checked(&settings, &bad, &[]);
            let log = records_of(&mut Reading::default(), &settings, true, &bad).map(|records| records.concat());
            let written = log.unwrap_or_else(|number| refusal(number).into());
            if check_of(&settings, &[]) != right || write_of(&settings, "-") != written {
                return Some(format!("check_log or write_log on a list or settings that are refused: {settings}: {right}"));
            }
        }
    }
    None
}

/// The scripts of logs/; seeds, the port beside the second implementation; and the programs.
pub fn compare(root: &Path, seeds: usize, sections: usize) -> bool {
    let written = beside::as_said(root, "logs");
    let alike = beside::seeds_alike("logs", seeds, |seed| script(seed, sections));
    written && alike && compare_programs(root, seeds, sections)
}

fn compare_programs(root: &Path, seeds: usize, sections: usize) -> bool {
    let found = (0..seeds as u64).find_map(|seed| programs_alike(root, seed, sections).map(|what| (seed, what)));
    match found {
        None => {
            println!("write_log, check_log and show_log on {seeds} lists of {sections} sections and {} spoilt logs: equal", SPOILT * seeds)
        }
        Some((seed, ref what)) => println!("the programs, seed {seed}: {what}"),
    }
    found.is_none()
}
