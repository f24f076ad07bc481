//! Two guides compared: scripts of sets and schedules with copies that were changed, the port beside the second implementation; and the program `compare_guides` beside what
//! the second implementation makes of its files. The original compares nothing.
use crate::beside;
use crate::make::{Dice, sealed};
use crate::program::Program;
use crate::second::{Reading, Second};
use player::answer::{Answer, hex};
use player::command::Command;
use player::guides::{Copy, Guides, Told};
use std::fmt::Write as _;
use std::path::Path;

// ---- scripts

/// What all sections of a side share.
#[derive(Clone, Copy)]
struct Head {
    extension: u16,
    current_next: u8,
    stream: u16,
    network: u16,
}

/// A table: its sections by number, each with what is behind its header.
#[derive(Clone)]
struct Table {
    table_id: u8,
    version: u8,
    last: u8,
    sections: Vec<(u8, Vec<u8>)>,
}

fn section(head: &Head, table: &Table, number: u8, body: &[u8]) -> Vec<u8> {
    let mut bytes = vec![table.table_id, 0, 0];
    bytes.extend(head.extension.to_be_bytes());
    bytes.extend([0xC0 | table.version << 1 | head.current_next, number, table.last]);
    bytes.extend(head.stream.to_be_bytes());
    bytes.extend(head.network.to_be_bytes());
    bytes.extend(body);
    let [high, low] = (bytes.len() as u16 + 1).to_be_bytes();
    (bytes[1], bytes[2]) = (0xF0 | high, low);
    sealed(bytes)
}

fn table(dice: &mut Dice, table_id: u8) -> Table {
    let mut numbers: Vec<u8> = (0..dice.of(&[1, 1, 2, 3, 5])).map(|_| dice.of(&[0, 1, 2, 3, 7, 8, 254, 255])).collect();
    numbers.sort_unstable();
    numbers.dedup();
    let sections = numbers.into_iter().map(|number| {
        let size = if dice.once_in(20) { dice.of(&[240, 300, 700]) } else { dice.below(6) };
        (number, dice.bytes(size))
    });
    let sections = sections.collect();
    Table { table_id, version: dice.of(&[0, 3, 31]), last: dice.of(&[0, 3, 255]), sections }
}

fn bytes_of(head: &Head, tables: &[Table]) -> Vec<u8> {
    let all = tables.iter().flat_map(|table| table.sections.iter().map(|(number, body)| section(head, table, *number, body)));
    all.collect::<Vec<_>>().concat()
}

/// Tables by rising table_id: one of a set, some of a schedule.
fn tables(dice: &mut Dice, schedules: bool) -> Vec<Table> {
    if !schedules {
        let table_id = dice.of(&[0x00, 0x42, 0x4D, 0x4E, 0x4E, 0x50, 0x6F, 0x70]);
        return vec![table(dice, table_id)];
    }
    let first = dice.of(&[0x50, 0x60]);
    let mut all: Vec<u8> = (0..dice.of(&[1, 2, 2, 4])).map(|_| first + dice.of(&[0, 1, 2, 7, 15])).collect();
    all.sort_unstable();
    all.dedup();
    all.into_iter().map(|table_id| table(dice, table_id)).collect()
}

/// A copy in which something is otherwise, by the rules of a guide.
fn changed(dice: &mut Dice, schedules: bool, head: &mut Head, tables: &mut Vec<Table>) {
    let at = dice.below(tables.len());
    match dice.below(12) {
        0 => tables[at].version ^= 1,
        1 => tables[at].last ^= 1,
        2 => head.current_next ^= 1,
        3 => head.network ^= 1,
        4 => head.stream ^= 0x100,
        5 => head.extension ^= 1,
        6 if schedules && tables.len() > 1 => drop(tables.remove(at)),
        7 if schedules => {
            let kind = tables[0].table_id & 0xF0;
            let other = if dice.once_in(6) { kind ^ 0x30 } else { kind };
            let table_id = other + dice.of(&[0, 1, 2, 7, 15]);
            tables.push(table(dice, table_id));
            tables.sort_by_key(|table| table.table_id);
            tables.dedup_by_key(|table| table.table_id);
        }
        8 if tables[at].sections.len() > 1 => {
            let gone = dice.below(tables[at].sections.len());
            tables[at].sections.remove(gone);
        }
        9 => {
            let sections = &mut tables[at].sections;
            sections.push((dice.of(&[0, 1, 4, 5, 6, 253, 255]), dice.bytes(3)));
            sections.sort_by_key(|(number, _)| *number);
            if !dice.once_in(6) {
                sections.dedup_by_key(|(number, _)| *number);
            }
        }
        _ => {
            let sections = &mut tables[at].sections;
            let of = dice.below(sections.len());
            let body = &mut sections[of].1;
            match body.len() {
                0 => body.push(dice.byte()),
                length => body[dice.below(length)] ^= 1 << dice.below(8),
            }
        }
    }
}

/// Bytes in which something is otherwise, whatever becomes of them.
fn damaged(dice: &mut Dice, mut bytes: Vec<u8>) -> Vec<u8> {
    let length = bytes.len();
    match dice.below(9) {
        0 => bytes.truncate(length - dice.below(4).min(length)),
        1 => {
            let more = dice.of(&[1, 2, 3]);
            bytes.extend(dice.bytes(more));
        }
        2 => bytes.clear(),
        3 if length > 1 => bytes[1] &= 0x7F,
        // A long-form section of 11 bytes behind, or one of 3.
        4 => bytes.extend([0x42, 0xF0, 8, 0, 1, 0xC1, 9, 9, 0, 0, 0]),
        5 => bytes.extend([0x42, 0xF0, 0]),
        6 => bytes.extend(bytes.clone()),
        _ if length > 0 => bytes[dice.below(length)] ^= 1 << dice.below(8),
        _ => {}
    }
    bytes
}

fn pid(dice: &mut Dice) -> Option<u16> {
    if dice.once_in(12) { None } else { Some(dice.of(&[0x11, 0x12, 0x12, 0x12, 0x1FFF, 0x2000, 0xFFFE])) }
}

/// A script of questions, each alone: nothing is kept between them.
pub fn script(seed: u64, commands: usize) -> Vec<Command> {
    let mut dice = Dice::new(seed ^ 0x5A << 48);
    let mut rules = Second::new(Reading::default());
    (0..commands).map(|_| Command::Guides(question(&mut dice, &mut rules))).collect()
}

fn question(dice: &mut Dice, rules: &mut Second) -> Guides {
    let schedules = dice.once_in(2);
    let first_head = Head { extension: dice.of(&[1, 2]), current_next: 1, stream: dice.of(&[0, 7]), network: dice.of(&[0, 0x2174]) };
    let first = tables(dice, schedules);
    let (mut head, mut second) = (first_head, first.clone());
    for _ in 0..dice.of(&[0, 1, 1, 1, 2, 4]) {
        changed(dice, schedules, &mut head, &mut second);
    }
    if schedules && dice.once_in(40) {
        second.reverse();
    }
    let mut sides = [bytes_of(&first_head, &first), bytes_of(&head, &second)];
    if dice.once_in(4) {
        let at = dice.below(2);
        sides[at] = damaged(dice, std::mem::take(&mut sides[at]));
    }
    if dice.once_in(2) {
        sides.swap(0, 1);
    }
    if dice.once_in(4) {
        if schedules {
            // A table of a schedule alone: what `table_part` hands to the question.
            sides = [&first, &second].map(|tables| bytes_of(&head, &tables[..1]));
        }
        if dice.once_in(8) {
            sides[dice.below(2)].clear();
        }
        return Guides::Held { number: dice.of(&[0, 1, 2, 3, 4, 7, 8, 253, 254, 255, 256, 0xFFFF]), sides };
    }
    let one = pid(dice);
    let other = if dice.once_in(5) { pid(dice) } else { one };
    let [first, second] = sides;
    let sides = [Copy { pid: one, bytes: first }, Copy { pid: other, bytes: second }];
    let asked = Guides::Compare { schedules, words: u16::MAX, sides };
    if dice.once_in(2) {
        return asked;
    }
    // Room for all, for one less, and words that are no whole entry.
    let count = match rules.answer(&Command::Guides(asked.clone())) {
        Answer::Guides(Told::Compared { told: Some([count, ..]), .. }) => count as u16,
        _ => 0,
    };
    let words = dice.of(&[4 * count, (4 * count).saturating_sub(1), 4 * count + 3, (4 * count).saturating_sub(4), 0]);
    let Guides::Compare { schedules, sides, .. } = asked else { unreachable!("made above") };
    Guides::Compare { schedules, words, sides }
}

// ---- the program

/// A file as `compare_guides` takes it.
fn file(copy: &Copy) -> Vec<u8> {
    [&copy.pid.unwrap_or(0xFFFF).to_be_bytes()[..], &copy.bytes].concat()
}

fn agree(agree: bool) -> &'static str {
    if agree { "agree" } else { "differ" }
}

/// What the program prints, by the second implementation.
fn output(rules: &mut Second, schedules: bool, room: u16, sides: &[Copy; 2]) -> String {
    let command = Command::Guides(Guides::Compare { schedules, words: 4 * room, sides: sides.clone() });
    let Answer::Guides(Told::Compared { number, told, tables, list }) = rules.answer(&command) else { panic!("a comparison") };
    let [first, second] = sides;
    let mut text = String::new();
    match (number, told) {
        (34, Some([count, ..])) => return format!("refused 34 {count}\n"),
        (8 | 9, Some(_)) => {}
        _ => return format!("refused {number}\n"),
    }
    let [count, versions, lasts] = told.expect("asked above");
    let s = &first.bytes;
    let word = |at: usize| u16::from_be_bytes([s[at], s[at + 1]]);
    let stream = if (0x4E..=0x6F).contains(&s[0]) { format!(" stream {:04X} network {:04X}", word(8), word(10)) } else { String::new() };
    let (name, table_id) = if schedules { ("schedule", s[0] & 0xF0) } else { ("set", s[0]) };
    let pid = first.pid.expect("without a PID nothing is compared");
    let _ = writeln!(text, "{name} {pid:04X} {table_id:02X} {:04X}{stream} current {}", word(3), s[5] & 1);
    let part = |bytes: &[u8], table: u8| sections_of(bytes).into_iter().filter(|section| section[0] == table).collect::<Vec<_>>().concat();
    let mut entries = |text: &mut String, table: u32| {
        for [_, number, kind, place] in list.iter().filter(|entry| entry[0] == table) {
            if *kind == 3 {
                let _ = writeln!(text, "both {number} {place}");
                continue;
            }
            let sides = [part(&first.bytes, table as u8), part(&second.bytes, table as u8)];
            let held = Command::Guides(Guides::Held { number: *number as u16, sides: sides.clone() });
            let Answer::Guides(Told::Held { told: Some([side, start, length]), .. }) = rules.answer(&held) else { panic!("held by one") };
            let bytes = &sides[side as usize - 1][start as usize..][..length as usize];
            let _ = writeln!(text, "{} {number} {length} {}", ["first", "second"][side as usize - 1], hex(bytes));
        }
    };
    if let Some(tables) = tables {
        for (t, word) in tables.into_iter().enumerate().filter(|(_, word)| *word != 0) {
            let table_id = u32::from(s[0] & 0xF0) + t as u32;
            let _ = match word {
                1 => writeln!(text, "table {table_id:02X} first"),
                2 => writeln!(text, "table {table_id:02X} second"),
                _ => writeln!(text, "table {table_id:02X} both versions {} lasts {}", agree(word & 4 == 0), agree(word & 8 == 0)),
            };
            entries(&mut text, table_id);
        }
        let _ = writeln!(text, "entries {count}");
    } else {
        entries(&mut text, s[0].into());
        let _ = writeln!(text, "entries {count} versions {} lasts {}", agree(versions == 1), agree(lasts == 1));
    }
    text
}

fn sections_of(mut bytes: &[u8]) -> Vec<&[u8]> {
    let mut sections = Vec::new();
    while let [_, form, low, ..] = bytes {
        let (section, rest) = bytes.split_at(3 + (usize::from(form & 0x0F) << 8 | usize::from(*low)));
        sections.push(section);
        bytes = rest;
    }
    sections
}

/// The program on the files of a seed's comparisons.
fn compare_program(root: &Path, seed: u64, runs: usize) -> bool {
    let folder = root.join("target/compare/guides");
    std::fs::create_dir_all(&folder).expect("below target/ can be written");
    let program = Program::new(root, "compare_guides");
    let mut rules = Second::new(Reading::default());
    let mut good = true;
    for command in script(seed, 4 * runs) {
        let Command::Guides(Guides::Compare { schedules, words, sides }) = command else { continue };
        let room = (words / 4).min(4096);
        let paths = [0, 1].map(|at| folder.join(["first", "second"][at]));
        paths.iter().zip(&sides).for_each(|(path, copy)| std::fs::write(path, file(copy)).expect("below target/ can be written"));
        let [first, second] = paths.each_ref().map(|path| path.to_str().expect("a path in ASCII"));
        let kind = if schedules { "schedule" } else { "set" };
        let said = program.output_of(&[kind, first, second, &room.to_string()], &[]);
        let expected = output(&mut rules, schedules, room, &sides);
        if said != expected {
            println!(
                "compare_guides {kind} with room for {room}:\n{}\nsays\n{said}not\n{expected}",
                Command::Guides(Guides::Compare { schedules, words, sides })
            );
            good = false;
            break;
        }
    }
    println!("the program compare_guides on the files of {runs} comparisons and more: {}", if good { "equal" } else { "DIFFERS" });
    good
}

/// The written scripts of guides/, seeds, and the program.
pub fn compare(root: &Path, seeds: usize, commands: usize) -> bool {
    let written = beside::as_said(root, "guides");
    let seeds = beside::seeds_alike("two guides compared", seeds, |seed| script(seed, commands));
    written && seeds && compare_program(root, 1, 200)
}
