//! What the programs make of PATs in several sections: the input of `watch_pats` with its lines, worked out by hand, and two inputs at once through `watch_inputs`.
use crate::make::{Head, long, short};
use crate::program::Program;
use crate::second::{Reading, Second};
use crate::watch;
use std::fs;
use std::path::Path;

/// A record of `watch`, and the line that it is answered with.
struct Said {
    pid: u16,
    section: Vec<u8>,
    line: String,
}

/// A section of a PAT: transport_stream_id, version_number, section_number and last_section_number, then program_numbers with their PIDs.
fn pat(stream: u16, version: u8, number: u8, last: u8, programs: &[(u16, u16)]) -> Vec<u8> {
    let head = Head { table_id: 0, extension: stream, version, current_next: true, number, last };
    long(head, &groups(programs))
}

fn next_pat(stream: u16, version: u8, programs: &[(u16, u16)]) -> Vec<u8> {
    let head = Head { table_id: 0, extension: stream, version, current_next: false, number: 0, last: 0 };
    long(head, &groups(programs))
}

fn groups(programs: &[(u16, u16)]) -> Vec<u8> {
    programs.iter().flat_map(|&(program, pid)| [program.to_be_bytes(), (0xE000 | pid).to_be_bytes()].concat()).collect()
}

/// On PID 0, of 16 bytes.
fn sent(word: &str, section: Vec<u8>) -> Said {
    Said { pid: 0, line: format!("{word} 0000 00 {}", section.len()), section }
}

/// A time and date section on a PID tells whether it is watched: always the same one, so that it is emitted once and then suppressed.
fn seen(word: &str, pid: u16) -> Said {
    let length = if word == "unwatched" { "" } else { " 70 8" };
    Said { pid, section: short(0x70, &[0xC0, 0x79, 0x12, 0x45, 0x00]), line: format!("{word} {pid:04X}{length}") }
}

/// The example of docs/RULES.md, "Examples": two sections, of which the first alone changes nothing.
fn two_sections() -> Vec<Said> {
    vec![
        sent("emitted", pat(1, 0, 0, 1, &[(1, 0x0100)])),
        seen("unwatched", 0x0100),
        sent("emitted", pat(1, 0, 1, 1, &[(2, 0x0200)])),
        seen("emitted", 0x0100),
        seen("emitted", 0x0200),
    ]
}

const TWO_SECTIONS_OUTPUT: &str = "emitted 0000 00 16
unwatched 0100
emitted 0000 00 16
emitted 0100 70 8
emitted 0200 70 8
completed 4 emitted 4 suppressed 0 crc 0 evicted 0
";

fn all() -> Vec<Said> {
    let mut said = two_sections();
    // A version that is half renewed, its second section first: the former one's programmes stay until the other half comes.
    said.extend([
        sent("emitted", pat(1, 1, 1, 1, &[(2, 0x0201)])),
        seen("unwatched", 0x0201),
        seen("suppressed", 0x0100),
        sent("emitted", pat(1, 1, 0, 1, &[(1, 0x0101)])),
        seen("unwatched", 0x0100),
        seen("emitted", 0x0101),
        seen("emitted", 0x0201),
    ]);
    // Marked next.
    said.extend([sent("emitted", next_pat(1, 2, &[(1, 0x0102)])), seen("unwatched", 0x0102), seen("suppressed", 0x0101)]);
    // A conflict: another first section under the version that is held.
    said.extend([sent("emitted", pat(1, 1, 0, 1, &[(1, 0x0103)])), seen("unwatched", 0x0103), seen("suppressed", 0x0101)]);
    // Another transport_stream_id, and back: the second section's repeat is suppressed, and completes the PAT.
    said.extend([
        sent("emitted", pat(2, 0, 0, 0, &[(0, 0x0010), (1, 0x0104)])),
        seen("emitted", 0x0104),
        seen("unwatched", 0x0101),
        sent("emitted", pat(1, 1, 0, 1, &[(1, 0x0101)])),
        seen("unwatched", 0x0101),
        sent("suppressed", pat(1, 1, 1, 1, &[(2, 0x0201)])),
        seen("suppressed", 0x0101),
        seen("suppressed", 0x0201),
        seen("unwatched", 0x0104),
    ]);
    // 256 sections, a programme each.
    let section = |number: u8| pat(1, 3, number, 255, &[(u16::from(number) + 1, 0x0400 + u16::from(number))]);
    said.extend((0..255).map(|number| sent("emitted", section(number))));
    said.extend([seen("unwatched", 0x0400), seen("suppressed", 0x0101), sent("emitted", section(255))]);
    said.extend([seen("emitted", 0x0400), seen("emitted", 0x04FF), seen("unwatched", 0x0101)]);
    // 1,024 bytes enter, 1,028 do not.
    let programs = |count: u16, pid: u16| (1..=count).map(|program| (program, pid)).collect::<Vec<_>>();
    said.extend([
        sent("emitted", pat(1, 4, 0, 0, &programs(253, 0x0600))),
        seen("emitted", 0x0600),
        seen("unwatched", 0x0400),
        sent("emitted", pat(1, 5, 0, 0, &programs(254, 0x0700))),
        seen("unwatched", 0x0700),
        seen("suppressed", 0x0600),
    ]);
    // A CRC that does not fit; another PID than 0.
    let mut broken = pat(1, 6, 0, 0, &[(1, 0x0106)]);
    *broken.last_mut().expect("a CRC") ^= 1;
    let elsewhere = Said { pid: 0x0011, section: pat(1, 6, 0, 0, &[(1, 0x0106)]), line: "emitted 0011 00 16".into() };
    said.extend([sent("mismatch", broken), seen("unwatched", 0x0106), elsewhere, seen("unwatched", 0x0106), seen("suppressed", 0x0600)]);
    // A well-known PID that a PAT names stays when the next one does not name it.
    said.extend([
        sent("emitted", pat(1, 7, 0, 0, &[(1, 0x0014)])),
        seen("unwatched", 0x0600),
        sent("emitted", pat(1, 8, 0, 0, &[])),
        seen("emitted", 0x0014),
    ]);
    said
}

/// 5 + 7 + 3 + 3 + 9 + 261 + 6 + 5 + 4 records, 303 in all: 15 unwatched, 9 suppressed, one of a wrong CRC.
const TOTALS: &str = "completed 288 emitted 278 suppressed 9 crc 1 evicted 0";

fn input(said: &[Said]) -> Vec<u8> {
    said.iter().flat_map(|said| [&said.pid.to_be_bytes()[..], &said.section].concat()).collect()
}

/// What `watch_pats` reads and writes.
pub fn stored() -> (Vec<u8>, String) {
    let said = all();
    let lines: String = said.iter().map(|said| format!("{}\n", said.line)).collect();
    (input(&said), format!("{lines}{TOTALS}\n"))
}

pub fn store(root: &Path) -> bool {
    let (stdin, stdout) = stored();
    if watch_second(&stdin) != stdout {
        println!("crates/watch_pats: the second implementation says otherwise");
        return false;
    }
    fs::write(root.join("crates/watch_pats/stdin"), stdin).expect("the project's folder can be written");
    fs::write(root.join("crates/watch_pats/stdout"), &stdout).expect("the project's folder can be written");
    println!("crates/watch_pats: {} lines, by hand", stdout.lines().count());
    true
}

fn watch_second(input: &[u8]) -> String {
    let mut second = Second::new(Reading::default());
    watch::output(|command| second.answer(command), watch::BY_DEFAULT, input)
}

/// The programs on these inputs.
pub fn compare(root: &Path) -> bool {
    let program = Program::new(root, "watch");
    let (stdin, stdout) = stored();
    let example = input(&two_sections());
    let mut good = watch_second(&example) == TWO_SECTIONS_OUTPUT && program.output(&example) == TWO_SECTIONS_OUTPUT;
    good &= watch_second(&stdin) == stdout && program.output(&stdin) == stdout;
    println!(
        "watch on PATs in several sections, {} lines said by hand: {}",
        stdout.lines().count(),
        if good { "as said" } else { "NOT as said" }
    );
    good && on_two_inputs(root)
}

/// Two inputs that take turns through `watch_inputs`: input 2 gets the records one after another, input 5 the same ones, each of them so many turns later, so that the one is half
/// renewed while the other is whole. Each has to be told what it would be told alone.
fn on_two_inputs(root: &Path) -> bool {
    let said = &all()[..27];
    let alone: Vec<&str> = said.iter().map(|said| &said.line[..]).collect();
    let program = Program::new(root, "watch_inputs");
    let good = (0..said.len()).all(|later| {
        let turns = (0..said.len() + later).flat_map(|turn| [(2, Some(turn)), (5, turn.checked_sub(later))]);
        let records: Vec<(u8, &Said)> = turns.filter_map(|(input, at)| Some((input, said.get(at?)?))).collect();
        let feed: Vec<u8> =
            records.iter().flat_map(|(input, said)| [&[*input][..], &said.pid.to_be_bytes(), &said.section].concat()).collect();
        let printed = program.output(&feed);
        [2u8, 5].into_iter().all(|input| {
            let told = printed.lines().filter_map(|line| {
                let (word, rest) = line.split_once(' ')?;
                Some(format!("{word} {}", rest.strip_prefix(&format!("{input} "))?))
            });
            told.eq(alone.iter().copied())
        })
    });
    println!(
        "watch_inputs, two inputs with PATs of their own, {} ways to take turns: {}",
        said.len(),
        if good { "each as if alone" } else { "NOT as if alone" }
    );
    good
}
