//! The program `watch`, over the original and over the second implementation.
use player::answer::Answer;
use player::command::{By, Command};
use std::fmt::Write as _;

/// The example of docs/RULES.md, "Examples": five records, of which the fourth is a TOT too short for its CRC.
pub const EXAMPLE: [[&[u8]; 2]; 5] = [
    [&[0x00, 0x14], &[0x70, 0x70, 0x05, 0xC0, 0x79, 0x12, 0x45, 0x00]],
    [&[0x00, 0x14], &[0x70, 0x70, 0x05, 0xC0, 0x79, 0x12, 0x45, 0x00]],
    [&[0x00, 0x14], &[0x70, 0x70, 0x05, 0xC0, 0x79, 0x12, 0x45, 0x01]],
    [&[0x00, 0x14], &[0x73, 0x70, 0x00]],
    [&[0x00, 0x14], &[0x70, 0x70, 0x05, 0xC0, 0x79, 0x12, 0x45, 0x00]],
];

/// The whole output on it.
pub const EXAMPLE_OUTPUT: &str = "emitted 0014 70 8
suppressed 0014 70 8
emitted 0014 70 8
short 0014 73 3
emitted 0014 70 8
completed 5 emitted 3 suppressed 1 crc 1 evicted 0
";

/// What a run of `watch` is opened with besides its capacity: the change rule, and whether complete PATs are followed.
#[derive(Clone, Copy)]
pub struct Manner {
    pub rule: u64,
    pub pats: bool,
}

/// As dvb-si 12.0.1.
pub const AS_THE_RUST: Manner = Manner { rule: 1, pats: false };

/// As the programs.
pub const BY_DEFAULT: Manner = Manner { rule: 2, pats: true };

/// What `watch` writes on an input, where `answer` is asked for each command.
pub fn output(mut answer: impl FnMut(&Command) -> Answer, manner: Manner, input: &[u8]) -> String {
    let mut text = String::new();
    let mut totals = [0; 5];
    let mut rest = input;
    let Manner { rule, pats } = manner;
    answer(&Command::GateOpen { capacity: 512, repeats: false, follow: true, well_known: true, rule, pats, extra: Vec::new() });
    while !rest.is_empty() {
        let Some((pid, section)) = record(rest) else {
            text.push_str("cut\n");
            break;
        };
        rest = &rest[2 + section.len()..];
        let told = match answer(&Command::Ask { pid }).number() {
            Some((_, 8)) => answer(&Command::Gate { by: By::Offer, pid, section: section.to_vec() }),
            asked_not => {
                let word = if asked_not.is_some_and(|(_, number)| number == 12) { "badpid" } else { "unwatched" };
                let _ = writeln!(text, "{word} {pid:04X}");
                continue;
            }
        };
        let Answer::Judged(judgement, counters) = told else { panic!("a section was offered") };
        let _ = writeln!(text, "{} {pid:04X} {:02X} {}", judgement.word(), section[0], section.len());
        totals = counters;
    }
    let [completed, emitted, suppressed, crc, evicted] = totals;
    let _ = writeln!(text, "completed {completed} emitted {emitted} suppressed {suppressed} crc {crc} evicted {evicted}");
    text
}

/// A PID and a section, by its own section_length; `None` where the input is cut.
pub fn record(input: &[u8]) -> Option<(u16, &[u8])> {
    let &[pid_high, pid_low, _, high, low, ..] = input else { return None };
    let length = 3 + usize::from(u16::from_be_bytes([high & 0x0F, low]));
    Some((u16::from_be_bytes([pid_high, pid_low]), input.get(2..2 + length)?))
}

/// Each record of an input; whether the last one is whole.
pub fn each_record(mut input: &[u8], mut take: impl FnMut(u16, &[u8])) -> bool {
    while !input.is_empty() {
        let Some((pid, section)) = record(input) else { return false };
        input = &input[2 + section.len()..];
        take(pid, section);
    }
    true
}
