//! A multiplex whose PAT is sent in two sections: the PAT of a transport stream, its programmes divided, and the PMTs that it names, as a script that says which of them are seen.
use crate::make::{Head, long};
use crate::pairs::{Found, Side, differing, first_difference};
use crate::report::Report;
use player::answer::Answer;
use player::command::{By, Command};
use std::collections::BTreeMap;
use std::path::Path;

const PACKET: usize = 188;

/// The sections that start in the packets of a stream, of each PID the first with each table_id, extension and number (ISO/IEC 13818-1, 2.4.3 and 2.4.4). Packets with an adaptation
/// field, which PSI has rarely, are passed over.
fn sections(stream: &[u8]) -> BTreeMap<u16, Vec<Vec<u8>>> {
    let mut under_way: BTreeMap<u16, Vec<u8>> = BTreeMap::new();
    let mut finished: BTreeMap<u16, Vec<Vec<u8>>> = BTreeMap::new();
    for packet in stream.chunks_exact(PACKET).filter(|packet| packet[0] == 0x47 && packet[3] & 0x30 == 0x10) {
        let pid = u16::from_be_bytes([packet[1] & 0x1F, packet[2]]);
        let mut payload = &packet[4..];
        if packet[1] & 0x40 != 0 {
            let pointer = usize::from(payload[0]);
            payload = payload.get(1 + pointer..).unwrap_or_default();
            under_way.insert(pid, Vec::new());
        }
        let Some(bytes) = under_way.get_mut(&pid) else { continue };
        bytes.extend(payload);
        if let [_, high, low, ..] = bytes[..] {
            let length = 3 + usize::from(u16::from_be_bytes([high & 0x0F, low]));
            if bytes.len() >= length {
                let section = under_way.remove(&pid).expect("it is under way")[..length].to_vec();
                let known = finished.entry(pid).or_default();
                if section.len() >= 12 && known.iter().all(|other| (other[0], &other[3..7]) != (section[0], &section[3..7])) {
                    known.push(section);
                }
            }
        }
    }
    finished
}

/// The programmes of a PAT, in groups of four bytes, divided: a section for each half.
fn halves(pat: &[u8]) -> [Vec<u8>; 2] {
    let groups: Vec<&[u8]> = pat[8..pat.len() - 4].chunks(4).collect();
    let extension = u16::from_be_bytes([pat[3], pat[4]]);
    let (first, second) = groups.split_at(groups.len() / 2);
    let half = |number: u8, groups: &[&[u8]]| {
        long(Head { table_id: 0, extension, version: pat[5] >> 1 & 0x1F, current_next: true, number, last: 1 }, &groups.concat())
    };
    [half(0, first), half(1, second)]
}

/// Both halves and every PMT, twice round.
fn feed(halves: &[Vec<u8>; 2], pmts: &[(u16, Vec<u8>)], pats: bool) -> Vec<Command> {
    let section = |pid: u16, section: &[u8]| Command::Gate { by: By::Packets, pid, section: section.to_vec() };
    let mut script =
        vec![Command::GateOpen { capacity: 512, repeats: false, follow: true, well_known: true, rule: 1, pats, extra: Vec::new() }];
    for _ in 0..2 {
        script.extend(halves.iter().map(|half| section(0, half)));
        script.extend(pmts.iter().map(|(pid, pmt)| section(*pid, pmt)));
    }
    script
}

/// Prints the script of a stream, with the answers, where each changed section is followed and where complete PATs are; whether all programmes are seen by the latter and
/// half of them by the former.
pub fn compare(path: &Path) -> bool {
    let stream = std::fs::read(path).unwrap_or_else(|e| panic!("{}: {e}", path.display()));
    let found = sections(&stream);
    let Some(pat) = found.get(&0).and_then(|all| all.iter().find(|section| section[0] == 0)) else {
        println!("no PAT");
        return false;
    };
    let named = |group: &&[u8]| group[..2] != [0, 0];
    let pids = pat[8..pat.len() - 4].chunks(4).filter(named).map(|group| u16::from_be_bytes([group[2] & 0x1F, group[3]]));
    let pmts: Vec<(u16, Vec<u8>)> =
        pids.filter_map(|pid| Some((pid, found.get(&pid)?.iter().find(|section| section[0] == 2)?.clone()))).collect();
    let halves = halves(pat);
    println!("# A PAT of {} programmes with a PMT, its sections sent in two halves, and the PMTs, twice round.", pmts.len());
    let seen = [(false, "Each changed section"), (true, "Complete PATs")].map(|(pats, manner)| {
        let script = feed(&halves, &pmts, pats);
        let differs = if pats { first_difference([Side::RULES, Side::Port], &script) } else { differing(&script, &mut Report::default()) };
        say(manner, &script, differs)
    });
    println!("# {} programmes: {} seen by complete PATs, {} by each changed section.", pmts.len(), seen[1], seen[0]);
    seen[1] == pmts.len() && seen[0] < pmts.len() && seen[0] > 0
}

/// Prints a script with its answers; how many PIDs of PMTs are not unwatched in its last round.
fn say(manner: &str, script: &[Command], differs: Option<Found>) -> usize {
    if let Some(found) = differs {
        println!("a difference at command {}:\n{found}", found.line + 1);
        return 0;
    }
    println!("# {manner}.");
    let answers = Side::RULES.answers(script);
    script.iter().zip(&answers).for_each(|(command, answer)| println!("{command}\n# -> {answer}"));
    let round = (script.len() - 1) / 2;
    answers[1 + round..].iter().skip(2).filter(|answer| matches!(answer, Answer::Judged(..))).count()
}
