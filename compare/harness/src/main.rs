//! Runs the port beside the original and beside a second implementation, in one process, and compares what they answer, command for command.
mod all;
mod apart;
mod beside;
mod events;
mod faults;
mod guides;
mod lent;
mod logs;
mod make;
mod networks;
mod original;
mod packets;
mod pairs;
mod pats;
mod present;
mod program;
mod report;
mod second;
mod split;
mod store;
mod stream;
mod transport;
mod watch;
mod watch_pats;
mod written;

use faults::Fault;
use make::Domain;
use pairs::{Found, Side, differing, differing_apart, differing_somehow, first_difference, smallest};
use player::command::{Command, Part};
use player::play::play;
use player::port::Port;
use player::tape::tape_of;
use program::Program;
use report::{Answered, Report};
use std::io::{Read, Write};
use std::path::{Path, PathBuf};
use std::process::ExitCode;
use std::time::Instant;
use stream::Variant;
use written::Written;

const USAGE: &str = "usage: compare/run [SEEDS] [COMMANDS]             scripts inside the rules' domain, damaged and cell-bound
       compare/run --rule-2 [SEEDS] [COMMANDS]    the same by change rule 2: the port beside the second implementation, the original has none
       compare/run --inputs [SEEDS] [COMMANDS]    several inputs: each beside an original of its own where nothing leaves, else the port beside the second implementation
       compare/run --pats [SEEDS] [COMMANDS]      PATs in several sections: complete PATs followed, the port beside the second implementation
       compare/run --packets [SEEDS] [PACKETS]    the packet layer, on streams by the standard beside the original, and on wild ones
       compare/run --events [SEEDS] [COMMANDS]    the entries of sections, sets and schedules: the port beside the second implementation, and the program events
       compare/run --networks [SEEDS] [COMMANDS]  the entries of networks, bouquets and services: the same, and the program tables
       compare/run --guides [SEEDS] [COMMANDS]    two guides compared: the port beside the second implementation, and the program compare_guides
       compare/run --logs [SEEDS] [SECTIONS]      logs written, checked and spoilt: the port beside the second implementation, and the programs write_log, check_log and show_log
       compare/run --all [SEEDS] [COMMANDS]       many sections in one call: the port beside the second implementation, which pushes them one by one
       compare/run --faults [SEEDS] [COMMANDS] [PART]    the same, with each fault in turn in the second implementation
       compare/run --present [SEEDS] [COMMANDS]   two EIT collectors, one with a smaller limit: the third demand for present and following
       compare/run --split STREAM                 the PAT of a transport stream sent in two sections: which of its programmes are seen
       compare/run --script FILE                  a script of your own
       compare/run --tape DOMAIN SEED COMMANDS    writes the script of a seed as a tape (inside, damaged or cells; inputs or apart for several inputs; pats; events; networks; guides; all; logs, whose commands are sections)
       compare/run --sections                     what the program sections writes on the stream on standard input, by the second implementation
       compare/run --listed                       such records as lines: a PID and a section each
       compare/run --vary VARIANT SEED            a variant of the stream on standard input: guide, late, lost, copied, shuffled or swapped
       compare/run --store                        makes the tapes of tests/tapes and the output of examples_run anew";

fn main() -> ExitCode {
    let root = PathBuf::from(env!("CARGO_MANIFEST_DIR")).join("../..");
    let words: Vec<String> = std::env::args().skip(1).collect();
    let words: Vec<&str> = words.iter().map(String::as_str).collect();
    let number = |at: usize, default: usize| words.get(at).map_or(Some(default), |word| word.parse().ok());
    let good = match words.first() {
        Some(&"--rule-2") => match (number(1, 50), number(2, 20_000)) {
            (Some(seeds), Some(commands)) => compare_rule_2(&root, seeds, commands),
            _ => return usage(),
        },
        Some(&"--inputs") => match (number(1, 50), number(2, 20_000)) {
            (Some(seeds), Some(commands)) => compare_inputs(&root, seeds, commands),
            _ => return usage(),
        },
        Some(&"--pats") => match (number(1, 50), number(2, 20_000)) {
            (Some(seeds), Some(commands)) => pats::compare(&root, seeds, commands),
            _ => return usage(),
        },
        Some(&"--packets") => match (number(1, 200), number(2, 20_000)) {
            (Some(seeds), Some(packets)) => packets::compare(&root, seeds, packets),
            _ => return usage(),
        },
        Some(&"--events") => match (number(1, 50), number(2, 20_000)) {
            (Some(seeds), Some(commands)) => events::compare(&root, seeds, commands),
            _ => return usage(),
        },
        Some(&"--networks") => match (number(1, 50), number(2, 20_000)) {
            (Some(seeds), Some(commands)) => networks::compare(&root, seeds, commands),
            _ => return usage(),
        },
        Some(&"--guides") => match (number(1, 50), number(2, 20_000)) {
            (Some(seeds), Some(commands)) => guides::compare(&root, seeds, commands),
            _ => return usage(),
        },
        Some(&"--logs") => match (number(1, 100), number(2, 5000)) {
            (Some(seeds), Some(sections)) => logs::compare(&root, seeds, sections),
            _ => return usage(),
        },
        Some(&"--all") => match (number(1, 50), number(2, 20_000)) {
            (Some(seeds), Some(commands)) => all::compare(&root, seeds, commands),
            _ => return usage(),
        },
        Some(&"--faults") => match (number(1, 40), number(2, 4000)) {
            (Some(seeds), Some(commands)) => compare_faults(seeds, commands, words.get(3).copied()),
            _ => return usage(),
        },
        Some(&"--present") => match (number(1, 200), number(2, 2000)) {
            (Some(seeds), Some(commands)) => present::compare(seeds, commands),
            _ => return usage(),
        },
        Some(&"--split") if words.len() == 2 => split::compare(Path::new(words[1])),
        Some(&"--script") if words.len() == 2 => compare_file(Path::new(words[1])),
        Some(&"--tape") if words.len() == 4 => match (number(2, 0), number(3, 0)) {
            (Some(seed), Some(commands)) => match named_script(words[1], seed as u64, commands) {
                Some(script) => std::io::stdout().write_all(&tape_of(&script)).is_ok(),
                None => return usage(),
            },
            _ => return usage(),
        },
        Some(&"--vary") if words.len() == 3 => match (Variant::named(words[1]), number(2, 0)) {
            (Some(variant), Some(seed)) => through(|stream| variant.of(seed as u64, &stream)),
            _ => return usage(),
        },
        Some(&"--sections") if words.len() == 1 => through(|stream| transport::output(&stream).records),
        Some(&"--listed") if words.len() == 1 => through(|records| transport::listed(&records).into_bytes()),
        Some(&"--store") if words.len() == 1 => store::store(&root),
        _ => match (number(0, 20), number(1, 5000)) {
            (Some(seeds), Some(commands)) => compare_seeds(&root, seeds, commands),
            _ => return usage(),
        },
    };
    if good { ExitCode::SUCCESS } else { ExitCode::FAILURE }
}

/// From standard input to standard output.
fn through(change: impl FnOnce(Vec<u8>) -> Vec<u8>) -> bool {
    let mut input = Vec::new();
    std::io::stdin().read_to_end(&mut input).is_ok() && std::io::stdout().write_all(&change(input)).is_ok()
}

fn usage() -> ExitCode {
    eprintln!("{USAGE}");
    ExitCode::from(2)
}

const DOMAINS: [(Domain, &str); 3] =
    [(Domain::Inside, "inside the domain"), (Domain::Damaged, "damaged"), (Domain::CellBound, "cell-bound")];

fn compare_seeds(root: &Path, seeds: usize, commands: usize) -> bool {
    let mut answered = Answered::default();
    let mut good = fixed(root, &mut answered);
    let start = Instant::now();
    let mut compared = 0;
    for (domain, name) in DOMAINS {
        let mut report = Report::default();
        for seed in 0..seeds as u64 {
            if let Some(found) = differing(&make::counted(make::script(seed, commands, domain)), &mut report) {
                return beside::differs(&format!("{name}, seed {seed}"), found);
            }
        }
        println!("{name}: {seeds} seeds, 0 differences that are not named\n{report}");
        good &= report.named_as_expected(domain) && report.none_dead();
        answered.add(&report);
        compared += report.commands();
    }
    println!("over the written scripts and all seeds:\n{answered}");
    println!("{compared} commands of seeds in {} seconds", start.elapsed().as_secs());
    good
}

/// The port beside the second implementation, where the original has no counterpart: the scripts of corrected/, and seeds by change rule 2.
fn compare_rule_2(root: &Path, seeds: usize, commands: usize) -> bool {
    let written = beside::as_said(root, "corrected");
    let by_rule_2 = |seed, domain| make::counted(make::by_rule_2(make::script(seed, commands, domain)));
    let alike = |(domain, name)| beside::seeds_alike(&format!("{name}, by change rule 2"), seeds, |seed| by_rule_2(seed, domain));
    DOMAINS.into_iter().all(alike) && written
}

/// Several inputs. Where nothing leaves, each input beside an original of its own; where they share little room, the port beside the second implementation.
fn compare_inputs(root: &Path, seeds: usize, commands: usize) -> bool {
    let written = beside::as_said(root, "inputs");
    let mut report = Report::default();
    for seed in 0..seeds as u64 {
        let script = make::apart(seed, commands);
        assert!(apart::is_apart(&script), "apart, seed {seed}");
        if let Some(found) = differing_apart(&script, &mut report) {
            return beside::differs(&format!("apart, seed {seed}"), found);
        }
    }
    println!("apart: {seeds} seeds, 0 differences that are not named\n{report}");
    let good = written && report.named_as_expected(Domain::Inside) && report.none_dead();
    let on_inputs = |seed, domain| make::counted(make::on_inputs(seed, commands, domain));
    let alike = |(domain, name)| beside::seeds_alike(&format!("{name}, on several inputs"), seeds, |seed| on_inputs(seed, domain));
    DOMAINS.into_iter().all(alike) && good
}

/// What is the same in every run: the CRC's published check, the written scripts, the program `watch`, and tapes that end early.
fn fixed(root: &Path, answered: &mut Answered) -> bool {
    let check = second::crc(b"123456789");
    println!("the CRC of the nine digits by the second implementation: {check:08X}");
    let good = check == 0x0376_E6E7 && compare_written(root, answered) && compare_watch(root) && compare_ends(root);
    println!();
    good
}

/// The scripts that were written by hand, and those that show the named differences: there the original's answer is not the rules'.
fn compare_written(root: &Path, answered: &mut Answered) -> bool {
    let scripts = Written::all(root, "scripts");
    let mut report = Report::default();
    let differ: Vec<Found> = scripts.iter().filter_map(|script| differing(&script.commands, &mut report)).collect();
    answered.add(&report);
    println!("{} written scripts: {}", scripts.len(), if differ.is_empty() { "equal" } else { "DIFFER" });
    differ.iter().for_each(|found| println!("{found}"));
    let sides = [Side::Original, Side::Port];
    let wrong: Vec<String> = scripts.iter().flat_map(|script| sides.map(|side| script.not_as_said(side))).flatten().collect();
    let said: usize = scripts.iter().map(|script| script.said.len()).sum();
    println!("{said} answers that they say: {}", if wrong.is_empty() { "as said" } else { "NOT as said" });
    wrong.iter().for_each(|line| println!("  {line}"));
    let named = Written::all(root, "differences").iter().all(|script| {
        let shown = first_difference([Side::Original, Side::RULES], &script.commands);
        shown.is_some() && differing(&script.commands, &mut Report::default()).is_none()
    });
    println!("written scripts of named differences: {}", if named { "each differs as said" } else { "NOT as said" });
    differ.is_empty() && wrong.is_empty() && named
}

fn named_script(name: &str, seed: u64, commands: usize) -> Option<Vec<Command>> {
    Some(match name {
        "inputs" => make::on_inputs(seed, commands, Domain::Damaged),
        "apart" => make::apart(seed, commands),
        "pats" => pats::script(seed, commands),
        "events" => events::script(seed, commands),
        "networks" => networks::script(seed, commands),
        "guides" => guides::script(seed, commands),
        "logs" => logs::script(seed, commands),
        "all" => all::script(seed, commands),
        _ => make::script(seed, commands, Domain::named(name)?),
    })
}

/// What the player prints for a tape.
fn played(tape: &[u8]) -> String {
    let mut out = Vec::new();
    let _ = play(tape, &mut Port::begin(), &mut out).expect("a tape in memory");
    String::from_utf8(out).expect("lines are ASCII")
}

/// A tape that ends inside a command, at each place, and a command that there is not.
fn compare_ends(root: &Path) -> bool {
    let written = ["scripts", "inputs", "pats", "packets", "events", "networks", "guides", "logs", "all"]
        .into_iter()
        .flat_map(|folder| Written::all(root, folder));
    let script = &first_of_each_kind(written.flat_map(|script| script.commands))[..];
    let lines = Side::RULES.lines(script);
    let starts: Vec<usize> = (0..=script.len()).map(|whole| tape_of(&script[..whole]).len()).collect();
    let tape = tape_of(script);
    let expected = |end: usize| {
        let whole = starts.iter().rposition(|&start| start <= end).expect("a tape starts at 0");
        let cut = if starts[whole] < end { "cut\n" } else { "" };
        lines[..whole].iter().map(|line| format!("{line}\n")).collect::<String>() + cut
    };
    let mut good = (0..=tape.len()).all(|end| played(&tape[..end]) == expected(end));
    for bad in [0x00, 0x0F, 0x17, 0x1F, 0x26, 0x39, 0x3F, 0x45, 0x4F, 0x51, 0x63, 0x75, 0xFF] {
        let output = played(&[&tape[..], &[bad, 0x14]].concat());
        good &= output == expected(tape.len()) + &format!("bad {}\n", tape.len());
    }
    println!("a tape cut at each of {} places: {}", tape.len(), if good { "equal" } else { "DIFFERS" });
    good
}

fn first_of_each_kind(commands: impl Iterator<Item = Command>) -> Vec<Command> {
    let mut first: Vec<Command> = Vec::new();
    for command in commands {
        if first.iter().all(|known| known.kind() != command.kind()) {
            first.push(command);
        }
    }
    first
}

/// `watch` on the rules' example, cut at each place, and on streams of sections: the program in its own manner, the original in its own.
fn compare_watch(root: &Path) -> bool {
    let program = Program::new(root, "watch");
    let example = watch::EXAMPLE.concat().concat();
    let mut inputs: Vec<Vec<u8>> = (0..=example.len()).map(|end| example[..end].to_vec()).collect();
    inputs.extend((0..20).map(watch_stream));
    let mut good = watch_second(watch::BY_DEFAULT, &example) == watch::EXAMPLE_OUTPUT;
    for input in &inputs {
        let mut original = original::Original::new(0);
        good &= watch_second(watch::AS_THE_RUST, input) == watch::output(|command| original.answer(command), watch::AS_THE_RUST, input);
        good &= watch_second(watch::BY_DEFAULT, input) == program.output(input);
    }
    println!("watch on {} inputs: {}", inputs.len(), if good { "equal" } else { "DIFFERS" });
    good
}

fn watch_second(manner: watch::Manner, input: &[u8]) -> String {
    let mut second = second::Second::new(second::Reading::default());
    watch::output(|command| second.answer(command), manner, input)
}

/// Sections of a script as `watch` reads them, each with its PID; the last one may be cut.
fn watch_stream(seed: u64) -> Vec<u8> {
    let mut stream = Vec::new();
    for command in make::script(seed, 400, Domain::Inside) {
        if let Command::Gate { pid, section, .. } = command
            && lent::deliverable(&section)
        {
            stream.extend(pid.to_be_bytes());
            stream.extend(section);
        }
    }
    stream.truncate(stream.len() - seed as usize % 3);
    stream
}

/// Each fault in turn: it has to be found, by the original where it has a counterpart, else by the second implementation itself; and by the port.
fn compare_faults(seeds: usize, commands: usize, part: Option<&str>) -> bool {
    let mut missed = 0;
    let faults: Vec<Fault> = Fault::ALL.iter().copied().filter(|fault| part.is_none_or(|part| fault.part().name() == part)).collect();
    for &fault in &faults {
        match find_fault(fault, seeds, commands) {
            Some((seed, domain, found)) => {
                let against = found.answers[0].0;
                let size = found.script.len();
                println!("{fault:?}: found, {domain}, seed {seed}, against {against}, {size} commands: {}", fault.says());
            }
            None => {
                missed += 1;
                println!("{fault:?}: NOT FOUND in {seeds} seeds: {}", fault.says());
            }
        }
        if !found_by_the_port(fault, seeds, commands) {
            missed += 1;
            println!("{fault:?}: NOT FOUND against the port in {seeds} seeds");
        }
    }
    println!("{} faults, {missed} not found", faults.len());
    missed == 0
}

/// Scripts of PATs, and scripts that ask for entries, are of one kind.
fn domains_of(fault: Fault) -> &'static [(Domain, &'static str)] {
    match fault {
        fault if fault.of_pats() => &[(Domain::Inside, "PATs in several sections")],
        fault if fault.of_events() => &[(Domain::Inside, "entries")],
        fault if fault.of_networks() => &[(Domain::Inside, "entries of networks, bouquets and services")],
        fault if fault.of_guides() => &[(Domain::Inside, "guides")],
        fault if fault.of_logs() => &[(Domain::Inside, "logs")],
        fault if fault.of_all() => &[(Domain::Inside, "many in one call")],
        fault if fault.of_whole_tables() => &[(Domain::Inside, "a table of 32 segments")],
        _ => &DOMAINS,
    }
}

/// The commands of a seed that the faulty part is given.
fn script_for(fault: Fault, seed: u64, commands: usize, domain: Domain) -> Vec<Command> {
    if fault.of_pats() {
        return pats::script(seed, commands);
    }
    if fault.of_events() {
        return events::script(seed, commands);
    }
    if fault.of_networks() {
        return networks::script(seed, commands);
    }
    if fault.of_guides() {
        return guides::script(seed, commands);
    }
    if fault.of_logs() {
        return logs::script(seed, 60);
    }
    if fault.of_all() {
        return all::script(seed, commands);
    }
    if fault.of_whole_tables() {
        return make::whole_table(seed);
    }
    let script = if fault.of_inputs() { make::on_inputs } else { make::script };
    let mut script = make::counted(script(seed, commands, domain));
    if fault.of_rule_2() {
        script = make::by_rule_2(script);
    }
    of_part(fault, script)
}

fn of_part(fault: Fault, mut script: Vec<Command>) -> Vec<Command> {
    script.retain(|command| command.part().is_none_or(|part| part == fault.part()));
    script
}

/// Beside an original for each input.
fn find_apart(fault: Fault, seed: u64, commands: usize) -> Option<Found> {
    let faulty = Side::Second { as_original: true, fault: Some(fault) };
    let script = of_part(fault, make::apart(seed, commands));
    first_difference([Side::Apart, faulty], &script).filter(|_| apart::is_apart(&script))
}

fn find_fault(fault: Fault, seeds: usize, commands: usize) -> Option<(u64, &'static str, Found)> {
    if fault.part() == Part::Demux {
        return packets::find_fault(fault, seeds, commands);
    }
    let with = |as_original| Side::Second { as_original, fault: Some(fault) };
    for seed in 0..seeds as u64 {
        if fault.of_inputs()
            && let Some(found) = find_apart(fault, seed, commands)
        {
            return Some((seed, "apart", smallest(found)));
        }
        for &(domain, name) in domains_of(fault) {
            let script = script_for(fault, seed, commands, domain);
            let beside_original = || fault.has_original().then(|| first_difference([Side::Original, with(true)], &script)).flatten();
            let found = beside_original().or_else(|| first_difference([Side::RULES, with(false)], &script));
            if let Some(found) = found {
                return Some((seed, name, smallest(found)));
            }
        }
    }
    None
}

/// Whether the fault shows where the second implementation is compared with the port.
fn found_by_the_port(fault: Fault, seeds: usize, commands: usize) -> bool {
    let faulty = Side::Second { as_original: false, fault: Some(fault) };
    if fault.part() == Part::Demux {
        return packets::found_by_the_port(fault, seeds, commands);
    }
    (0..seeds as u64).any(|seed| {
        let differs = |domain| first_difference([Side::Port, faulty], &script_for(fault, seed, commands, domain)).is_some();
        domains_of(fault).iter().any(|&(domain, _)| differs(domain))
    })
}

fn compare_file(path: &Path) -> bool {
    let script = Written::read(path).commands;
    let original = if original::has_all(&script) { Side::Original.lines(&script) } else { Vec::new() };
    for (at, (command, line)) in script.iter().zip(Side::RULES.lines(&script)).enumerate() {
        println!("{command}\n    {line}");
        if let Some(other) = original.get(at).filter(|other| **other != line) {
            println!("    original: {other}");
        }
    }
    match differing_somehow(&script) {
        None => true,
        Some(found) => {
            println!("a difference at command {}; the smallest script found:\n{}", found.line + 1, smallest(found));
            false
        }
    }
}
