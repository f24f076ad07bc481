//! The stored tapes of tests/tapes with the lines that they print, the stored output of the program `examples_run`, and the stored input and output of the programs that read a
//! transport stream.
use crate::all;
use crate::events;
use crate::guides;
use crate::logs;
use crate::make::{self, Domain};
use crate::pairs::{Side, differing_somehow, smallest};
use crate::second::{Reading, Second};
use crate::stream::{self, Beyond};
use crate::written::Written;
use crate::{networks, pats, transport, watch, watch_pats};
use player::answer::{Answer, Out, hex};
use player::command::Command;
use player::tape::tape_of;
use std::fs;
use std::path::Path;

/// Seeds that no comparison of less than a thousand uses.
const SEEDS: std::ops::Range<u64> = 1000..1004;
const COMMANDS: usize = 2500;

/// `domain` has the written scripts and some seeds inside the domain, without what a named difference decides, answered by the original; `damaged` has
/// damaged and cell-bound seeds, `inputs` seeds of each domain on several inputs, `pats` seeds of PATs in several sections, and
/// `events` and `tables` seeds that ask for entries, `guides` a seed of two guides compared, `logs` one of logs, `all` one of many sections in one call, answered by the second implementation.
pub fn store(root: &Path) -> bool {
    let seeds = |domain| SEEDS.flat_map(move |seed| make::script(seed, COMMANDS, domain));
    let inside: Vec<Command> = by_hand(root, "scripts").chain(seeds(Domain::Inside)).collect();
    let outside: Vec<Command> = seeds(Domain::Damaged).chain(seeds(Domain::CellBound)).collect();
    store_tape(root, "domain", Side::Original, &without_named(inside))
        && store_tape(root, "damaged", Side::RULES, &outside)
        && store_tape(root, "inputs", Side::RULES, &on_inputs(root))
        && store_tape(root, "pats", Side::RULES, &of_pats(root))
        && store_tape(root, "packets", Side::RULES, &of_packets(root))
        && store_tape(root, "events", Side::RULES, &of_events(root))
        && store_tape(root, "tables", Side::RULES, &of_networks(root))
        && store_tape(root, "guides", Side::RULES, &of_guides(root))
        && store_tape(root, "logs", Side::RULES, &of_logs(root))
        && store_tape(root, "all", Side::RULES, &of_all(root))
        && store_examples(root)
        && watch_pats::store(root)
        && store_streams(root)
}

/// The commands of the written scripts of a folder.
fn by_hand(root: &Path, folder: &str) -> impl Iterator<Item = Command> {
    Written::all(root, folder).into_iter().flat_map(|script| script.commands)
}

/// The written scripts of inputs/ and a seed of each domain.
fn on_inputs(root: &Path) -> Vec<Command> {
    let domains = [Domain::Inside, Domain::Damaged, Domain::CellBound];
    let seeds = domains.into_iter().flat_map(|domain| make::on_inputs(SEEDS.start, COMMANDS, domain));
    by_hand(root, "inputs").chain(seeds).collect()
}

/// The written scripts of pats/ and a seed.
fn of_pats(root: &Path) -> Vec<Command> {
    by_hand(root, "pats").chain(pats::script(SEEDS.start, COMMANDS)).collect()
}

/// The written scripts of packets/, a stream by the standard, and a wild one.
fn of_packets(root: &Path) -> Vec<Command> {
    let streams = [stream::by_the_standard(SEEDS.start, 400), stream::wild(SEEDS.start, 800, Beyond::Port)];
    by_hand(root, "packets").chain([Command::Input(0)]).chain(streams.into_iter().flatten()).collect()
}

/// The written scripts of events/ and a seed.
fn of_events(root: &Path) -> Vec<Command> {
    by_hand(root, "events").chain(events::script(SEEDS.start, COMMANDS)).collect()
}

/// The written scripts of networks/ and a seed.
fn of_networks(root: &Path) -> Vec<Command> {
    by_hand(root, "networks").chain(networks::script(SEEDS.start, COMMANDS)).collect()
}

/// The written scripts of guides/ and a seed.
fn of_guides(root: &Path) -> Vec<Command> {
    by_hand(root, "guides").chain(guides::script(SEEDS.start, 1000)).collect()
}

/// The written scripts of logs/ and a seed.
fn of_logs(root: &Path) -> Vec<Command> {
    by_hand(root, "logs").chain(logs::script(SEEDS.start, 60)).collect()
}

/// The written scripts of all/ and a seed.
fn of_all(root: &Path) -> Vec<Command> {
    by_hand(root, "all").chain(all::script(SEEDS.start, 100)).collect()
}

/// Whether all sides agree on a script, the original too where it is a measure; says where they do not.
fn agreed(script: &[Command]) -> bool {
    if let Some(found) = differing_somehow(script) {
        println!("a difference at command {}; the smallest script found:\n{}", found.line + 1, smallest(found));
        return false;
    }
    true
}

fn store_tape(root: &Path, name: &str, side: Side, script: &[Command]) -> bool {
    if !agreed(script) {
        return false;
    }
    let file = |end: &str| root.join("tests/tapes").join(format!("{name}.{end}"));
    let lines: String = side.lines(script).iter().map(|line| format!("{line}\n")).collect();
    fs::write(file("tape"), tape_of(script)).expect("the project's folder can be written");
    fs::write(file("txt"), lines).expect("the project's folder can be written");
    println!("tests/tapes/{name}: {} commands, answered by {side}", script.len());
    true
}

/// Leaves out the commands that the original answers otherwise than the rules say. Inside the domain these are refusals (D2), which change nothing.
fn without_named(script: Vec<Command>) -> Vec<Command> {
    let [original, rules] = [Side::Original, Side::RULES].map(|side| side.lines(&script));
    let alike = original.iter().zip(&rules).map(|(one, other)| one == other);
    script.into_iter().zip(alike).filter_map(|(command, alike)| alike.then_some(command)).collect()
}

/// The program prints the number that each command is answered with, and after it each section that goes out.
fn store_examples(root: &Path) -> bool {
    let script = Written::read(&root.join("compare/examples.txt")).commands;
    if !agreed(&script) {
        return false;
    }
    let mut second = Second::new(Reading::default());
    let text: String = script.iter().map(|command| example_lines(&second.answer(command))).collect();
    fs::write(root.join("crates/examples_run/stdout"), text).expect("the project's folder can be written");
    println!("crates/examples_run: {} commands, answered by {}", script.len(), Side::RULES);
    true
}

/// The stream that `watch_ts` and `sections` are run on, and what they write. Of its sections `watch` prints the same lines.
fn store_streams(root: &Path) -> bool {
    let input = transport::example();
    let output = transport::output(&input);
    let mut second = Second::new(Reading::default());
    let watched = watch::output(|command| second.answer(command), watch::BY_DEFAULT, &output.records);
    let of_sections = |text: &str| -> Vec<String> {
        let words = ["emitted ", "suppressed ", "mismatch ", "short "];
        text.lines().filter(|line| words.iter().any(|word| line.starts_with(word))).map(String::from).collect()
    };
    assert_eq!(of_sections(&watched), of_sections(&output.lines), "watch on what sections writes");
    for (program, stdout) in [("watch_ts", output.lines.as_bytes()), ("sections", &output.records)] {
        let folder = root.join("crates").join(program);
        fs::create_dir_all(&folder).expect("the project's folder can be written");
        fs::write(folder.join("stdin"), &input).expect("the project's folder can be written");
        fs::write(folder.join("stdout"), stdout).expect("the project's folder can be written");
    }
    println!("crates/watch_ts and crates/sections: {} bytes, answered by {}", input.len(), Side::RULES);
    true
}

fn example_lines(answer: &Answer) -> String {
    let (part, number) = answer.number().expect("the examples are of the collectors");
    let sets = match answer {
        Answer::Collected(_, _, Out::Set(set)) => std::slice::from_ref(set),
        Answer::Collected(_, _, Out::Schedule { sets, .. }) => sets,
        _ => &[],
    };
    let sections = sets.iter().flat_map(|set| &set.sections);
    let read: String = sections.map(|section| format!(" section {} {}\n", section[6], hex(section))).collect();
    format!("{part} {number}\n{read}")
}
