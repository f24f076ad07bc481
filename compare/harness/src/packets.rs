//! The packet layer: on streams by the standard beside the original's `feed`; on wild ones too, where the original stands on its side of the named differences, and the
//! port beside the second implementation with everything that the original has not.
use crate::beside;
use crate::faults::Fault;
use crate::original::has_all;
use crate::pairs::{Found, Side, differing, first_difference, smallest};
use crate::program::Program;
use crate::report::Report;
use crate::second::{Reading, Second};
use crate::stream::{self, Beyond};
use crate::transport::{self, Output};
use crate::written::Written;
use player::command::Command;
use std::path::Path;
use std::time::Instant;

pub fn compare(root: &Path, seeds: usize, packets: usize) -> bool {
    let start = Instant::now();
    let mut good = written(root) && programs(root);
    for (name, script) in BESIDE_THE_ORIGINAL {
        let mut report = Report::default();
        for seed in 0..seeds as u64 {
            let script = script(seed, packets);
            assert!(has_all(&script), "{name}, seed {seed}");
            if let Some(found) = differing(&script, &mut report) {
                return beside::differs(&format!("{name}, seed {seed}"), found);
            }
        }
        println!("{name}: {seeds} seeds of {packets} packets, 0 differences that are not named\n{report}");
        good &= name != STANDARD || report.met_alone(&[]);
    }
    let mut report = Report::default();
    for seed in 0..seeds as u64 {
        let script = stream::wild(seed, packets, Beyond::Port);
        if let Some(found) = first_difference([Side::RULES, Side::Port], &script) {
            return beside::differs(&format!("{EVERYTHING}, seed {seed}"), found);
        }
        let mut second = Second::new(Reading::default());
        script.iter().for_each(|command| report.count(command, &second.answer(command)));
        report.seen(second.seen());
    }
    println!("{EVERYTHING}: {seeds} seeds of {packets} packets, 0 differences\n{report}");
    println!("in {} seconds", start.elapsed().as_secs());
    good
}

const STANDARD: &str = "streams by the standard";
const EVERYTHING: &str = "wild streams on several inputs, by both change rules and manners of following, opened at any time";

type Script = fn(u64, usize) -> Vec<Command>;

const BESIDE_THE_ORIGINAL: [(&str, Script); 2] =
    [(STANDARD, stream::by_the_standard), ("wild streams", |seed, packets| stream::wild(seed, packets, Beyond::Original))];

/// The scripts of packets/, written by hand: the original is held to those that begin with `0`, the second implementation and the port to all.
fn written(root: &Path) -> bool {
    let scripts = Written::all(root, "packets");
    let mut wrong = Vec::new();
    for script in &scripts {
        for side in [Side::RULES, Side::Port] {
            wrong.extend(script.not_as_said(side));
        }
    }
    let said: usize = scripts.iter().map(|script| script.said.len()).sum();
    println!("{} written scripts of packets/, {said} answers: {}", scripts.len(), if wrong.is_empty() { "as said" } else { "NOT as said" });
    wrong.iter().for_each(|line| println!("  {line}"));
    wrong.is_empty()
}

/// `watch_ts` and `sections` on their stored stream, cut at some places, and on streams out of alignment: as the second implementation works it out.
fn programs(root: &Path) -> bool {
    if !["watch_ts", "sections"].iter().all(|name| root.join("crates").join(name).join("src").exists()) {
        println!("watch_ts and sections: there are no such programs yet");
        return true;
    }
    let example = transport::example();
    let mut inputs: Vec<Vec<u8>> = (0..=example.len()).step_by(61).map(|end| example[..end].to_vec()).collect();
    inputs.extend((0..20).map(|seed| stream::bytes(seed, 400)));
    let outputs: Vec<Output> = inputs.iter().map(|input| transport::output(input)).collect();
    let [watch_ts, sections] = ["watch_ts", "sections"].map(|name| Program::new(root, name));
    let equal = |(input, output): (&Vec<u8>, &Output)| watch_ts.output(input) == output.lines && sections.bytes(input) == output.records;
    let good = inputs.iter().zip(&outputs).all(equal);
    println!("watch_ts and sections on {} streams: {}", inputs.len(), if good { "equal" } else { "DIFFER" });
    good
}

/// Where a fault of the packet layer is found: beside the original, or beside the second implementation without it.
pub fn find_fault(fault: Fault, seeds: usize, packets: usize) -> Option<(u64, &'static str, Found)> {
    let with = |as_original| Side::Second { as_original, fault: Some(fault) };
    for seed in 0..seeds as u64 {
        for (name, script) in BESIDE_THE_ORIGINAL {
            if let Some(found) = first_difference([Side::Original, with(true)], &script(seed, packets)) {
                return Some((seed, name, smallest(found)));
            }
        }
        if let Some(found) = first_difference([Side::RULES, with(false)], &stream::wild(seed, packets, Beyond::Port)) {
            return Some((seed, EVERYTHING, smallest(found)));
        }
    }
    None
}

/// Whether it shows where the second implementation is compared with the port.
pub fn found_by_the_port(fault: Fault, seeds: usize, packets: usize) -> bool {
    let faulty = Side::Second { as_original: false, fault: Some(fault) };
    (0..seeds as u64).any(|seed| first_difference([Side::Port, faulty], &stream::wild(seed, packets, Beyond::Port)).is_some())
}
