//! The port beside the second implementation, where the original is no measure: what every such comparison does.
use crate::pairs::{Found, Side, first_difference, smallest};
use crate::program::Program;
use crate::report::Report;
use crate::written::Written;
use player::command::Command;
use std::path::Path;

const SIDES: [Side; 2] = [Side::RULES, Side::Port];

/// The scripts of a folder of compare/: whether both sides answer as they say.
pub fn as_said(root: &Path, folder: &str) -> bool {
    let scripts = Written::all(root, folder);
    let wrong: Vec<String> = scripts.iter().flat_map(|script| SIDES.map(|side| script.not_as_said(side))).flatten().collect();
    let said: usize = scripts.iter().map(|script| script.said.len()).sum();
    println!(
        "{} written scripts of {folder}/, {said} answers: {}",
        scripts.len(),
        if wrong.is_empty() { "as said" } else { "NOT as said" }
    );
    wrong.iter().for_each(|line| println!("  {line}"));
    wrong.is_empty()
}

/// Whether both answer a script alike; then the report counts it, else the smallest script that shows how is said.
pub fn alike(what: &str, script: &[Command], report: &mut Report) -> bool {
    if let Some(found) = first_difference(SIDES, script) {
        return differs(what, found);
    }
    script.iter().zip(Side::RULES.answers(script)).for_each(|(command, answer)| report.count(command, &answer));
    true
}

/// Says the smallest script that shows a difference.
pub fn differs(what: &str, found: Found) -> bool {
    println!("{what}: a difference at command {}; the smallest script found:", found.line + 1);
    println!("{}", smallest(found));
    false
}

/// The scripts of seeds.
pub fn seeds_alike(name: &str, seeds: usize, script: impl Fn(u64) -> Vec<Command>) -> bool {
    let mut report = Report::default();
    let good = (0..seeds as u64).all(|seed| alike(&format!("{name}, seed {seed}"), &script(seed), &mut report));
    if good {
        println!("{name}: {seeds} seeds, 0 differences\n{report}");
    }
    good
}

/// The pushes of a script as records; the last one may be cut.
pub fn feed(seed: u64, script: Vec<Command>, without_pid: u16) -> Vec<u8> {
    let mut feed = Vec::new();
    for command in script {
        if let Command::Push { pid, section, .. } = command
            && crate::lent::deliverable(&section)
        {
            feed.extend(pid.unwrap_or(without_pid).to_be_bytes());
            feed.extend(section);
        }
    }
    feed.truncate(feed.len() - seed as usize % 3);
    feed
}

/// A program's stored input, and whether its stored output is what the second implementation makes of it.
pub fn stored(root: &Path, program: &str, output: impl Fn(&[u8]) -> String) -> (Vec<u8>, bool) {
    let [stdin, stdout] =
        ["stdin", "stdout"].map(|name| std::fs::read(root.join("crates").join(program).join(name)).expect("a stored file"));
    let good = output(&stdin).as_bytes() == stdout;
    println!("the stored output of {program}: {}", if good { "equal" } else { "DIFFERS" });
    (stdin, good)
}

/// A program on a large input: within ten seconds it writes what the second implementation does.
pub fn large(program: &Program, name: &str, input: &[u8], output: impl Fn(&[u8]) -> String) -> bool {
    let start = std::time::Instant::now();
    let told = program.output(input);
    let seconds = start.elapsed().as_secs_f64();
    let equal = told == output(input);
    println!("{} on {name}: {} lines in {seconds:.1} s: {}", program.name, told.lines().count(), if equal { "equal" } else { "DIFFERS" });
    equal && seconds < 10.0
}
