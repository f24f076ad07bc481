//! `compared runs FILE`: the program compare_guides on the files that FILE spells, held to the lines that stand there. `compared copies`: what both monitors write of
//! examples/feed, compared file by file, and again after one byte of the feed was changed and its CRC made anew. `compared large`: two sets of 1 MiB that differ in one byte, in under a second.
//!
//! A run begins with `== what it shows`. `first HEX` and `second HEX` spell a file (`first HEX*N` so many times, `.` no bytes), `first absent` that there is none; `run WORDS` has the arguments, where FIRST
//! and SECOND stand for the files; the lines up to the next run are what the program prints.
use petrizolu::crc;
use std::collections::BTreeMap;
use std::path::{Path, PathBuf};
use std::process::{Command, ExitCode};
use std::time::Instant;
use std::{env, fs};

/// Where a run stands that goes wrong, and how.
type Wrong = Vec<String>;

fn root() -> PathBuf {
    Path::new(env!("CARGO_MANIFEST_DIR")).join("../..")
}

/// What the program prints; it has been built.
fn compare_guides(words: &[&str]) -> String {
    let run = Command::new(root().join("run")).arg("compare_guides").args(words).env("PETRIZOLU_BUILT", "1").output();
    String::from_utf8(run.expect("the script run can be started").stdout).expect("programs write ASCII")
}

// ---- stored runs

fn unhex(text: &str) -> Vec<u8> {
    let (digits, times) = text.split_once('*').unwrap_or((text, "1"));
    let bytes: Vec<u8> = match digits {
        "." => Vec::new(),
        digits => (0..digits.len()).step_by(2).map(|at| u8::from_str_radix(&digits[at..at + 2], 16).expect("hexadecimal")).collect(),
    };
    bytes.repeat(times.parse().expect("a number"))
}

fn stored_runs(file: &str, folder: &Path) -> Wrong {
    let text = fs::read_to_string(file).expect("the file of runs");
    let paths = ["first", "second"].map(|name| folder.join(name));
    let mut wrong = Vec::new();
    for run in text.split("== ").skip(1) {
        let mut lines = run.lines();
        let name = lines.next().expect("what it shows");
        let mut expected = String::new();
        let mut words = Vec::new();
        for line in lines {
            match line.split_once(' ') {
                Some((side @ ("first" | "second"), bytes)) if words.is_empty() => {
                    let path = &paths[usize::from(side == "second")];
                    let _ = fs::remove_file(path);
                    if bytes != "absent" {
                        fs::write(path, unhex(bytes)).expect("below target/ can be written");
                    }
                }
                Some(("run", arguments)) => words = arguments.split(' ').collect(),
                _ => expected += &format!("{line}\n"),
            }
        }
        let path = |word: &str| match word {
            "FIRST" => paths[0].to_str().expect("a path in ASCII").to_owned(),
            "SECOND" => paths[1].to_str().expect("a path in ASCII").to_owned(),
            word => word.to_owned(),
        };
        let words: Vec<String> = words.into_iter().map(path).collect();
        let said = compare_guides(&words.iter().map(String::as_str).collect::<Vec<_>>());
        if said != expected {
            wrong.push(format!("{name}: says\n{said}not\n{expected}"));
        }
    }
    wrong
}

// ---- what the monitors write

/// The files that a monitor writes of a feed, by name.
fn copies(language: &str, feed: &Path, folder: &Path) -> BTreeMap<String, PathBuf> {
    let _ = fs::remove_dir_all(folder);
    fs::create_dir_all(folder).expect("below target/ can be written");
    let run = Command::new(root().join("examples").join(format!("run-{language}")))
        .arg("-w")
        .arg(folder)
        .arg(feed)
        .env("PETRIZOLU_BUILT", "1")
        .output();
    assert!(run.expect("the monitor can be started").status.success(), "the monitor, run-{language}");
    let files = fs::read_dir(folder).expect("its folder").map(|file| file.expect("a file").path());
    files.map(|path| (path.file_name().expect("a name").to_str().expect("ASCII").to_owned(), path)).collect()
}

/// Two monitors' files of one name, compared: a schedule's table is the first of its kind.
fn differences(name: &str, first: &Path, second: &Path) -> String {
    let kind = if matches!(&name[5..7], "50" | "60") { "schedule" } else { "set" };
    compare_guides(&[kind, first.to_str().expect("ASCII"), second.to_str().expect("ASCII")])
}

/// The feed with a byte of its last EIT of table 51 otherwise: the low byte of its event's day, at byte 17 of the section; its CRC is made anew.
fn with_another_byte(mut feed: Vec<u8>) -> Vec<u8> {
    let (mut at, mut found) = (0, None);
    while at < feed.len() {
        let length = 3 + (usize::from(feed[at + 3] & 0x0F) << 8 | usize::from(feed[at + 4]));
        if feed[at + 2] == 0x51 {
            found = Some((at + 2, length));
        }
        at += 2 + length;
    }
    let (start, length) = found.expect("an EIT of table 51");
    feed[start + 17] ^= 1;
    let sum = crc(&feed[start..start + length - 4]);
    feed[start + length - 4..start + length].copy_from_slice(&sum.to_be_bytes());
    feed
}

fn compared_copies(folder: &Path) -> Wrong {
    let feed = root().join("examples/feed");
    let [c, rs] = ["c", "rs"].map(|language| copies(language, &feed, &folder.join(language)));
    let mut wrong = Vec::new();
    let names = [
        "0000-00-0001",
        "0010-40-3001",
        "0011-42-0001",
        "0011-4A-5001",
        "0012-4E-0001-0001-2040",
        "0012-50-0001-0001-2040",
        "0100-02-0001",
    ];
    let said: Vec<&str> = c.keys().map(String::as_str).collect();
    if said != names || c.keys().ne(rs.keys()) {
        wrong.push(format!("the files are {said:?} and {:?}", rs.keys()));
        return wrong;
    }
    for (name, path) in &c {
        let said = differences(name, path, &rs[name]);
        let last = said.lines().last().unwrap_or_default();
        if last != "entries 0" && last != "entries 0 versions agree lasts agree" {
            wrong.push(format!("{name} of both monitors: {said}"));
        }
    }
    let changed = folder.join("feed");
    fs::write(&changed, with_another_byte(fs::read(&feed).expect("examples/feed"))).expect("below target/ can be written");
    let other = copies("rs", &changed, &folder.join("changed"));
    for (name, path) in &c {
        let said = differences(name, path, &other[name]);
        let one = "schedule 0012 50 0001 stream 0001 network 2040 current 1\ntable 50 both versions agree lasts agree\ntable 51 both versions agree lasts agree\nboth 0 17\nentries 1\n";
        let as_expected = if name.starts_with("0012-50") { said == one } else { said.contains("entries 0") };
        if !as_expected {
            wrong.push(format!("{name} after a byte of the feed was changed: {said}"));
        }
    }
    wrong
}

// ---- large sets

/// 256 sections of 4,096 bytes on PID 0x11; the last byte before the last CRC is this one.
fn large(last_byte: u8) -> Vec<u8> {
    let mut file = vec![0x00, 0x11];
    for number in 0..=255 {
        let start = file.len();
        file.extend([0x42, 0xFF, 0xFD, 0, 1, 0xC1, number, 255]);
        file.resize(start + 4091, number);
        file.push(if number == 255 { last_byte } else { 0 });
        let sum = crc(&file[start..]);
        file.extend(sum.to_be_bytes());
    }
    file
}

fn large_sets(folder: &Path) -> Wrong {
    let paths = [0, 1].map(|byte| {
        let path = folder.join(format!("large-{byte}"));
        fs::write(&path, large(byte)).expect("below target/ can be written");
        path
    });
    let [first, second] = paths.each_ref().map(|path| path.to_str().expect("ASCII"));
    let start = Instant::now();
    let said = compare_guides(&["set", first, second]);
    let took = start.elapsed();
    let expected = "set 0011 42 0001 current 1\nboth 255 4091\nentries 1 versions agree lasts agree\n";
    println!("two sets of 1 MiB: {} ms", took.as_millis());
    let mut wrong = Vec::new();
    if said != expected {
        wrong.push(format!("two sets of 1 MiB: {said}"));
    }
    if took.as_secs() >= 1 {
        wrong.push(format!("two sets of 1 MiB took {took:?}"));
    }
    wrong
}

fn main() -> ExitCode {
    let words: Vec<String> = env::args().skip(1).collect();
    let folder = root().join("target/tests/compared");
    fs::create_dir_all(&folder).expect("below target/ can be written");
    let wrong = match words.iter().map(String::as_str).collect::<Vec<_>>()[..] {
        ["runs", file] => stored_runs(file, &folder),
        ["copies"] => compared_copies(&folder),
        ["large"] => large_sets(&folder),
        _ => {
            eprintln!("usage: compared runs FILE | compared copies | compared large");
            return ExitCode::from(2);
        }
    };
    wrong.iter().for_each(|line| println!("{line}"));
    if wrong.is_empty() { ExitCode::SUCCESS } else { ExitCode::FAILURE }
}
