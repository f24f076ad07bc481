//! The program `events` on inputs that are not stored: nothing, a record cut at each of its bytes, and the largest table that there is.
use petrizolu::crc;
use std::io::Write;
use std::process::{Command, Stdio};
use std::thread;
use std::time::{Duration, Instant};

/// What `./run events` prints. The script proves and builds the program where that is not done yet.
fn printed(input: Vec<u8>) -> String {
    let mut started = Command::new(concat!(env!("CARGO_MANIFEST_DIR"), "/../../run"))
        .arg("events")
        .stdin(Stdio::piped())
        .stdout(Stdio::piped())
        .spawn()
        .expect("the script run can be started");
    let mut stdin = started.stdin.take().expect("piped above");
    let writer = thread::spawn(move || stdin.write_all(&input));
    let output = started.wait_with_output().expect("its output can be read");
    writer.join().expect("the writer does not panic").expect("it reads its whole input");
    assert!(output.status.success());
    String::from_utf8(output.stdout).expect("lines are ASCII")
}

/// A record on PID 0x12: an EIT section with one event (EN 300 468, 5.2.4), 1993-10-13 at 12:45:00 for 01:45:30, and these descriptors.
fn record(table_id: u8, [number, segment_end, last]: [u8; 3], descriptors: &[u8]) -> Vec<u8> {
    let [high, low] = (descriptors.len() as u16).to_be_bytes();
    let event = [0x00, number, 0xC0, 0x79, 0x12, 0x45, 0x00, 0x01, 0x45, 0x30, 0x80 | high, low];
    let [high, low] = (27 + descriptors.len() as u16).to_be_bytes();
    let head = [table_id, 0xF0 | high, low, 0x00, 0x01, 0xC1, number, last, 0x00, 0x01, 0x21, 0x74, segment_end, table_id];
    let mut section = [&head, &event[..], descriptors].concat();
    section.extend(crc(&section).to_be_bytes());
    [&[0x00, 0x12], &section[..]].concat()
}

fn event_line(number: u8, length: usize) -> String {
    format!(
        "event {number} {number:04X} day 49273 1993-10-13 time 45900 12:45:00 duration 6330 01:45:30 running 4 ca 0 descriptors {length}\n"
    )
}

#[test]
fn inputs_that_are_not_stored() {
    let totals =
        |sections, sets, events| format!("sections {sections} sets {sets} schedules 0 events {events} descriptors 0 refused 0 other 0\n");
    assert_eq!(printed(Vec::new()), totals(0, 0, 0));
    let [second, first] = [1, 0].map(|number| record(0x4E, [number, 1, 1], &[]));
    let set = "set 0012 4E 0001 stream 0001 network 2174 current 1 version 0 last 1\n";
    for end in 1..=first.len() {
        let expected = match end {
            end if end == first.len() => format!("{set}{}{}{}", event_line(0, 0), event_line(1, 0), totals(2, 1, 2)),
            _ => format!("cut\n{}", totals(1, 0, 0)),
        };
        assert_eq!(printed([&second, &first[..end]].concat()), expected, "cut behind {end} bytes");
    }
    the_largest_table();
}

/// A schedule of one table of 256 sections of 4,096 bytes, each an event with 2,033 descriptors of no bytes.
fn the_largest_table() {
    let feed: Vec<Vec<u8>> = (0..=255).map(|number| record(0x50, [number, number | 7, 255], &[0x40, 0].repeat(2033))).collect();
    let mut expected = String::from("schedule 0012 50 50 0001 stream 0001 network 2174 current 1\ntable 50 version 0 last 255\n");
    for number in 0..=255 {
        expected += &event_line(number, 4066);
        expected += &"descriptor 40 0\n".repeat(2033);
    }
    expected += "sections 256 sets 0 schedules 1 events 256 descriptors 520448 refused 0 other 0\n";
    let start = Instant::now();
    let told = printed(feed.concat());
    // Far above what it takes where nothing else runs (compare/run --events asks for less than ten seconds).
    assert!(start.elapsed() < Duration::from_secs(60), "{:?}", start.elapsed());
    assert!(told == expected, "{} lines", told.lines().count());
}
