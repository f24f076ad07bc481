//! The program `tables` on inputs that are not stored: nothing, every reader on every table, another argument, a record cut at each of its bytes, and the largest table that
//! there is.
use petrizolu::crc;
use std::io::Write;
use std::process::{Command, Stdio};
use std::thread;
use std::time::{Duration, Instant};

/// What `./run tables` prints. The script proves and builds the program where that is not done yet.
fn printed(words: &[&str], input: Vec<u8>) -> String {
    let mut started = Command::new(concat!(env!("CARGO_MANIFEST_DIR"), "/../../run"))
        .arg("tables")
        .args(words)
        .stdin(Stdio::piped())
        .stdout(Stdio::piped())
        .spawn()
        .expect("the script run can be started");
    let mut stdin = started.stdin.take().expect("piped above");
    // A program that says how it is used reads nothing.
    let writer = thread::spawn(move || drop(stdin.write_all(&input)));
    let output = started.wait_with_output().expect("its output can be read");
    writer.join().expect("the writer does not panic");
    assert!(output.status.success());
    String::from_utf8(output.stdout).expect("lines are ASCII")
}

/// A record on PID 0x11 of a section with this body.
fn record(table_id: u8, number: u8, last: u8, body: &[u8]) -> Vec<u8> {
    let [high, low] = (9 + body.len() as u16).to_be_bytes();
    let mut section = [&[table_id, 0xF0 | high, low, 0x00, 0x01, 0xC1, number, last], body].concat();
    section.extend(crc(&section).to_be_bytes());
    [&[0x00, 0x11], &section[..]].concat()
}

/// EN 300 468, 5.2.1 and 5.2.3: one transport stream, one service.
const STREAM: &[u8] = b"\xF0\x00\xF0\x06\x00\x01\x21\x74\xF0\x00";
const SERVICE: &[u8] = b"\x21\x74\xFF\x00\x01\xFD\x80\x00";

fn totals(sections: usize, sets: usize, streams: usize, services: usize) -> String {
    format!("sections {sections} sets {sets} streams {streams} services {services} descriptors 0 refused 0 other 0\n")
}

#[test]
fn inputs_that_are_not_stored() {
    assert_eq!(printed(&[], Vec::new()), totals(0, 0, 0, 0));
    assert_eq!(printed(&["sdt"], Vec::new()), totals(0, 0, 0, 0));
    for words in [&["pat"][..], &["NIT"], &["nit", "bat"], &[""]] {
        assert_eq!(printed(words, record(0x40, 0, 0, STREAM)), "usage: tables [nit|bat|sdt]\n", "{words:?}");
    }
    every_reader();
    let [second, first] = [1, 0].map(|number| record(0x42, number, 1, SERVICE));
    for end in 1..=first.len() {
        let line = |number| format!("service {number} 0001 network 2174 schedule 0 following 1 running 4 ca 0 descriptors 0\n");
        let expected = match end {
            end if end == first.len() => {
                format!("set 0011 42 0001 current 1 version 0 last 1\n{}{}{}", line(0), line(1), totals(2, 1, 0, 2))
            }
            _ => format!("cut\n{}", totals(1, 0, 0, 0)),
        };
        assert_eq!(printed(&[], [&second, &first[..end]].concat()), expected, "cut behind {end} bytes");
    }
    the_largest_tables();
}

/// All five tables, and one without a reader, through each of the three readers.
fn every_reader() {
    let tables = [(0x40, STREAM), (0x41, STREAM), (0x42, SERVICE), (0x46, SERVICE), (0x4A, STREAM), (0x00, STREAM)];
    let feed: Vec<u8> = tables.iter().flat_map(|(table_id, body)| record(*table_id, 0, 0, body)).collect();
    for (reader, own) in [("nit", &[0x40, 0x41][..]), ("bat", &[0x4A]), ("sdt", &[0x42, 0x46])] {
        let lines = tables.map(|(table_id, _)| {
            let said = match (own.contains(&table_id), reader) {
                (false, _) => "broken 35 section 0 byte 0",
                (true, "sdt") => "service 0 0001 network 2174 schedule 0 following 1 running 4 ca 0 descriptors 0",
                (true, _) => "stream 0 0001 network 2174 descriptors 0",
            };
            format!("set 0011 {table_id:02X} 0001 current 1 version 0 last 0\n{said}\n")
        });
        let [streams, services] = if reader == "sdt" { [0, 2] } else { [own.len(), 0] };
        assert_eq!(printed(&[reader], feed.clone()), lines.concat() + &totals(6, 6, streams, services), "{reader}");
    }
}

/// Tables of 256 sections of 4,096 bytes: 816 services each, and 2,040 descriptors of no bytes each.
fn the_largest_tables() {
    let services = [&SERVICE[..3], &SERVICE[3..].repeat(816)].concat();
    let descriptors = [&[0xFF, 0xF0][..], &[0x40, 0].repeat(2040), &[0xF0, 0]].concat();
    for (table_id, body) in [(0x42, services), (0x40, descriptors)] {
        let feed: Vec<Vec<u8>> = (0..=255).map(|number| record(table_id, number, 255, &body)).collect();
        let mut expected = format!("set 0011 {table_id:02X} 0001 current 1 version 0 last 255\n");
        for number in 0..=255 {
            expected += &match table_id {
                0x42 => format!("service {number} 0001 network 2174 schedule 0 following 1 running 4 ca 0 descriptors 0\n").repeat(816),
                _ => "descriptor 40 0\n".repeat(2040),
            };
        }
        let [services, descriptors] = if table_id == 0x42 { [256 * 816, 0] } else { [0, 256 * 2040] };
        expected += &format!("sections 256 sets 1 streams 0 services {services} descriptors {descriptors} refused 0 other 0\n");
        let start = Instant::now();
        let told = printed(&[], feed.concat());
        // Far above what it takes where nothing else runs (compare/run --networks asks for less than ten seconds).
        assert!(start.elapsed() < Duration::from_secs(60), "{:?}", start.elapsed());
        assert!(told == expected, "{} lines", told.lines().count());
    }
}
