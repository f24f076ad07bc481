//! What the stored tapes do not show: that a difference is found and told at its place, where a tape ends, and that what memory held does not matter.
use player::play::play;
use player::port::Port;

fn lines(tape: &[u8], mut port: Port) -> String {
    let mut out = Vec::new();
    let _ = play(tape, &mut port, &mut out).expect("a tape in memory");
    String::from_utf8(out).expect("lines are ASCII")
}

#[test]
fn a_word_of_the_watch_differs() {
    let mut port = Port::begin();
    port.gates.indexed.watch[0].words[1] ^= 1;
    assert_eq!(lines(b"\x22\x13\x00\x00\x13\x00\x00", port), "sets 10\ndiffers 1\ndiffers 1\n");
}

#[test]
fn a_word_of_the_watch_of_another_input_differs() {
    let differs_on_3 = || {
        let mut port = Port::begin();
        port.gates.indexed.watch[3].words[1] ^= 1;
        port
    };
    assert_eq!(lines(b"\x13\x00\x00\x50\x03\x13\x00\x00", differs_on_3()), "gate 8\ninput 3\ndiffers 5\ndiffers 5\n");
    assert_eq!(lines(b"\x13\x00\x00", differs_on_3()), "gate 8\ndiffers 3\n");
}

#[test]
fn a_pat_differs() {
    let mut port = Port::begin();
    port.gates.indexed.watch[0].pat_slots[32] ^= 1;
    assert_eq!(lines(b"\x16", port), "differs 0\ndiffers 0\n");
    let mut port = Port::begin();
    port.gates.indexed.watch[15].pat_cells[9] ^= 1;
    assert_eq!(lines(b"\x16", port), "gate pats ev=0 rows=0\ndiffers 1\n");
}

/// 2 alone follows each changed section, 20 (hexadecimal) alone does nothing: both leave the PAT store, whatever the record held.
#[test]
fn the_flag_of_complete_pats() {
    let pat = b"\x11\0\0\0\x10\x00\xB0\x0D\x00\x01\xC1\x00\x00\x00\x01\xE1\x00\xE8\xF9\x5E\x7D";
    let asked = b"\x13\x01\x00\x16";
    for (flags, watched, rows) in [(4, 9, 0), (0x24, 9, 0), (6, 8, 0), (0x26, 8, 1)] {
        let tape = [&[0x10, 0, 0, 0, 1, flags, 0], &pat[..], &asked[..]].concat();
        let expected = format!("gate 7\ngate 1 1 1 0 0 0\ngate {watched}\ngate pats ev=0 rows={rows}\n");
        assert_eq!(lines(&tape, Port::on_bytes(0xFF)), expected, "flags {flags:02X}");
    }
}

#[test]
fn a_counter_differs() {
    let mut port = Port::begin();
    port.gates.plain.state.suppressed = 1;
    assert_eq!(lines(b"\x13\x00\x00", port), "differs 0\n");
}

#[test]
fn a_row_differs_at_the_end() {
    let mut port = Port::begin();
    port.gates.plain.keys[9] = 1;
    assert_eq!(lines(b"\x13\x00\x00", port), "gate 8\ndiffers 3\n");
}

#[test]
fn a_row_differs_at_an_opening() {
    let mut port = Port::begin();
    port.gates.plain.changes[9] = 1;
    assert_eq!(lines(b"\x22\x10\0\0\0\x01\x06\0\x22", port), "sets 10\ndiffers 1\ndiffers 1\n");
}

#[test]
fn the_end_of_a_tape() {
    assert_eq!(lines(b"", Port::begin()), "");
    assert_eq!(lines(b"\x22\x21\x00", Port::begin()), "sets 10\ncut\n");
    assert_eq!(lines(b"\x22\x26\x22", Port::begin()), "sets 10\nbad 1\n");
}

const TAPES: [(&[u8], &str); 2] = [
    (include_bytes!("../../tapes/domain.tape"), include_str!("../../tapes/domain.txt")),
    (include_bytes!("../../tapes/damaged.tape"), include_str!("../../tapes/damaged.txt")),
];

#[test]
fn every_input_is_as_input_0() {
    for (tape, expected) in TAPES {
        assert!(lines(&[b"\x50\x03", tape].concat(), Port::begin()) == format!("input 3\n{expected}"));
    }
}

/// On input 16 every offer and push that was not 10, 11, 41 or 12 answers 37, sections in packets likewise or `unwatched`, and every count stays.
#[test]
fn there_is_no_input_16() {
    for (tape, on_input_0) in TAPES {
        let printed = lines(&[b"\x50\x10", tape].concat(), Port::begin());
        assert_eq!(printed.lines().count(), 1 + on_input_0.lines().count());
        for (line, before) in printed.lines().skip(1).zip(on_input_0.lines()) {
            let words: Vec<&str> = line.split(' ').collect();
            match words[..] {
                ["gate", "37"] => assert!(!matches!(before, "gate 10" | "gate 11" | "gate 12")),
                ["gate", "unwatched" | "undeliverable" | "watched", ..] => {}
                ["gate", "counters", ..] => assert_eq!(line, "gate counters 0 0 0 0 0 0 0"),
                ["gate", "7" | "8" | "9" | "12" | "13"] => {}
                ["sets", number, "ev=0", "rows=0"] => assert!(matches!(number, "10" | "12" | "37" | "41"), "{line}"),
                ["eit", number, "ev=0/0", "rows=0/0"] => assert!(matches!(number, "7" | "10" | "12" | "37" | "41"), "{line}"),
                ["sets" | "eit", "7" | "10" | "13" | "41"] => {}
                _ => panic!("{line}"),
            }
        }
    }
}

#[test]
fn what_memory_held_does_not_matter() {
    let pats: (&[u8], &str) = (include_bytes!("../../tapes/pats.tape"), include_str!("../../tapes/pats.txt"));
    let packets: (&[u8], &str) = (include_bytes!("../../tapes/packets.tape"), include_str!("../../tapes/packets.txt"));
    let events: (&[u8], &str) = (include_bytes!("../../tapes/events.tape"), include_str!("../../tapes/events.txt"));
    let guides: (&[u8], &str) = (include_bytes!("../../tapes/guides.tape"), include_str!("../../tapes/guides.txt"));
    for (tape, expected) in [TAPES[1], pats, packets, events, guides] {
        assert!(lines(tape, Port::on_bytes(0xA5)) == expected);
        assert!(lines(tape, Port::on_bytes(0xFF)) == expected);
    }
}

/// Open, streams of one buffer, a packet of PID 0x14 in which the first half of a section is.
fn half() -> Vec<u8> {
    let mut tape = b"\x40\0\0\0\x08\x06\0\x41\0\x01\x42\0\xBC".to_vec();
    let packet = [&b"\x47\x40\x14\x10\0\x72\x71\0"[..], &[0; 180]].concat();
    tape.extend(packet);
    tape
}

#[test]
fn what_the_packet_layer_holds_differs() {
    let told = "demux 7\ndemux 7\ndemux 29 0 1 0 0 0 0 0 0 0 0\n";
    assert_eq!(lines(&half(), Port::begin()), told);
    let mut port = Port::begin();
    port.demux().plain.places[7] ^= 1;
    assert_eq!(lines(&half(), port), "demux 7\ndemux 7\ndiffers 10\n");
    let mut port = Port::begin();
    port.demux().gates.plain.keys[4000] = 1;
    assert_eq!(lines(&half(), port), "differs 0\ndiffers 0\n");
    let mut port = Port::begin();
    port.demux().indexed.streams[9].buffers[0] = 1;
    assert_eq!(lines(&half(), port), format!("{told}differs 201\n"));
}
