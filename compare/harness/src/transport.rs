//! The programs `watch_ts` and `sections`, over the second implementation: a transport stream in, lines or records out.
use crate::make::{Head, long, mend, short};
use crate::second::StreamWatcher;
use crate::stream::{field_only, packet};
use crate::watch;
use player::answer::{Answer, Fed, Finished, hex};
use std::fmt::Write as _;

const PACKET_BYTES: usize = 188;
const SYNC_BYTE: u8 = 0x47;

/// What the two write on an input.
#[derive(Default)]
pub struct Output {
    /// `watch_ts`: a line for each section, packet that is none, and so on.
    pub lines: String,
    /// `sections`: for each section finished its PID in two bytes, high first, and its bytes.
    pub records: Vec<u8>,
}

pub fn output(input: &[u8]) -> Output {
    let mut output = Output::default();
    let mut watcher = StreamWatcher::open();
    let mut at = 0;
    while let Some(packet) = input.get(at..at + PACKET_BYTES) {
        match watcher.feed(packet) {
            Answer::Fed(fed) => output.tell(at, packet, &fed),
            other => panic!("{other} does not come from an opened store"),
        }
        if packet[0] == SYNC_BYTE {
            at += PACKET_BYTES;
        } else {
            let next = (at + 1..input.len()).find(|&place| may_begin(input, place)).unwrap_or(input.len());
            let _ = writeln!(output.lines, "skipped {}", next - at);
            at = next;
        }
    }
    if at < input.len() {
        output.lines.push_str("cut\n");
    }
    let ([packets, malformed], [completed, emitted, suppressed, crc, _, _, evicted]) = watcher.counts();
    let _ = write!(output.lines, "packets {packets} malformed {malformed} completed {completed} emitted {emitted}");
    let _ = writeln!(output.lines, " suppressed {suppressed} crc {crc} evicted {evicted}");
    output
}

/// Records as text: a line for each, its PID and its section in hexadecimal. A record that is cut ends it.
pub fn listed(mut records: &[u8]) -> String {
    let mut text = String::new();
    while let Some((pid, section)) = watch::record(records) {
        let _ = writeln!(text, "{pid:04X} {}", hex(section));
        records = &records[2 + section.len()..];
    }
    text
}

/// A packet may begin here: the sync byte stands here and a packet further, or the input ends before that.
fn may_begin(input: &[u8], place: usize) -> bool {
    input[place] == SYNC_BYTE && input.get(place + PACKET_BYTES).is_none_or(|&byte| byte == SYNC_BYTE)
}

impl Output {
    fn tell(&mut self, at: usize, packet: &[u8], fed: &Fed) {
        let pid = u16::from_be_bytes([packet[1] & 0x1F, packet[2]]);
        let _ = match fed.number {
            30 => writeln!(self.lines, "malformed {at}"),
            43 => writeln!(self.lines, "nobuffer {pid:04X}"),
            _ => Ok(()),
        };
        for Finished { judgement, bytes, .. } in &fed.sections {
            let _ = writeln!(self.lines, "{} {pid:04X} {:02X} {}", judgement.word(), bytes[0], bytes.len());
            self.records.extend(pid.to_be_bytes());
            self.records.extend(bytes);
        }
    }
}

/// The stored input of both: each kind of packet and each kind of line but `nobuffer`, which 256 buffers leave no room for in so short a stream.
pub fn example() -> Vec<u8> {
    let pat = |number, program: u16, pid: u16| {
        let head = Head { table_id: 0x00, extension: 1, version: 0, current_next: true, number, last: 1 };
        long(head, &[program.to_be_bytes(), (0xE000 | pid).to_be_bytes()].concat())
    };
    let pmt = |version, count: u8| {
        let head = Head { table_id: 0x02, extension: 1, version, current_next: true, number: 0, last: 0 };
        let descriptors: Vec<u8> = (0..count).collect();
        long(head, &[&[0xE1, 0x01, 0xF0, count], &descriptors[..]].concat())
    };
    let sdt = |version, count: u8| {
        let head = Head { table_id: 0x42, extension: 1, version, current_next: true, number: 0, last: 0 };
        long(head, &[vec![0x00, 0x01, 0xFF], vec![0x55; count.into()]].concat())
    };
    let tdt = |second: u8| short(0x70, &[0xC0, 0x79, 0x12, 0x45, second]);
    let tot = || {
        let mut section = short(0x73, &[0xC0, 0x79, 0x12, 0x45, 0x00, 0x00, 0x00, 0, 0, 0, 0]);
        mend(&mut section);
        section
    };
    let (long_pmt, next_pmt, long_sdt) = (pmt(0, 240), pmt(1, 20), sdt(0, 220));
    let mut broken_tot = tot();
    broken_tot[7] ^= 0x01;
    let mut past_end = starts(0x0014, 9, &[&tdt(9)]);
    (past_end[3], past_end[4]) = (0x39, 0xFF);
    let mut marked = starts(0x0014, 4, &[&tdt(8)]);
    marked[1] |= 0x80;

    // A PAT of two sections: before the second its PIDs are not watched.
    let mut stream =
        vec![starts(0x0000, 0, &[&pat(0, 1, 0x0100)]), starts(0x0100, 6, &[&next_pmt]), starts(0x0000, 1, &[&pat(1, 2, 0x0200)])];
    // A section over two packets, and another behind it in the second: two in one.
    stream.push(starts(0x0100, 7, &[&long_pmt[..183]]));
    stream.push(field_only(0x0100, 7));
    stream.push(goes_on_and_starts(0x0100, 8, &long_pmt[183..], &next_pmt));
    // A packet and its copy; then the same section once more.
    stream.push(starts(0x0014, 0, &[&tdt(0)]));
    stream.push(starts(0x0014, 0, &[&tdt(0)]));
    stream.push(starts(0x0014, 1, &[&tdt(0), &tdt(1)]));
    // One packet is lost between these: the section under way is dropped, the next start is read.
    stream.push(starts(0x0011, 0, &[&long_sdt[..183]]));
    stream.push(goes_on_and_starts(0x0011, 2, &long_sdt[183..], &sdt(1, 4)));
    // Both failures.
    stream.push(starts(0x0014, 2, &[&tot(), &broken_tot, &short(0x73, &[])]));
    // Malformed, marked as damaged, a PID that is not watched, a null packet.
    stream.push(past_end);
    stream.push(marked);
    stream.push(packet(0x0101, true, None, 3, Some(&[0xA5; 184])));
    stream.push(packet(0x1FFF, false, None, 0, Some(&[0xFF; 184])));
    stream.push(starts(0x0200, 0, &[&tdt(2)]));
    let mut bytes = stream.concat();
    // Bytes that are no packet, a sync byte among them.
    bytes.extend([&[0x00; 40][..], &[SYNC_BYTE], &[0x33; 59]].concat());
    bytes.extend(starts(0x0200, 1, &[&tdt(2)]));
    bytes.extend(starts(0x0000, 2, &[&pat(0, 1, 0x0100)]));
    bytes.extend(&starts(0x0014, 3, &[&tdt(3)])[..50]);
    bytes
}

/// A packet in which sections start, one behind another; stuffing fills it.
fn starts(pid: u16, counter: u8, sections: &[&[u8]]) -> Vec<u8> {
    let mut payload = [&[0], &sections.concat()[..]].concat();
    payload.resize(184, 0xFF);
    packet(pid, true, None, counter, Some(&payload))
}

/// A packet with the rest of a section and the next.
fn goes_on_and_starts(pid: u16, counter: u8, rest: &[u8], section: &[u8]) -> Vec<u8> {
    let mut payload = [&[rest.len() as u8], rest, section].concat();
    payload.resize(184, 0xFF);
    packet(pid, true, None, counter, Some(&payload))
}
