//! original_ts [eight]: the original behind a pipe, as the program `watch_ts` has the port: reads a transport stream from standard input, up to 64 KiB of what is there at a time, gives its
//! packets to the original's `feed` with the default settings and prints a line for each section that comes out, and totals; the lines of a block are written out together, before the next is
//! read. Where a packet does not begin with the sync byte, bytes are passed over to a place where it stands and stands again a packet further. With `eight` the original's CRC goes by eight tables.
use broadcast_common::crc32_mpeg2::EIGHT_TABLES;
use dvb_si::demux::SiDemux;
use std::io::{self, Read, Write};
use std::sync::atomic::Ordering;

const PACKET_BYTES: usize = 188;
const BLOCK_BYTES: usize = 1 << 16;
const SYNC_BYTE: u8 = 0x47;

/// The first place behind a packet that is none where one may begin; where the input goes on, the byte a packet further must be there. Else how far the bytes are judged.
fn next_packet(bytes: &[u8], last: bool) -> (usize, bool) {
    let judged = if last { bytes.len() } else { bytes.len().saturating_sub(PACKET_BYTES) };
    let may_begin = |&at: &usize| bytes[at] == SYNC_BYTE && bytes.get(at + PACKET_BYTES).is_none_or(|&byte| byte == SYNC_BYTE);
    (1..judged).find(may_begin).map_or((judged.max(1).min(bytes.len()), false), |at| (at, true))
}

fn main() -> io::Result<()> {
    EIGHT_TABLES.store(std::env::args().any(|word| word == "eight"), Ordering::Relaxed);
    let mut demux = SiDemux::builder().build();
    let (mut input, mut output) = (io::stdin().lock(), io::stdout().lock());
    let mut bytes = Vec::with_capacity(2 * BLOCK_BYTES);
    let mut lines = Vec::new();
    let mut passing = false;
    loop {
        let kept = bytes.len();
        bytes.resize(kept + BLOCK_BYTES, 0);
        let read = input.read(&mut bytes[kept..])?;
        bytes.truncate(kept + read);
        let last = read == 0;
        let mut at = 0;
        while at + PACKET_BYTES <= bytes.len() || (passing && last && at < bytes.len()) {
            if passing {
                let (further, found) = next_packet(&bytes[at..], last);
                at += further;
                passing = !found && !last;
                if !found {
                    break;
                }
                continue;
            }
            let packet = &bytes[at..at + PACKET_BYTES];
            for event in demux.feed(packet) {
                writeln!(lines, "emitted {:04X} {:02X} {}", event.pid().value(), event.table_id(), event.bytes().len())?;
            }
            if packet[0] == SYNC_BYTE {
                at += PACKET_BYTES;
            } else {
                passing = true;
            }
        }
        bytes.drain(..at);
        if last {
            break;
        }
        output.write_all(&lines)?;
        lines.clear();
    }
    if !bytes.is_empty() {
        lines.extend_from_slice(b"cut\n");
    }
    let stats = demux.stats();
    write!(lines, "packets {} malformed {} completed {}", stats.packets, stats.malformed_packets, stats.sections_completed)?;
    write!(lines, " emitted {} suppressed {} crc {}", stats.emitted, stats.suppressed, stats.crc_failures)?;
    writeln!(lines, " evicted {}", stats.gate_evictions)?;
    output.write_all(&lines)
}
