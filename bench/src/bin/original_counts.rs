//! original_counts CAPACITY LIMIT [eight]: the original behind a pipe, as the program `counts` has the port: reads a transport stream from standard input, up to 64 KiB of what is there at a time, gives
//! its packets to the original's `feed`, the sections that come out to its two collectors, and prints the same columns: a line for each new second of the stream, and `end`. It has no cells and no
//! section buffers, one count of CRC failures (here as mismatch) and one refusal of each collector for a conflict. `feed` hands out suppressed sections only with repeats on, and then counts them as
//! emitted: what `counts` has from its gate, which of them are new, is kept here in a map by PID, table, extension and section number. With `eight` the original's CRC goes by eight tables.
use broadcast_common::crc32_mpeg2::EIGHT_TABLES;
use dvb_si::collect::{CompletedEit, EitCollector, SectionSetCollector};
use dvb_si::demux::{SectionEvent, SiDemux};
use std::collections::HashMap;
use std::io::{self, Read, Write};
use std::sync::atomic::Ordering;

const PACKET_BYTES: usize = 188;
const BLOCK_BYTES: usize = 1 << 16;

#[derive(Default)]
struct Counts {
    emitted: u64,
    suppressed: u64,
    sets: u64,
    set_conflicts: u64,
    present_following: u64,
    schedules: u64,
    eit_refused: u64,
}

struct Monitor {
    demux: SiDemux,
    sets: SectionSetCollector,
    eit: EitCollector,
    seen: HashMap<(u16, u8, u16, u8), (u8, u32)>,
    counts: Counts,
    last: Option<u64>,
}

/// Whether a section is another than the last of its key.
fn is_new(seen: &mut HashMap<(u16, u8, u16, u8), (u8, u32)>, event: &SectionEvent) -> bool {
    let bytes = event.bytes();
    let key = (event.pid().value(), event.table_id(), event.table_id_extension().unwrap_or(0), event.section_number().unwrap_or(0));
    let stored = bytes.last_chunk::<4>().map_or(0, |last| u32::from_be_bytes(*last));
    let change = if bytes[1] & 0x80 != 0 || bytes[0] == 0x73 { stored } else { broadcast_common::crc32_mpeg2::compute(bytes) };
    let now = (event.version().unwrap_or(0), change);
    seen.insert(key, now) != Some(now)
}

/// The second of a TDT or TOT, and its digits.
fn clock(bytes: &[u8]) -> Option<(u64, String)> {
    let &[0x70 | 0x73, _, _, high, low, hours, minutes, seconds, ..] = bytes else { return None };
    let digits = [hours, minutes, seconds].map(|byte| (u64::from(byte >> 4), u64::from(byte & 15)));
    if digits.iter().any(|&(a, b)| a > 9 || b > 9) {
        return None;
    }
    let [h, m, s] = digits.map(|(a, b)| a * 10 + b);
    let day = u64::from(u16::from_be_bytes([high, low]));
    // Days since 0000-03-01, by years that begin in March.
    let from_march = day + 678_881;
    let era = from_march / 146_097;
    let of_era = from_march % 146_097;
    let year = (of_era - of_era / 1460 + of_era / 36_524 - of_era / 146_096) / 365;
    let of_year = of_era - (365 * year + year / 4 - year / 100);
    let month = (5 * of_year + 2) / 153;
    let (date, month) = (of_year - (153 * month + 2) / 5 + 1, if month < 10 { month + 3 } else { month - 9 });
    let year = era * 400 + year + u64::from(month <= 2);
    Some((day * 86_400 + h * 3600 + m * 60 + s, format!("{year:04}-{month:02}-{date:02}T{hours:02X}:{minutes:02X}:{seconds:02X}")))
}

impl Monitor {
    fn take(&mut self, packet: &[u8], out: &mut impl Write) -> io::Result<()> {
        let mut times = Vec::new();
        for event in self.demux.feed(packet) {
            let new = is_new(&mut self.seen, &event);
            if new {
                self.counts.emitted += 1;
            } else {
                self.counts.suppressed += 1;
            }
            let (pid, bytes) = (event.pid(), event.bytes());
            if matches!(event.table_id(), 0x4E..=0x6F) {
                match self.eit.push_section_with_pid(Some(pid), &bytes[..]) {
                    Ok(Some(CompletedEit::PresentFollowing(_))) => self.counts.present_following += 1,
                    Ok(Some(CompletedEit::Schedule(_))) => self.counts.schedules += 1,
                    Ok(_) => {}
                    Err(_) => self.counts.eit_refused += 1,
                }
            } else {
                match self.sets.push_section_with_pid(Some(pid), &bytes[..]) {
                    Ok(Some(_)) => self.counts.sets += 1,
                    Ok(None) => {}
                    Err(_) => self.counts.set_conflicts += u64::from(bytes[1] & 0x80 != 0),
                }
            }
            if new && pid.value() == 0x14 {
                times.extend(clock(bytes));
            }
        }
        for (second, text) in times {
            if self.last.is_none_or(|last| second < last || second > last) {
                self.say(&text, out)?;
                self.last = Some(second);
            }
        }
        Ok(())
    }

    fn say(&self, first: &str, out: &mut impl Write) -> io::Result<()> {
        let (stats, c) = (self.demux.stats(), &self.counts);
        write!(
            out,
            "{first}\t{}\t{}\t0\t{}\t{}\t{}\t0\t{}",
            stats.packets, stats.malformed_packets, stats.sections_completed, c.emitted, c.suppressed, stats.crc_failures
        )?;
        write!(out, "\t{}\t{}\t{}\t0\t{}", stats.gate_evictions, c.sets, c.set_conflicts, self.sets.evicted_for_capacity())?;
        write!(out, "\t{}\t{}\t0\t0\t0\t{}", c.present_following, c.schedules, c.eit_refused)?;
        writeln!(out, "\t{}\t{}", self.eit.sections_evicted_for_capacity(), self.eit.schedules_evicted_for_capacity())?;
        out.flush()
    }
}

fn main() -> io::Result<()> {
    let words: Vec<String> = std::env::args().skip(1).collect();
    let number = |at: usize, default| words.get(at).and_then(|word| word.parse().ok()).unwrap_or(default);
    EIGHT_TABLES.store(words.iter().any(|word| word == "eight"), Ordering::Relaxed);
    let limit = number(1, 128);
    let mut monitor = Monitor {
        demux: SiDemux::builder().gate_capacity(number(0, 4096)).emit_repeats(true).build(),
        sets: SectionSetCollector::new().with_max_partial_keys(limit),
        eit: EitCollector::new().with_max_logical_keys(limit),
        seen: HashMap::new(),
        counts: Counts::default(),
        last: None,
    };
    let (mut input, mut output) = (io::stdin().lock(), io::stdout().lock());
    writeln!(
        output,
        "time\tpackets\tmalformed\tnobuffer\tcompleted\temitted\tsuppressed\tshort\tmismatch\tgate_evictions\tsets\tset_conflicts\tset_nocell\tset_evictions\tpresent_following\tschedules\teit_conflicts\teit_nocell\teit_range\teit_refused\teit_evictions\tschedule_evictions"
    )?;
    let mut bytes = Vec::with_capacity(2 * BLOCK_BYTES);
    loop {
        let kept = bytes.len();
        bytes.resize(kept + BLOCK_BYTES, 0);
        let read = input.read(&mut bytes[kept..])?;
        bytes.truncate(kept + read);
        let whole = bytes.len() / PACKET_BYTES * PACKET_BYTES;
        for packet in bytes[..whole].chunks(PACKET_BYTES) {
            monitor.take(packet, &mut output)?;
        }
        bytes.drain(..whole);
        if read == 0 {
            break;
        }
    }
    monitor.say("end", &mut output)
}
