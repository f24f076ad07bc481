//! Packets and the sections in them, a whole reader from ISO/IEC 13818-1, 2.4.3 and 2.4.4: adaptation field, pointer_field, several sections in a packet, sections
//! over several packets. `feed` of the original hands over a payload and whether it starts a section, and nothing else, so counters are not looked at here.
use crate::{Error, pid::Pid};
use bytes::Bytes;
use std::collections::VecDeque;

const SYNC_BYTE: u8 = 0x47;
const PACKET_BYTES: usize = 188;
/// The first byte behind a header without an adaptation field; one has its length there.
const HEADER_BYTES: usize = 4;
/// A table_id that is none: stuffing to the end of the payload.
const STUFFING: u8 = 0xFF;

pub struct TsHeader {
    pub pid: Pid,
    pub pusi: bool,
}

pub struct TsPacket<'a> {
    pub header: TsHeader,
    pub payload: Option<&'a [u8]>,
}

impl<'a> TsPacket<'a> {
    pub fn parse(packet: &'a [u8]) -> Result<TsPacket<'a>, Error> {
        let short = |need| Error::BufferTooShort { need, have: packet.len(), what: "packet" };
        if packet.len() != PACKET_BYTES {
            return Err(short(PACKET_BYTES));
        }
        let &[sync, high, low, flags, field_length, ..] = packet else { return Err(short(PACKET_BYTES)) };
        if sync != SYNC_BYTE {
            return Err(Error::InvalidSyncByte { found: sync });
        }
        let (has_field, has_payload) = (flags & 0x20 != 0, flags & 0x10 != 0);
        let from = if has_field { HEADER_BYTES + 1 + usize::from(field_length) } else { HEADER_BYTES };
        let payload = packet.get(from..).ok_or(short(from))?;
        let pid = Pid::new(u16::from_be_bytes([high & 0x1F, low]));
        Ok(TsPacket { header: TsHeader { pid, pusi: high & 0x40 != 0 }, payload: has_payload.then_some(payload) })
    }
}

/// Gathers the sections of a PID from its payloads.
#[derive(Default)]
pub struct SectionReassembler {
    /// The section under way; empty where there is none.
    gathered: Vec<u8>,
    done: VecDeque<Bytes>,
}

impl SectionReassembler {
    pub fn feed(&mut self, payload: &[u8], starts: bool) {
        if !starts {
            self.go_on(payload);
            return;
        }
        let pointed = payload.split_first().and_then(|(&pointer, rest)| rest.split_at_checked(pointer.into()));
        if let Some((end, sections)) = pointed {
            self.go_on(end);
            self.gathered.clear();
            self.begin(sections);
        } else {
            self.gathered.clear();
        }
    }

    pub fn pop_section(&mut self) -> Option<Bytes> {
        self.done.pop_front()
    }

    /// More of the section under way; what stands behind its end is passed over.
    fn go_on(&mut self, mut more: &[u8]) {
        if self.gathered.is_empty() {
            return;
        }
        // The header may be cut too.
        let lacking = 3usize.saturating_sub(self.gathered.len()).min(more.len());
        self.gathered.extend_from_slice(&more[..lacking]);
        more = &more[lacking..];
        let Some(total) = section_bytes(&self.gathered) else { return };
        let lacking = (total - self.gathered.len()).min(more.len());
        self.gathered.extend_from_slice(&more[..lacking]);
        if self.gathered.len() == total {
            self.done.push_back(Bytes::from(&self.gathered[..]));
            self.gathered.clear();
        }
    }

    /// Sections one behind another, up to stuffing or the end; the last may be cut.
    fn begin(&mut self, mut rest: &[u8]) {
        while rest.first().is_some_and(|&table_id| table_id != STUFFING) {
            match section_bytes(rest).and_then(|total| rest.split_at_checked(total)) {
                Some((section, behind)) => {
                    self.done.push_back(Bytes::from(section));
                    rest = behind;
                }
                None => {
                    self.gathered.extend_from_slice(rest);
                    return;
                }
            }
        }
    }
}

/// How many bytes a section has, by its section_length; none where its header is cut.
fn section_bytes(section: &[u8]) -> Option<usize> {
    let &[_, high, low, ..] = section else { return None };
    Some(3 + usize::from(u16::from_be_bytes([high & 0x0F, low])))
}
