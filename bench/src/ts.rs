//! Packets of a transport stream (ISO/IEC 13818-1, 2.4.3 and 2.4.4).
#![allow(dead_code)]

pub const PACKET_BYTES: usize = 188;
pub type Packet = [u8; PACKET_BYTES];

/// A packet with a payload of 184 bytes.
pub fn packet(pid: u16, starts: bool, payload: &[u8]) -> Packet {
    let mut packet = [0xFF; PACKET_BYTES];
    let [high, low] = pid.to_be_bytes();
    packet[..4].copy_from_slice(&[0x47, high | u8::from(starts) << 6, low, 0x10]);
    packet[4..4 + payload.len()].copy_from_slice(payload);
    packet
}

/// An adaptation field alone.
pub fn field_only(pid: u16) -> Packet {
    let mut packet = packet(pid, false, &[183, 0]);
    packet[3] = 0x20;
    packet
}

/// Sections one behind another, from the first packet's begin to the last one's stuffing.
pub fn packed(pid: u16, sections: &[Vec<u8>]) -> Vec<Packet> {
    let mut packets = Vec::new();
    let mut left = sections.iter().map(Vec::as_slice);
    let mut rest: &[u8] = &[];
    let mut next = left.next();
    while !rest.is_empty() || next.is_some() {
        let starts = next.is_some() && rest.len() + 2 <= 184;
        let mut payload = if starts { vec![rest.len() as u8] } else { Vec::new() };
        let part = rest.len().min(184 - payload.len());
        payload.extend_from_slice(&rest[..part]);
        rest = &rest[part..];
        while starts && payload.len() < 184 {
            let Some(section) = next else { break };
            let part = section.len().min(184 - payload.len());
            payload.extend_from_slice(&section[..part]);
            rest = &section[part..];
            next = left.next();
        }
        packets.push(packet(pid, starts, &payload));
    }
    packets
}

/// Numbers the packets of each PID, from 0 on. Those without a payload have the number of the packet before them.
pub fn numbered(packets: &mut [Packet], counters: &mut [u8; 8192]) {
    for packet in packets {
        let counter = &mut counters[usize::from(u16::from_be_bytes([packet[1] & 0x1F, packet[2]]))];
        packet[3] = packet[3] & 0xF0 | (*counter + 15) % 16;
        if packet[3] & 0x10 != 0 {
            packet[3] = packet[3] & 0xF0 | *counter;
            *counter = (*counter + 1) % 16;
        }
    }
}
