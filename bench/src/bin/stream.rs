//! stream MEGABYTES: writes a transport stream of so many times 10^6 bytes to standard output, of which 3 packets in 100 carry sections: a PAT of 30 programmes, their PMTs, SDT, the EIT
//! present/following and a schedule of 150 services, the time. A carousel of them goes round; each turn one service's present/following has another version.

#[path = "../sections.rs"]
#[allow(dead_code)]
mod sections;
#[path = "../ts.rs"]
mod ts;

use sections::{eit, long};
use std::io::{self, BufWriter, Write};
use ts::{PACKET_BYTES, Packet, numbered, packed, packet};

const SERVICES: u16 = 150;
const PROGRAMMES: u16 = 30;

/// The packets of one turn, without numbers.
fn carousel(turn: u16) -> Vec<Packet> {
    let programmes: Vec<u8> = (0..PROGRAMMES).flat_map(|n| [(n + 1).to_be_bytes(), (0xE100 + n).to_be_bytes()]).flatten().collect();
    let mut packets = packed(0x00, &[long(0x00, 1, 0, 0, &programmes)]);
    for n in 0..PROGRAMMES {
        packets.extend(packed(0x100 + n, &[long(0x02, n + 1, 0, 0, &[0xE2, 0x00, 0xF0, 0x00, 0x02, 0xE2, 0x00, 0xF0, 0x00])]));
    }
    packets.extend(packed(0x11, &[0, 1].map(|number| long(0x42, 1, number, 1, &[&[0x00, 0x01, 0xFF], &[0x20; 800][..]].concat()))));
    let (day, hour) = (turn.to_be_bytes(), (turn % 24) as u8);
    packets.extend(packed(0x14, &[vec![0x70, 0x70, 0x05, 0xC0, day[1], hour / 10 << 4 | hour % 10, 0x45, 0x00]]));
    let mut guide: Vec<Vec<u8>> = (0..SERVICES).map(|service| eit(0x4E, service, 0x4E, 300 + usize::from(service))).collect();
    if let Some(section) = guide.get_mut(usize::from(turn % SERVICES)) {
        *section = eit(0x4E, turn % SERVICES, 0x4E, 500 + usize::from(turn % 100));
    }
    guide.extend((0..SERVICES).map(|service| eit(0x50, service, 0x50, 1500 + 10 * usize::from(service))));
    packets.extend(packed(0x12, &guide));
    packets
}

/// A packet of something else, or a null packet.
fn picture(n: u16) -> Packet {
    let mut noise = u64::from(n);
    let mut byte = || {
        noise = noise.wrapping_mul(6_364_136_223_846_793_005).wrapping_add(1_442_695_040_888_963_407);
        (noise >> 56) as u8
    };
    let bytes: [u8; 184] = std::array::from_fn(|_| byte());
    packet(if n % 16 == 15 { 0x1FFF } else { 0x200 + n % 16 }, n < 16, &bytes)
}

fn main() -> io::Result<()> {
    let megabytes: usize = std::env::args().nth(1).and_then(|word| word.parse().ok()).unwrap_or(1000);
    let mut left = megabytes * 1_000_000 / PACKET_BYTES;
    let mut out = BufWriter::with_capacity(1 << 20, io::stdout().lock());
    let mut counters = [0; 8192];
    let mut pictures: Vec<Packet> = (0..64).map(picture).collect();
    let mut turn = 0;
    let (mut tables, mut at) = (carousel(turn), 0);
    let mut place = 0;
    while left > 0 {
        // Places 0, 33 and 66 of each hundred.
        let one = if place % 100 % 33 == 0 && place % 100 < 99 {
            if at == tables.len() {
                turn += 1;
                (tables, at) = (carousel(turn), 0);
            }
            at += 1;
            &mut tables[at - 1..at]
        } else {
            let picture = place % 64;
            &mut pictures[picture..=picture]
        };
        numbered(one, &mut counters);
        out.write_all(&one[0])?;
        place += 1;
        left -= 1;
    }
    out.flush()
}
