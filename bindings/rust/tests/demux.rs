//! Packets of a card through the safe type.
use petrizolu::{Answer, Demux, Offered, PACKET_BYTES, Refused, crc};

/// A time and date section.
const TDT: &[u8] = b"\x70\x70\x05\xC0\x79\x12\x45\x00";

/// A packet in which sections start, behind the rest of one.
fn starts(pid: u16, counter: u8, rest: &[u8], sections: &[&[u8]]) -> Vec<u8> {
    let [high, low] = pid.to_be_bytes();
    let mut packet = [&[0x47, 0x40 | high, low, 0x10 | counter, rest.len() as u8], rest, &sections.concat()].concat();
    assert!(packet.len() <= PACKET_BYTES);
    packet.resize(PACKET_BYTES, 0xFF);
    packet
}

fn sealed(bytes: &[u8]) -> Vec<u8> {
    [bytes, &crc(bytes).to_be_bytes()].concat()
}

/// What a packet finished, with bytes of their own.
fn fed(demux: &mut Demux, input: u8, packet: &[u8]) -> Result<Vec<(Offered, Vec<u8>)>, Refused> {
    demux.feed(input, packet).map(|fed| fed.map(|(offered, bytes)| (offered, bytes.to_vec())).collect())
}

#[test]
fn sections_in_one_packet_and_over_two() {
    let mut demux = Demux::open(1, 64, 2, &[]).expect("it opens");
    let long = sealed(&[&[0x42, 0xB0, 0xD5, 0x00, 0x01, 0xC1, 0x00, 0x00][..], &[0x55; 204]].concat());
    let broken = [&long[..long.len() - 1], &[!long[long.len() - 1]]].concat();
    let mismatch = Offered::Mismatch {
        stored: u32::from_be_bytes(broken[broken.len() - 4..].try_into().unwrap()),
        worked: crc(&long[..long.len() - 4]),
    };
    assert_eq!(demux.feed(0, &starts(0x14, 0, &[], &[TDT, TDT, b"\x73\x70\x00"])).expect("it is taken").len(), 3);
    let again = fed(&mut demux, 0, &starts(0x14, 1, &[], &[TDT, b"\x73\x70\x00"]));
    assert_eq!(again, Ok(vec![(Offered::Suppressed, TDT.to_vec()), (Offered::TooShort(3), b"\x73\x70\x00".to_vec())]));
    assert_eq!(fed(&mut demux, 0, &starts(0x11, 0, &[], &[&long[..183]])), Ok(vec![]));
    let both = fed(&mut demux, 0, &starts(0x11, 1, &long[183..], &[TDT]));
    assert_eq!(both, Ok(vec![(Offered::Emitted, long.clone()), (Offered::Emitted, TDT.to_vec())]));
    assert_eq!(fed(&mut demux, 0, &starts(0x11, 2, &[], &[&broken[..183]])), Ok(vec![]));
    assert_eq!(fed(&mut demux, 0, &starts(0x11, 3, &broken[183..], &[])), Ok(vec![(mismatch, broken)]));
    assert_eq!((demux.streams(0).packets, demux.streams(0).malformed, demux.state().completed, demux.state().crc_failures), (6, 0, 8, 3));
}

#[test]
fn a_pat_changes_the_watch() {
    let mut demux = Demux::open(2, 64, 4, &[0x0050]).expect("it opens");
    let pat = sealed(b"\x00\xB0\x0D\x00\x01\xC1\x00\x00\x00\x01\xE1\x00");
    assert!(demux.watches(0, 0x0050) && !demux.watches(0, 0x0100));
    assert_eq!(fed(&mut demux, 1, &starts(0, 0, &[], &[&pat])), Ok(vec![(Offered::Emitted, pat)]));
    assert!(demux.watches(1, 0x0100) && !demux.watches(0, 0x0100));
    assert_eq!(fed(&mut demux, 0, &starts(0x0100, 0, &[], &[TDT])), Ok(vec![]));
    assert_eq!(fed(&mut demux, 1, &starts(0x0100, 0, &[], &[TDT])), Ok(vec![(Offered::Emitted, TDT.to_vec())]));
}

#[test]
fn refusals() {
    let mut demux = Demux::open(1, 64, 1, &[]).expect("it opens");
    let good = starts(0x14, 0, &[], &[TDT]);
    assert_eq!(fed(&mut demux, 0, &good[..187]), Err(Refused(Answer::MALFORMED_PACKET)));
    assert_eq!(fed(&mut demux, 0, &good).map(|all| all.len()), Ok(1));
    assert_eq!(fed(&mut demux, 0, &starts(0x11, 0, &[], &[TDT])), Err(Refused(Answer::NO_BUFFER)));
    assert_eq!(fed(&mut demux, 1, &good), Err(Refused(Answer::NOT_WHOLE)));
    assert_eq!(fed(&mut demux, 16, &good), Err(Refused(Answer::BAD_INPUT)));
    assert_eq!((demux.streams(0).packets, demux.streams(0).malformed), (3, 1));
    assert_eq!(Demux::open(1, 64, 0, &[]).err(), Some(Refused(Answer::TOO_LITTLE)));
    assert_eq!(Demux::open(1, 64, 8193, &[]).err(), Some(Refused(Answer::TOO_LITTLE)));
}
