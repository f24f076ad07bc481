//! A PAT in two sections: by default both halves' programmes are watched; where each changed section is followed, as by dvb-si 12.0.1, those of the second alone.
use petrizolu::{DEFAULT_SETTINGS, FOLLOW_SECTIONS, Gate, Offered, SmallGate, WELL_KNOWN, crc};

/// A section of the PAT of a transport stream, with one program, whose PID is 0x0100 and its number.
fn pat(stream: u8, version: u8, number: u8, last: u8) -> Vec<u8> {
    let mut bytes = vec![0x00, 0xB0, 0x0D, 0x00, stream, 0xC1 | version << 1, number, last, 0x00, number + 1, 0xE1, number];
    bytes.extend(crc(&bytes).to_be_bytes());
    bytes
}

const FIRST: u16 = 0x0100;
const SECOND: u16 = 0x0101;

/// What both forms of the gate make of sections on PID 0 of an input: whether the first and the second program's PID are watched after each.
fn watched(settings: u32, input: u8, sections: &[Vec<u8>]) -> Vec<(bool, bool)> {
    let mut gate = Gate::open_with(settings, 64, &[]).expect("the gate opens");
    let mut small = SmallGate::open_with(settings, 64, &[]).expect("the gate opens");
    let each = sections.iter().map(|section| {
        let answers = (gate.offer(input, 0, section), small.offer(input, 0, section));
        assert!(answers.0.is_ok() && answers.0 == answers.1);
        let seen = |pid| (gate.watches(input, pid), small.watches(input, pid));
        assert_eq!(seen(FIRST).0, seen(FIRST).1);
        assert_eq!(seen(SECOND).0, seen(SECOND).1);
        (seen(FIRST).0, seen(SECOND).0)
    });
    each.collect()
}

#[test]
fn two_sections_in_either_order() {
    let (one, other) = (pat(1, 0, 0, 1), pat(1, 0, 1, 1));
    for sections in [[one.clone(), other.clone(), one.clone()], [other.clone(), one.clone(), other.clone()]] {
        assert_eq!(watched(DEFAULT_SETTINGS, 0, &sections), [(false, false), (true, true), (true, true)]);
        assert_eq!(watched(DEFAULT_SETTINGS, 15, &sections), [(false, false), (true, true), (true, true)]);
    }
    let sections = [one.clone(), other, one];
    assert_eq!(watched(DEFAULT_SETTINGS | FOLLOW_SECTIONS, 0, &sections), [(true, false), (false, true), (false, true)]);
    assert_eq!(watched(WELL_KNOWN, 0, &sections), [(false, false); 3]);
    assert_eq!(watched(WELL_KNOWN | FOLLOW_SECTIONS, 0, &sections), [(false, false); 3]);
}

#[test]
fn a_half_renewed_version_changes_nothing() {
    let sections = [pat(1, 0, 0, 1), pat(1, 0, 1, 1), pat(1, 1, 0, 1), pat(1, 2, 0, 0)];
    assert_eq!(watched(DEFAULT_SETTINGS, 0, &sections), [(false, false), (true, true), (true, true), (true, false)]);
}

#[test]
fn another_stream_and_back() {
    let mut gate = Gate::open(64, &[]).expect("the gate opens");
    let mut offer = |stream| gate.offer(3, 0, &pat(stream, 0, 0, 0));
    assert_eq!([offer(1), offer(2), offer(1)], [Ok(Offered::Emitted), Ok(Offered::Emitted), Ok(Offered::Suppressed)]);
    assert_eq!((gate.pat_evictions(3), gate.pat_evictions(2), gate.pat_evictions(16), gate.state().evictions), (2, 0, 0, 0));
    let mut old = SmallGate::open_with(DEFAULT_SETTINGS | FOLLOW_SECTIONS, 64, &[]).expect("the gate opens");
    assert_eq!(old.offer(3, 0, &pat(1, 0, 0, 0)), Ok(Offered::Emitted));
    assert_eq!((old.state().follow, old.pat_evictions(3)), (2, 0));
}

#[test]
fn each_input_as_if_alone() {
    let mut gate = Gate::open(64, &[]).expect("the gate opens");
    let feed = [(0, pat(1, 0, 0, 1)), (1, pat(1, 0, 0, 1)), (0, pat(1, 0, 1, 1)), (0, pat(1, 1, 0, 1)), (1, pat(1, 0, 1, 1))];
    let both = |gate: &Gate, input| gate.watches(input, FIRST) && gate.watches(input, SECOND);
    let seen: Vec<(bool, bool)> = feed
        .iter()
        .map(|(input, section)| {
            assert_eq!(gate.offer(*input, 0, section), Ok(Offered::Emitted));
            (both(&gate, 0), both(&gate, 1))
        })
        .collect();
    assert_eq!(seen, [(false, false), (false, false), (true, false), (true, false), (true, true)]);
}
