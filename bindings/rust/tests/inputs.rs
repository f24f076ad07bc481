//! A card of several inputs: one gate and two collectors, a watch for each input.
use petrizolu::{Answer, Complete, Eit, Filter, Gate, Offered, Refused, Sets, SmallGate, crc};

/// A PAT that names PID 0x0100.
const PAT: &[u8] = b"\x00\xB0\x0D\x00\x01\xC1\x00\x00\x00\x01\xE1\x00\xE8\xF9\x5E\x7D";
/// A time and date section.
const TDT: &[u8] = b"\x70\x70\x05\xC0\x79\x12\x45\x00";
/// There is no such input.
const NO_INPUT: u8 = 16;

#[test]
fn a_watch_for_each_input() {
    let mut gate = Gate::open(8, &[0x0050]).expect("the gate opens");
    let mut small = SmallGate::open(8, &[0x0050]).expect("the gate opens");
    assert!((0..NO_INPUT).all(|input| gate.watches(input, 0x0050) && small.watches(input, 0x0050)));
    assert_eq!((gate.offer(3, 0, PAT), small.offer(3, 0, PAT)), (Ok(Offered::Emitted), Ok(Offered::Emitted)));
    for input in 0..=NO_INPUT {
        assert_eq!((gate.watches(input, 0x0100), small.watches(input, 0x0100)), (input == 3, input == 3), "input {input}");
    }
}

#[test]
fn no_section_is_taken_for_one_of_another_input() {
    let mut gate = Gate::open(16, &[]).expect("the gate opens");
    assert!((0..NO_INPUT).all(|input| gate.offer(input, 0x0014, TDT) == Ok(Offered::Emitted)));
    assert!((0..NO_INPUT).all(|input| gate.offer(input, 0x0014, TDT) == Ok(Offered::Suppressed)));
    let before = gate.state();
    assert_eq!(gate.offer(NO_INPUT, 0x0014, TDT), Err(Refused(Answer::BAD_INPUT)));
    assert_eq!(gate.offer(u8::MAX, 8192, TDT), Err(Refused(Answer::BAD_PID)));
    assert_eq!(gate.state(), before);
}

#[test]
fn a_neighbour_evicts() {
    let mut gate = SmallGate::open(1, &[]).expect("the gate opens");
    assert!([0, 1, 0].into_iter().all(|input| gate.offer(input, 0x0014, TDT) == Ok(Offered::Emitted)));
    assert_eq!(gate.state().evictions, 2);
    let mut sets = Sets::open(1, 64, 4).expect("the collector opens");
    let set = sealed(&[0x42, 0xB0, 0x09, 0x00, 0x01, 0xC1, 0x00, 0x00]);
    for input in [0, 1, 0] {
        let row = sets.push(input, Some(0x0011), &set).expect("the collector takes it").expect("a set of one section");
        assert_eq!(sets.name(&row).input, input);
    }
    assert_eq!(sets.state().evictions, 2);
}

#[test]
fn a_drop_of_one_input() {
    let mut eit = Eit::open(4, 64, 8).expect("the collector opens");
    let event = sealed(&[0x4E, 0xB0, 0x0F, 0x00, 0x01, 0xC1, 0x00, 0x00, 0x00, 0x01, 0x00, 0x01, 0x00, 0x4E]);
    for input in [0, 7] {
        assert!(matches!(eit.push(input, Some(0x0012), &event), Ok(Some(Complete::Set(_)))));
    }
    assert_eq!(eit.drop_matching(&Filter::ALL.input(NO_INPUT)), Err(Refused(Answer::BAD_INPUT)));
    assert_eq!(eit.drop_matching(&Filter::ALL.input(7)), Ok(()));
    assert_eq!(eit.state().used, 1);
    assert!(matches!(eit.push(0, Some(0x0012), &event), Ok(None)));
}

fn sealed(bytes: &[u8]) -> Vec<u8> {
    [bytes, &crc(bytes).to_be_bytes()].concat()
}
