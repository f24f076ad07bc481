//! Two tables of two sections take turns at a set collector of one key: what the gate suppresses has to reach the collector too.
use petrizolu::{Gate, Offered, Sets, crc};

/// A section of a table of two sections.
fn section(extension: u8, number: u8) -> Vec<u8> {
    let mut bytes = vec![0x42, 0xB0, 0x0A, 0x00, extension, 0xC1, number, 1, extension];
    bytes.extend(crc(&bytes).to_be_bytes());
    bytes
}

/// How many sets come out of the rounds where the collector gets what the gate answers so.
fn complete_sets(rounds: &[[(u8, u8); 4]], goes_on: impl Fn(Offered) -> bool) -> usize {
    let mut gate = Gate::open(16, &[]).expect("the gate opens");
    let mut sets = Sets::open(1, 64, 4).expect("the collector opens");
    let mut complete = 0;
    for &(extension, number) in rounds.iter().flatten() {
        let bytes = section(extension, number);
        if goes_on(gate.offer(0, 0x11, &bytes).expect("the gate judges")) {
            complete += usize::from(sets.push(0, Some(0x11), &bytes).expect("the collector takes it").is_some());
        }
    }
    complete
}

#[test]
fn repeats_complete_what_was_evicted() {
    let rounds = [[(1, 0), (2, 0), (1, 1), (2, 1)], [(1, 0), (1, 1), (2, 0), (2, 1)]];
    assert_eq!(complete_sets(&rounds, |answer| matches!(answer, Offered::Emitted | Offered::Suppressed)), 2);
    assert_eq!(complete_sets(&rounds, |answer| answer == Offered::Emitted), 0);
}
