//! Logs: a list of 100,000 sections of 200 bytes, of 200 keys and 16 sets, checked and written, beside the same offers and pushes alone.
use crate::sections::long;
use crate::{Side, best};
use petrizolu::{CHANGE_STORED_CRC, Judged, LogRun, LogSettings, Sets, SmallGate, listed_section};
use std::hint::black_box;

const SECTIONS: usize = 100_000;
const CAPACITY: usize = 512;
const LIMIT: usize = 16;
const CELLS: usize = 256;

/// Sixteen tables of twelve and thirteen sections, in a scattered order, each some hundred times.
fn sections() -> Vec<Vec<u8>> {
    let tables = (0..16u16).flat_map(|table| (0..12 + (table % 2) as u8).map(move |number| (table, number)));
    let keys: Vec<Vec<u8>> =
        tables.map(|(table, number)| long(0x42, table, number, 11 + (table % 2) as u8, &[(table * 7) as u8 ^ number; 188])).collect();
    assert_eq!(keys.len(), 200);
    (0..SECTIONS).map(|at| keys[at * 73 % keys.len()].clone()).collect()
}

pub fn logs(rounds: usize) {
    let all = sections();
    let list: Vec<u8> = all.iter().flat_map(|section| listed_section(0, 0x11, section).expect("200 bytes")).collect();
    let settings = LogSettings {
        capacity: CAPACITY as u64,
        repeats: 0,
        change_rule: CHANGE_STORED_CRC,
        limit: LIMIT as u64,
        size: 4096,
        count: CELLS as u64,
        pids: 0,
    };
    let log = LogRun::new(settings).write(&list).expect("a whole list");
    let [mut checks, mut writes] = [LogRun::new(settings), LogRun::new(settings)];
    let mut sides: [Side; 3] = [
        Box::new(|| {
            let mut gate = SmallGate::open_with(0, CAPACITY, &[]).expect("within range");
            let mut sets = Sets::open(LIMIT, 4096, CELLS).expect("within range");
            for section in &all {
                let _ = black_box(gate.offer(0, 0x11, black_box(section)));
                let _ = black_box(sets.push(0, Some(0x11), black_box(section)));
            }
        }),
        Box::new(|| assert_eq!(checks.check(black_box(&list), black_box(&log)), Ok(Judged::Equal))),
        Box::new(|| assert_eq!(writes.write(black_box(&list)).map(|log| log.len()), Ok(log.len()))),
    ];
    let [alone, checked, written] = <[f64; 3]>::try_from(best(SECTIONS, rounds, &mut sides)).expect("three sides");
    println!("\nA log of {SECTIONS} sections of 200 bytes, 200 keys, 16 sets, {} bytes: nanoseconds a section\n", log.len());
    println!("| offers and pushes alone | checked | | written (two runs) | |");
    println!("|---|---|---|---|---|");
    println!("| {alone:.0} | {checked:.0} | {:.2} | {written:.0} | {:.2} |", checked / alone, written / alone);
}
