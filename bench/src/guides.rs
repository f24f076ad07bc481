//! Two guides compared: sets of sections of 4,000 bytes, equal and with the last byte of the last section otherwise.
use crate::sections::long;
use crate::{Side, best};
use petrizolu::{Answer, Compared, DIFFERENCE_WORDS, MOST_DIFFERENCES, calls};
use std::hint::black_box;

/// Nanoseconds a comparison, and a byte of one side.
pub fn guides(rounds: usize) {
    println!("\nTwo sets compared\n");
    println!("| sections | bytes of a side | last byte | a comparison | a byte |");
    println!("|---|---|---|---|---|");
    for count in [1usize, 16, 256] {
        let last = (count - 1) as u8;
        let body: Vec<u8> = (0..4000 - 12).map(|i| (i * 7) as u8).collect();
        let first: Vec<u8> = (0..=last).flat_map(|number| long(0x42, 1, number, last, &body)).collect();
        let mut other = first.clone();
        *other.last_mut().expect("a section") ^= 1;
        for (name, second, answer) in [("equal", &first, Answer::NO), ("other", &other, Answer::YES)] {
            let mut list = vec![0; MOST_DIFFERENCES * DIFFERENCE_WORDS];
            let mut compared = Compared::default();
            let turns = 2_000_000 / first.len() + 1;
            // The second side stands in memory of its own.
            let second = second.clone();
            let mut side: [Side; 1] = [Box::new(|| {
                for _ in 0..turns {
                    let told = calls::compare(black_box(&first), 0x11, black_box(&second), 0x11, &mut list, &mut compared);
                    assert_eq!(black_box(told), answer);
                }
            })];
            let took = best(turns, 3 * rounds, &mut side)[0];
            drop(side);
            println!("| {count} | {} | {name} | {took:.0} | {:.3} |", first.len(), took / first.len() as f64);
        }
    }
}
