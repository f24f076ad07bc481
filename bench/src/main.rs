//! bench [quick] [PART..]: nanoseconds a section, the port beside the original on the same sections in the same scattered order. Times are the thread's
//! processor time, the best of some rounds; the rounds of the port and of the original take turns, so that a busy machine slows both.
//! With the names of parts (`PARTS` below) only these are measured. The original has no entries, guides and logs.

mod guides;
mod logs;
mod packets;
mod sections;
mod ts;

use broadcast_common::crc32_mpeg2::{EIGHT_TABLES, compute};
use bytes::Bytes;
use dvb_si::collect::{EitCollector, SectionSetCollector};
use dvb_si::demux::SiDemux;
use mpeg_ts::pid::Pid;
use petrizolu::{
    Answer, BAT, DEFAULT_SETTINGS, ENTRY_WORDS, Eit, FOLLOW_SECTIONS, Gate, Listed, NIT, Offered, Refused, SDT, Sets, SmallGate, calls,
    listed_section,
};
use sections::{eit, long, of_version};
use std::cell::RefCell;
use std::hint::black_box;
use std::sync::atomic::Ordering;

/// The processor time of this thread.
fn now() -> u64 {
    #[repr(C)]
    struct Time {
        seconds: i64,
        nanoseconds: i64,
    }
    unsafe extern "C" {
        fn clock_gettime(clock: i32, time: *mut Time) -> i32;
    }
    const THREAD_CPUTIME: i32 = 3;
    let mut time = Time { seconds: 0, nanoseconds: 0 };
    // SAFETY: the struct has the layout of a timespec.
    unsafe { clock_gettime(THREAD_CPUTIME, &mut time) };
    time.seconds as u64 * 1_000_000_000 + time.nanoseconds as u64
}

/// One side of a comparison: what it does with all sections of a round.
type Side<'a> = Box<dyn FnMut() + 'a>;

/// Best nanoseconds an item of each side; the last side runs twice, over each of the original's CRCs.
fn measure(items: usize, rounds: usize, port: &mut [Side], original: &mut Side) -> Row {
    let time = |side: &mut Side| {
        let start = now();
        side();
        (now() - start) as f64 / items as f64
    };
    let mut row = Row { port: vec![f64::MAX; port.len()], one_table: f64::MAX, eight_tables: f64::MAX };
    for round in 0..=rounds {
        for (best, side) in row.port.iter_mut().zip(port.iter_mut()) {
            let took = time(side);
            // The first round warms up.
            if round > 0 {
                *best = best.min(took);
            }
        }
        for (eight, best) in [(false, &mut row.one_table), (true, &mut row.eight_tables)] {
            EIGHT_TABLES.store(eight, Ordering::Relaxed);
            let took = time(original);
            if round > 0 {
                *best = best.min(took);
            }
        }
    }
    row
}

struct Row {
    port: Vec<f64>,
    one_table: f64,
    eight_tables: f64,
}

impl Row {
    /// A line of a table in the documents' form: each port figure, the original's two, and each port figure's ratio to the two.
    fn print(&self, name: &str, bytes: usize) {
        let port: String = self.port.iter().map(|p| format!(" {p:.0} |")).collect();
        let ratios: String = self.port.iter().map(|p| format!(" {:.2} | {:.2} |", p / self.one_table, p / self.eight_tables)).collect();
        println!("| {name} | {bytes} |{port} {:.0} | {:.0} |{ratios}", self.one_table, self.eight_tables);
    }
}

fn head(title: &str, first: &str, ports: &[&str]) {
    println!("\n{title}\n");
    let columns: String = ports.iter().map(|p| format!(" {p} |")).collect();
    let ratios: String = ports.iter().map(|_| " ratio | ratio |".to_string()).collect();
    println!("| {first} | bytes |{columns} original, one table | eight tables |{ratios}");
    println!("|---|---|{}", "---|".repeat(2 + 3 * ports.len()));
}

/// The numbers below n, scattered, so that neither side walks its rows in order.
fn scattered(n: usize) -> Vec<usize> {
    (0..n).map(|i| i * 7919 % n).collect()
}

fn crc(rounds: usize) {
    head("CRC alone", "what", &["port"]);
    for size in [12, 64, 184, 1000, 4000] {
        let bytes = vec![0xA5; size];
        let turns = 2_000_000 / (size + 20);
        let mut port: [Side; 1] = [Box::new(|| {
            for _ in 0..turns {
                black_box(petrizolu::crc(black_box(&bytes)));
            }
        })];
        let mut original: Side = Box::new(|| {
            for _ in 0..turns {
                black_box(compute(black_box(&bytes)));
            }
        });
        measure(turns, rounds, &mut port, &mut original).print("CRC", size);
    }
}

const PID: u16 = 0x11;

fn gate(rounds: usize) {
    head("Gate: a repeat that is suppressed", "keys held", &["port", "with an index"]);
    for keys in [16, 200, 512, 5_000, 65_536] {
        for size in [64, 184, 4000] {
            let all: Vec<Bytes> = (0..keys).map(|i| Bytes::from(&long(0x42, i as u16, 0, 0, &vec![i as u8; size - 12])[..])).collect();
            let order = scattered(keys);
            let turns = (20_000 / keys).max(1);
            let mut small = SmallGate::open(65_536, &[]).expect("opens");
            let mut gate = Gate::open(65_536, &[]).expect("opens");
            let mut demux = SiDemux::builder().build();
            for section in &all {
                let _ = (small.offer(0, PID, section), gate.offer(0, PID, section), demux.offer(Pid::new(PID), section.clone()));
            }
            let mut port: [Side; 2] = [
                Box::new(|| {
                    for &i in order.iter().cycle().take(turns * keys) {
                        let _ = black_box(small.offer(0, PID, &all[i]));
                    }
                }),
                Box::new(|| {
                    for &i in order.iter().cycle().take(turns * keys) {
                        let _ = black_box(gate.offer(0, PID, &all[i]));
                    }
                }),
            ];
            let mut original: Side = Box::new(|| {
                for &i in order.iter().cycle().take(turns * keys) {
                    black_box(demux.offer(Pid::new(PID), all[i].clone()));
                }
            });
            let rounds = if keys > 10_000 { rounds.min(2) } else { rounds };
            measure(turns * keys, rounds, &mut port, &mut original).print(&keys.to_string(), size);
        }
    }
}

fn gate_new_keys(rounds: usize) {
    head("Gate: each section a new key at a full capacity, so each evicts one", "capacity", &["port", "with an index"]);
    for keys in [200, 5_000, 32_768] {
        let all: Vec<Bytes> = (0..2 * keys).map(|i| Bytes::from(&long(0x42, i as u16, 0, 0, &[i as u8; 52])[..])).collect();
        let mut small = SmallGate::open(keys, &[]).expect("opens");
        let mut gate = Gate::open(keys, &[]).expect("opens");
        let mut demux = SiDemux::builder().gate_capacity(keys).build();
        let mut port: [Side; 2] = [
            Box::new(|| {
                for section in &all {
                    let _ = black_box(small.offer(0, PID, section));
                }
            }),
            Box::new(|| {
                for section in &all {
                    let _ = black_box(gate.offer(0, PID, section));
                }
            }),
        ];
        let mut original: Side = Box::new(|| {
            for section in &all {
                black_box(demux.offer(Pid::new(PID), section.clone()));
            }
        });
        let rounds = if keys > 10_000 { 1 } else { rounds };
        measure(2 * keys, rounds, &mut port, &mut original).print(&keys.to_string(), 64);
    }
}

/// Best nanoseconds an item of each side, which take turns.
fn best(items: usize, rounds: usize, sides: &mut [Side]) -> Vec<f64> {
    let mut best = vec![f64::MAX; sides.len()];
    for round in 0..=rounds {
        for (best, side) in best.iter_mut().zip(sides.iter_mut()) {
            let start = now();
            side();
            let took = (now() - start) as f64 / items as f64;
            // The first round warms up.
            if round > 0 {
                *best = best.min(took);
            }
        }
    }
    best
}

/// A section of the PAT of a stream, of so many programmes.
fn pat(version: u8, number: u8, last: u8, programs: u16) -> Vec<u8> {
    let body: Vec<u8> = (1..=programs).flat_map(|program| [program.to_be_bytes(), (0xE100 | program).to_be_bytes()].concat()).collect();
    of_version(long(0, 1, number, last, &body), version)
}

/// Both forms of the gate.
trait Form: Sized {
    fn open(settings: u32, capacity: usize) -> Self;
    fn offer(&mut self, pid: u16, section: &[u8]) -> Result<Offered, Refused>;
}

impl Form for SmallGate {
    fn open(settings: u32, capacity: usize) -> Self {
        Self::open_with(settings, capacity, &[]).expect("opens")
    }

    fn offer(&mut self, pid: u16, section: &[u8]) -> Result<Offered, Refused> {
        SmallGate::offer(self, 0, pid, section)
    }
}

impl Form for Gate {
    fn open(settings: u32, capacity: usize) -> Self {
        Self::open_with(settings, capacity, &[]).expect("opens")
    }

    fn offer(&mut self, pid: u16, section: &[u8]) -> Result<Offered, Refused> {
        Gate::offer(self, 0, pid, section)
    }
}

const BY_SECTIONS: u32 = DEFAULT_SETTINGS | FOLLOW_SECTIONS;

/// A repeat in each manner of following, with a PAT of 1 and of 256 sections. The PAT comes first, and its keys leave the gate for the others: the keys held are the same in each.
fn repeats_following<G: Form>(form: &str, keys: usize, rounds: usize) {
    let all: Vec<Vec<u8>> = (0..keys).map(|i| long(0x42, i as u16, 0, 0, &[i as u8; 52])).collect();
    let order = scattered(keys);
    let turns = 20_000 / keys;
    let manners = [(BY_SECTIONS, 0), (BY_SECTIONS, 255), (DEFAULT_SETTINGS, 0), (DEFAULT_SETTINGS, 255)];
    let mut gates = manners.map(|(settings, last)| {
        let mut gate = G::open(settings, keys);
        (0..=last).for_each(|number| assert_eq!(gate.offer(0, &pat(0, number, last, 2)), Ok(Offered::Emitted)));
        all.iter().for_each(|section| assert_eq!(gate.offer(PID, section), Ok(Offered::Emitted)));
        all.iter().for_each(|section| assert_eq!(gate.offer(PID, section), Ok(Offered::Suppressed)));
        gate
    });
    let mut sides: Vec<Side> = Vec::new();
    for gate in &mut gates {
        sides.push(Box::new(|| {
            for &i in order.iter().cycle().take(turns * keys) {
                let _ = black_box(gate.offer(PID, &all[i]));
            }
        }));
    }
    let took = best(turns * keys, 3 * rounds, &mut sides);
    let figures: String = took.iter().map(|ns| format!(" {ns:.1} |")).collect();
    println!("| {keys} | {form} |{figures} {:.1} | {:.1} |", took[2] - took[0], took[3] - took[1]);
}

/// In each manner of following: the check of the PAT store is part of every offer where complete PATs are followed.
fn following(rounds: usize) {
    println!(
        "\nGate: a repeat of 64 bytes that is suppressed, by the manner of following and how many sections the PAT has that is held\n"
    );
    println!("| keys held | form | each changed section, 1 | 256 | complete PATs, 1 | 256 | more for 1 | for 256 |");
    println!("|---|---|---|---|---|---|---|---|");
    for keys in [16, 512] {
        repeats_following::<SmallGate>("in order", keys, rounds);
        repeats_following::<Gate>("with an index", keys, rounds);
    }
    println!("\nGate with an index: a PAT of 4 sections of 10 programmes each, another version each time, nanoseconds a PAT\n");
    println!("| each changed section followed | entered, complete and followed | repeated, suppressed |");
    println!("|---|---|---|");
    const TURNS: usize = 500;
    let versions: Vec<Vec<u8>> = (0..8).map(|at| pat(at / 4, at % 4, 3, 10)).collect();
    let [mut old, mut new, mut repeated] =
        [BY_SECTIONS, DEFAULT_SETTINGS, DEFAULT_SETTINGS].map(|settings| <Gate as Form>::open(settings, 512));
    let round = |gate: &mut Gate, sections: &[Vec<u8>]| {
        for section in sections.iter().cycle().take(4 * TURNS) {
            let _ = black_box(Form::offer(gate, 0, section));
        }
    };
    let mut sides: [Side; 3] = [
        Box::new(|| round(&mut old, &versions)),
        Box::new(|| round(&mut new, &versions)),
        Box::new(|| round(&mut repeated, &versions[..4])),
    ];
    let took: String = best(TURNS, rounds, &mut sides).iter().map(|ns| format!(" {ns:.0} |")).collect();
    println!("|{took}");
}

fn sets(rounds: usize) {
    head("Set collector: a repeat of a held set of one section", "keys held", &["port"]);
    for limit in [16, 256, 4096] {
        for size in [64, 184, 1000, 4000] {
            let all: Vec<Vec<u8>> = (0..limit).map(|i| long(0x42, i as u16, 0, 0, &vec![i as u8; size - 12])).collect();
            let order = scattered(limit);
            let turns = (4_096 / limit).max(1);
            let mut sets = Sets::open(limit, size, limit).expect("opens");
            let mut collector = SectionSetCollector::new().with_max_partial_keys(limit);
            let mut port: [Side; 1] = [Box::new(|| {
                for &i in order.iter().cycle().take(turns * limit) {
                    let _ = black_box(sets.push(0, Some(PID), &all[i]));
                }
            })];
            let mut original: Side = Box::new(|| {
                for &i in order.iter().cycle().take(turns * limit) {
                    let _ = black_box(collector.push_section_with_pid(Some(Pid::new(PID)), &all[i]));
                }
            });
            let rounds = if limit > 1_000 { rounds.min(2) } else { rounds };
            measure(turns * limit, rounds, &mut port, &mut original).print(&limit.to_string(), size);
        }
    }
}

/// What a host gathers for one call: some, and as many short sections as both monitors gather.
const SOME: usize = 64;
const MANY: usize = 512;

/// Sections of a PID as lists of so many.
fn lists(pid: u16, many: usize, sections: impl Iterator<Item = impl AsRef<[u8]>>) -> Vec<Vec<u8>> {
    let listed: Vec<Vec<u8>> = sections.map(|section| listed_section(0, pid, section.as_ref()).expect("short enough")).collect();
    listed.chunks(many).map(<[Vec<u8>]>::concat).collect()
}

/// The ways that are measured of a collector's repeats.
const WAYS: [&str; 3] = ["one at a time", "64 in one call", "512 in one call"];

fn sets_many(rounds: usize) {
    head("Set collector: a repeat of a held set of one section, one at a time and many in one call", "keys held", &WAYS);
    for limit in [16, 256, 4096] {
        for size in [64, 200, 1000] {
            let all: Vec<Vec<u8>> = (0..limit).map(|i| long(0x42, i as u16, 0, 0, &vec![i as u8; size - 12])).collect();
            let order: Vec<usize> = scattered(limit).into_iter().cycle().take(limit.max(4_096)).collect();
            let [some, more] = [SOME, MANY].map(|n| lists(PID, n, order.iter().map(|&i| &all[i])));
            let mut single = Sets::open(limit, size, limit).expect("opens");
            let many = RefCell::new(Sets::open(limit, size, limit).expect("opens"));
            let mut collector = SectionSetCollector::new().with_max_partial_keys(limit);
            for section in &all {
                assert!(matches!(
                    (single.push(0, Some(PID), section), many.borrow_mut().push(0, Some(PID), section)),
                    (Ok(Some(_)), Ok(Some(_)))
                ));
            }
            let push_all = |lists: &[Vec<u8>]| {
                for list in lists {
                    assert!(matches!(black_box(many.borrow_mut().push_all(list)), (Ok(None), taken) if taken == list.len()));
                }
            };
            let mut port: [Side; 3] = [
                Box::new(|| {
                    for &i in &order {
                        assert!(matches!(black_box(single.push(0, Some(PID), &all[i])), Ok(None)));
                    }
                }),
                Box::new(|| push_all(&some)),
                Box::new(|| push_all(&more)),
            ];
            let mut original: Side = Box::new(|| {
                for &i in &order {
                    let _ = black_box(collector.push_section_with_pid(Some(Pid::new(PID)), &all[i]));
                }
            });
            let rounds = if limit > 1_000 { rounds.min(3) } else { rounds };
            measure(order.len(), rounds, &mut port, &mut original).print(&limit.to_string(), size);
        }
    }
}

fn events_many(rounds: usize, title: &str, table_id: u8) {
    head(&format!("EIT collector: {title}, one at a time and many in one call"), "keys held", &WAYS);
    for limit in [16, 256, 4096] {
        for size in [64, 200, 1000] {
            let all: Vec<Vec<u8>> = (0..limit).map(|i| eit(table_id, i as u16, table_id, size)).collect();
            let order: Vec<usize> = scattered(limit).into_iter().cycle().take(limit.max(4_096)).collect();
            let [some, more] = [SOME, MANY].map(|n| lists(0x12, n, order.iter().map(|&i| &all[i])));
            let mut single = Eit::open(limit, size, limit).expect("opens");
            let many = RefCell::new(Eit::open(limit, size, limit).expect("opens"));
            let mut collector = EitCollector::new().with_max_logical_keys(limit);
            for section in &all {
                assert!(matches!(
                    (single.push(0, Some(0x12), section), many.borrow_mut().push(0, Some(0x12), section)),
                    (Ok(Some(_)), Ok(Some(_)))
                ));
            }
            let push_all = |lists: &[Vec<u8>]| {
                for list in lists {
                    assert!(matches!(black_box(many.borrow_mut().push_all(list)), (Ok(None), taken) if taken == list.len()));
                }
            };
            let mut port: [Side; 3] = [
                Box::new(|| {
                    for &i in &order {
                        assert!(matches!(black_box(single.push(0, Some(0x12), &all[i])), Ok(None)));
                    }
                }),
                Box::new(|| push_all(&some)),
                Box::new(|| push_all(&more)),
            ];
            let mut original: Side = Box::new(|| {
                for &i in &order {
                    let _ = black_box(collector.push_section_with_pid(Some(Pid::new(0x12)), &all[i]));
                }
            });
            let rounds = if limit > 1_000 { rounds.min(3) } else { rounds };
            measure(order.len(), rounds, &mut port, &mut original).print(&limit.to_string(), size);
        }
    }
}

fn many(rounds: usize) {
    sets_many(rounds);
    events_many(rounds, "a repeat of a held present/following set of one section", 0x4E);
    events_many(rounds, "a repeat of a held schedule of one table of one section", 0x50);
}

fn sets_new_keys(rounds: usize) {
    head("Set collector: each section a new key at a full limit, a set of one that goes out", "limit", &["port"]);
    for limit in [16, 256] {
        for size in [64, 1000] {
            let all: Vec<Vec<u8>> = (0..4 * limit).map(|i| long(0x42, i as u16, 0, 0, &vec![i as u8; size - 12])).collect();
            let mut sets = Sets::open(limit, size, limit + 1).expect("opens");
            let mut collector = SectionSetCollector::new().with_max_partial_keys(limit);
            let mut port: [Side; 1] = [Box::new(|| {
                for section in &all {
                    let _ = black_box(sets.push(0, Some(PID), section));
                }
            })];
            let mut original: Side = Box::new(|| {
                for section in &all {
                    let _ = black_box(collector.push_section_with_pid(Some(Pid::new(PID)), section));
                }
            });
            measure(4 * limit, rounds, &mut port, &mut original).print(&limit.to_string(), size);
        }
    }
}

fn event_repeats(rounds: usize, title: &str, table_id: u8) {
    head(title, "keys held", &["port"]);
    for limit in [16, 256, 4096] {
        for size in [64, 184, 1000, 4000] {
            let all: Vec<Vec<u8>> = (0..limit).map(|i| eit(table_id, i as u16, table_id, size)).collect();
            let order = scattered(limit);
            let turns = (4_096 / limit).max(1);
            let mut port_eit = Eit::open(limit, size, limit).expect("opens");
            let mut collector = EitCollector::new().with_max_logical_keys(limit);
            let mut port: [Side; 1] = [Box::new(|| {
                for &i in order.iter().cycle().take(turns * limit) {
                    assert!(black_box(port_eit.push(0, Some(0x12), &all[i])).is_ok());
                }
            })];
            let mut original: Side = Box::new(|| {
                for &i in order.iter().cycle().take(turns * limit) {
                    let _ = black_box(collector.push_section_with_pid(Some(Pid::new(0x12)), &all[i]));
                }
            });
            let rounds = if limit > 1_000 { rounds.min(2) } else { rounds };
            measure(turns * limit, rounds, &mut port, &mut original).print(&limit.to_string(), size);
        }
    }
}

/// 150 services with 8 tables of one section each, collected from nothing: the clear is part of a round.
fn full_guide(rounds: usize) {
    const SERVICES: u16 = 150;
    const TABLES: u8 = 8;
    let count = usize::from(SERVICES) * usize::from(TABLES);
    head("EIT collector: a full guide, 150 services of 8 tables, from nothing", "sets", &["port"]);
    for size in [64, 1000, 4000] {
        let all: Vec<Vec<u8>> = (0..TABLES).flat_map(|t| (0..SERVICES).map(move |s| eit(0x50 + t, s, 0x50 + TABLES - 1, size))).collect();
        let mut port_eit = Eit::open(count, size, count).expect("opens");
        let mut collector = EitCollector::new().with_max_logical_keys(count);
        let mut port: [Side; 1] = [Box::new(|| {
            port_eit.clear().expect("whole");
            for section in &all {
                assert!(black_box(port_eit.push(0, Some(0x12), section)).is_ok());
            }
        })];
        let mut original: Side = Box::new(|| {
            collector.clear();
            for section in &all {
                let _ = black_box(collector.push_section_with_pid(Some(Pid::new(0x12)), section));
            }
        });
        measure(count, rounds.min(3), &mut port, &mut original).print(&count.to_string(), size);
    }
}

/// What the check of the whole store (answer 10) costs: a question past the rows in use does nothing else.
fn check_of_the_store(rounds: usize) {
    println!("\nThe check of the whole store alone (answer 10), nanoseconds\n");
    println!("| rows | slots a row | a check | a row | a slot |");
    println!("|---|---|---|---|---|");
    for (limit, last) in [(16usize, 0u8), (256, 0), (4096, 0), (256, 255)] {
        let slots = usize::from(last) + 1;
        let mut sets = Sets::open(limit, 64, (limit * slots).min(65_535)).expect("opens");
        for i in 0..limit {
            for number in 0..=last {
                // Of 256 rows of 256 slots the last finds no cell: there are 65,535 at most.
                let pushed = sets.push(0, Some(PID), &long(0x42, i as u16, number, last, &[0; 52]));
                assert!(pushed.is_ok() || i * slots + usize::from(number) == 65_535);
            }
        }
        let turns = 400_000 / (limit * slots) + 4;
        let mut best = f64::MAX;
        for _ in 0..=rounds {
            let start = now();
            for _ in 0..turns {
                black_box(sets.has_section(u64::MAX, 0));
            }
            best = best.min((now() - start) as f64 / turns as f64);
        }
        println!("| {limit} | {slots} | {best:.0} | {:.2} | {:.3} |", best / limit as f64, best / (limit * slots) as f64);
    }
}

/// An EIT section of a present/following table with these events.
fn guide(events: &[u8]) -> Vec<u8> {
    long(0x4E, 1, 0, 0, &[&[0, 1, 0, 1, 0, 0x4E], events].concat())
}

/// An event of EN 300 468, 5.2.4, with these descriptors.
fn event(descriptors: &[u8]) -> Vec<u8> {
    let [high, low] = (descriptors.len() as u16).to_be_bytes();
    [&[0, 1, 0xC0, 0x79, 0x12, 0x45, 0, 1, 0x45, 0x30, 0x80 | high, low], descriptors].concat()
}

/// What it costs to list the entries of one section, all of them into a list with room.
fn listings(rounds: usize) {
    println!("\nThe entries of one section, listed\n");
    println!("| section | bytes | entries | a section | an entry |");
    println!("|---|---|---|---|---|");
    type Body = fn(usize) -> Vec<u8>;
    let kinds: [(&str, Body); 3] = [
        ("events without descriptors", |room| event(&[]).repeat(room / 12)),
        ("short events with one descriptor", |room| event(b"\x4D\x08eng\x03abc\x00").repeat(room / 22)),
        ("one event, all descriptors empty", |room| event(&[0x40, 0].repeat((room - 12) / 2))),
    ];
    for (name, body) in kinds {
        for size in [184, 1000, 4000] {
            let section = guide(&body(size - 18));
            let mut list = vec![0; section.len() / 2 * ENTRY_WORDS];
            let mut listed = Listed::default();
            let turns = 200_000 / size;
            let mut side: [Side; 1] = [Box::new(|| {
                for _ in 0..turns {
                    assert_eq!(black_box(calls::events(black_box(&section), 0, &mut list, &mut listed)), Answer::YES);
                }
            })];
            let took = best(turns, 3 * rounds, &mut side)[0];
            drop(side);
            println!("| {name} | {} | {} | {took:.0} | {:.1} |", section.len(), listed.count, took / listed.count as f64);
        }
    }
    tables(rounds);
}

/// The same of a NIT, a BAT and an SDT: what is counted ends where its length says, so each section is walked twice.
fn tables(rounds: usize) {
    let counted = |bytes: Vec<u8>| [&(0xF000 | bytes.len() as u16).to_be_bytes()[..], &bytes].concat();
    let streams = |room: usize, stream: &[u8]| [&[0xF0, 0][..], &counted(stream.repeat((room - 4) / stream.len()))].concat();
    let services = |room: usize, service: &[u8]| [&[0x21, 0x74, 0xFF][..], &service.repeat((room - 3) / service.len())].concat();
    let empty = |room: usize| [counted([0x40, 0].repeat((room - 4) / 2)), vec![0xF0, 0]].concat();
    type Body<'a> = &'a dyn Fn(usize) -> Vec<u8>;
    let kinds: [(&str, u32, u8, Body); 5] = [
        ("NIT, streams without descriptors", NIT, 0x40, &|room| streams(room, &[0, 1, 0x21, 0x74, 0xF0, 0])),
        ("NIT, streams with one descriptor", NIT, 0x40, &|room| streams(room, b"\x00\x01\x21\x74\xF0\x05\x41\x03\x00\x01\x01")),
        ("BAT, all descriptors empty", BAT, 0x4A, &|room| empty(room)),
        ("SDT, services without descriptors", SDT, 0x42, &|room| services(room, &[0, 1, 0xFD, 0x80, 0])),
        ("SDT, services with one descriptor", SDT, 0x42, &|room| services(room, b"\x00\x01\xFD\x80\x0A\x48\x08\x01\x02abc\x02de")),
    ];
    for (name, reader, table_id, body) in kinds {
        for size in [1000, 4000] {
            let section = long(table_id, 1, 0, 0, &body(size - 12));
            let mut list = vec![0; section.len() / 2 * ENTRY_WORDS];
            let mut listed = Listed::default();
            let turns = 200_000 / size;
            let mut side: [Side; 1] = [Box::new(|| {
                for _ in 0..turns {
                    assert_eq!(black_box(calls::entries(reader, black_box(&section), 0, &mut list, &mut listed)), Answer::YES);
                }
            })];
            let took = best(turns, 3 * rounds, &mut side)[0];
            drop(side);
            println!("| {name} | {} | {} | {took:.0} | {:.1} |", section.len(), listed.count, took / listed.count as f64);
        }
    }
}

/// A table of the documents, under the word that asks for it.
type Part = (&'static str, fn(usize));

const PARTS: [Part; 16] = [
    ("crc", crc),
    ("gate", gate),
    ("new-keys", gate_new_keys),
    ("following", following),
    ("packets", packets::packets),
    ("passed", packets::many),
    ("sets", sets),
    ("many", many),
    ("new-sets", sets_new_keys),
    ("present", |rounds| event_repeats(rounds, "EIT collector: a repeat of a held present/following set of one section", 0x4E)),
    ("schedules", |rounds| event_repeats(rounds, "EIT collector: a repeat of a held schedule of one table of one section", 0x50)),
    ("guide", full_guide),
    ("check", check_of_the_store),
    ("entries", listings),
    ("guides", guides::guides),
    ("logs", logs::logs),
];

fn main() {
    let words: Vec<String> = std::env::args().skip(1).collect();
    let rounds = if words.iter().any(|word| word == "quick") { 3 } else { 9 };
    println!(
        "Nanoseconds a section, best of {rounds} rounds (two or three at thousands of rows). Ratios: to the original over one table, then over eight."
    );
    let all = words.iter().all(|word| word == "quick");
    for (name, part) in PARTS {
        if all || words.iter().any(|word| word == name) {
            part(rounds);
        }
    }
}
