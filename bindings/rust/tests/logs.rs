//! Logs: the worked example written, checked, spoilt and read, by a run and by the record makers; what refusals leave.
use petrizolu::{
    Answer, Judged, LOG_BARE_SET, LOG_BEFORE, LOG_MISMATCH, LOG_SHORT, LOG_WITH, LOG_WITHOUT, LogRecord, LogRun, LogSettings, NO_PID,
    Refused, SLOT_WORDS, Sets, Wrong, calls, crc, listed_section, offer_record, record_at, set_record,
};

const SETTINGS: LogSettings = LogSettings { capacity: 512, repeats: 0, change_rule: 2, limit: 16, size: 4096, count: 64, pids: LOG_WITH };
const A: [u8; 13] = [0x42, 0xB0, 0x0A, 0x00, 0x01, 0xC7, 0x00, 0x00, 0x61, 0xE7, 0x22, 0xAD, 0x04];
const TDT: [u8; 8] = [0x70, 0x70, 0x05, 0xC0, 0x79, 0x12, 0x45, 0x00];

/// Inputs, PIDs and sections, with the gate's answers.
fn offers() -> [(u8, u16, Vec<u8>, Answer); 8] {
    let mut broken = A;
    broken[12] = 5;
    [
        (0, 0x11, A.to_vec(), Answer::EMITTED),
        (0, 0x11, A.to_vec(), Answer::SUPPRESSED),
        (1, 0x11, A.to_vec(), Answer::EMITTED),
        (0, 0x11, vec![0x02, 0xB0, 0x00], Answer::TOO_SHORT),
        (0, 0x11, broken.to_vec(), Answer::CRC_MISMATCH),
        (0, 0x14, TDT.to_vec(), Answer::EMITTED),
        (0, 8192, A.to_vec(), Answer::BAD_PID),
        (16, 0x11, A.to_vec(), Answer::BAD_INPUT),
    ]
}

fn sections() -> Vec<u8> {
    offers().iter().flat_map(|(input, pid, section, _)| listed_section(*input, *pid, section).expect("short enough")).collect()
}

const LOG: [u8; 84] = [
    1, 0, 0x00, 0x11, 0x42, 0, 1, 0, 3, 0xE7, 0x22, 0xAD, 0x04, 5, 0, 0x00, 0x11, 0x42, 0, 1, 1, 3, 0, 2, 0, 0x00, 0x11, 0x42, 0, 1, 0, 3,
    0xE7, 0x22, 0xAD, 0x04, 1, 1, 0x00, 0x11, 0x42, 0, 1, 0, 3, 0xE7, 0x22, 0xAD, 0x04, 5, 1, 0x00, 0x11, 0x42, 0, 1, 1, 3, 0, 3, 0, 0x00,
    0x11, 0, 3, 4, 0, 0x00, 0x11, 0, 13, 1, 0, 0x00, 0x14, 0x70, 0, 0, 0, 0, 0xC2, 0x6D, 0xCF, 0x7C,
];

#[test]
fn the_worked_example() {
    let mut run = LogRun::new(SETTINGS);
    assert_eq!(run.write(&sections()).as_deref(), Ok(&LOG[..]));
    assert_eq!(run.check(&sections(), &LOG), Ok(Judged::Equal));
}

/// The log of before 2026-12, of sets without a PID: checked by the older definition alone, and written by none.
#[test]
fn a_log_of_before() {
    let bare = |input: u8| [LOG_BARE_SET, input, 0x42, 0, 1, 1, 3, 0];
    let log = [&LOG[..13], &bare(0), &LOG[23..49], &bare(1), &LOG[59..]].concat();
    let mut run = LogRun::new(SETTINGS);
    let mut before = LogRun::new(LogSettings { pids: LOG_BEFORE, ..SETTINGS });
    let mut without = LogRun::new(LogSettings { pids: LOG_WITHOUT, ..SETTINGS });
    let refused = Refused(Answer::NO_PID_GIVEN);
    assert_eq!(before.check(&sections(), &log), Ok(Judged::Equal));
    assert_eq!(before.check(&sections(), &LOG), Ok(Judged::Wrong(Wrong::Record, 13)));
    assert_eq!(run.check(&sections(), &log), Ok(Judged::Wrong(Wrong::Record, 13)));
    assert_eq!(run.check(&sections(), &log[..20]), Ok(Judged::Wrong(Wrong::Cut, 13)));
    assert_eq!(without.check(&sections(), &log), Err(refused));
    assert_eq!((before.write(&sections()), without.write(&sections())), (Err(refused), Err(refused)));
    // One table on two PIDs is one set by the older definition, and two by that of now.
    let two: Vec<u8> = [0x11, 0x10].into_iter().flat_map(|pid| listed_section(0, pid, &A).expect("short enough")).collect();
    let kinds = |log: &[u8]| {
        let record = |place: &u64| record_at(log, *place).expect("a whole log");
        let all = std::iter::successors(record(&0), |last| record(&last.next));
        all.map(|record| record.kind).collect::<Vec<_>>()
    };
    let log = run.write(&two).expect("a whole list");
    assert_eq!(kinds(&log), [1, 5, 1, 5]);
    let older = [&log[..13], &bare(0), &log[23..36]].concat();
    assert_eq!((kinds(&older), before.check(&two, &older)), (vec![1, 6, 1], Ok(Judged::Equal)));
}

#[test]
fn a_log_kept_as_it_goes() {
    let mut sets = Sets::open(16, 4096, 64).expect("within range");
    let mut log = Vec::new();
    for (input, pid, section, answer) in offers() {
        log.extend(offer_record(answer, 2, input, pid, &section).expect("short enough, and a rule"));
        let judged_sound = matches!(answer, Answer::EMITTED | Answer::SUPPRESSED);
        if judged_sound && matches!(sets.push(input, Some(pid), &section), Ok(Some(_))) {
            log.extend(set_record(input, Some(pid), &section));
        }
    }
    assert_eq!(log, LOG);
}

#[test]
fn spoilt() {
    let mut run = LogRun::new(SETTINGS);
    let mut judge = |log: &[u8]| run.check(&sections(), log).expect("a whole list");
    for end in 0..LOG.len() {
        let place = [0, 13, 23, 36, 49, 59, 65, 71].into_iter().rfind(|&start| start <= end).expect("0 is one");
        let wrong = if place == end { Wrong::Record } else { Wrong::Cut };
        assert_eq!(judge(&LOG[..end]), Judged::Wrong(wrong, place as u64), "{end} bytes");
        let mut other = LOG;
        other[end] ^= 0x40;
        let wrong = if place == end { Wrong::UnknownKind } else { Wrong::Record };
        assert_eq!(judge(&other), Judged::Wrong(wrong, place as u64), "byte {end}");
    }
    assert_eq!(judge(&[&LOG[..], &LOG[59..65]].concat()), Judged::Wrong(Wrong::Record, 84), "one too many");
    assert_eq!(judge(&[&LOG[..], &LOG[59..64]].concat()), Judged::Wrong(Wrong::Cut, 84), "one too many that is cut");
}

#[test]
fn refusals_leave_all() {
    let whole = sections();
    let overlong = [&[0, 0, 0x11, 0x10, 0x03][..], &[0; 3]].concat();
    let cases = [
        (overlong, SETTINGS, 84, Answer::OVERLONG_SECTION),
        (whole[..whole.len() - 1].to_vec(), SETTINGS, 84, Answer::NOT_WHOLE),
        (whole[..4].to_vec(), SETTINGS, 84, Answer::NOT_WHOLE),
        (whole.clone(), LogSettings { capacity: 513, ..SETTINGS }, 84, Answer::TOO_LITTLE),
        (whole.clone(), LogSettings { size: 11, ..SETTINGS }, 84, Answer::TOO_LITTLE),
        (whole.clone(), LogSettings { change_rule: 3, ..SETTINGS }, 84, Answer::TOO_LITTLE),
        (whole.clone(), LogSettings { pids: 3, ..SETTINGS }, 84, Answer::TOO_LITTLE),
        (whole.clone(), LogSettings { pids: LOG_WITHOUT, ..SETTINGS }, 84, Answer::NO_PID_GIVEN),
        (whole.clone(), LogSettings { pids: LOG_WITHOUT, size: 11, ..SETTINGS }, 84, Answer::NO_PID_GIVEN),
        (whole[..4].to_vec(), LogSettings { pids: LOG_WITHOUT, ..SETTINGS }, 84, Answer::NOT_WHOLE),
        (whole, SETTINGS, 83, Answer::NO_LOG_ROOM),
    ];
    for (sections, settings, bytes, answer) in cases {
        let mut memory = (vec![7; 512], vec![7; 512], vec![7; 16 * 12], vec![7; 16 * SLOT_WORDS], vec![7; 64 * 4096]);
        let before = memory.clone();
        let (mut room, mut length, mut place) = (vec![7; bytes], 7, 7);
        let (keys, changes, heads, slots, cells) = &mut memory;
        let run = calls::RunMemory { keys, changes, heads, slots, cells };
        assert_eq!(calls::log_write(&settings, &sections, &mut room, run, &mut length), answer);
        assert_eq!((room, length), (vec![7; bytes], 7), "{answer}");
        if answer == Answer::NO_LOG_ROOM {
            continue;
        }
        assert!(memory == before, "{answer}: the memory of the run");
        let (keys, changes, heads, slots, cells) = &mut memory;
        let run = calls::RunMemory { keys, changes, heads, slots, cells };
        assert_eq!(calls::log_check(&settings, &sections, &[], run, &mut place), answer);
        assert!(memory == before && place == 7, "{answer}: the memory of the run");
    }
}

#[test]
fn records_that_there_are_not() {
    let (mut record, mut length) = ([7; 13], 7);
    let mut made = |answer: Answer, rule: u64, input: u32, pid: u32, section: &[u8]| {
        (record, length) = ([7; 13], 7);
        (calls::log_offer_record(answer, rule, input, pid, section, &mut record, &mut length), record, length)
    };
    let none = (Answer::DONE, [7; 13], 0);
    assert_eq!(made(Answer::EMITTED, 2, 16, 0x11, &A), none);
    assert_eq!(made(Answer::EMITTED, 2, 0, 8192, &A), none);
    assert_eq!(made(Answer::EMITTED, 2, 0, NO_PID, &A), none);
    assert_eq!(made(Answer::SUPPRESSED, 2, 0, 0x11, &A[..2]), none);
    assert_eq!(made(Answer::NOTHING, 2, 0, 0x11, &A), none);
    assert_eq!(made(Answer::EMITTED, 3, 0, 0x11, &A), (Answer::TOO_LITTLE, [7; 13], 7));
    assert_eq!(made(Answer::EMITTED, 2, 0, 0x11, &[0; 4099]), (Answer::OVERLONG_SECTION, [7; 13], 7));
    assert_eq!(made(Answer::EMITTED, 3, 0, 0x11, &[0; 4099]), (Answer::OVERLONG_SECTION, [7; 13], 7));
    let (_, short, length) = made(Answer::TOO_SHORT, 2, 0, 0x11, &[]);
    assert_eq!((&short[..6], &short[6..], length), (&[LOG_SHORT, 0, 0, 0x11, 0, 0][..], &[7; 7][..], 6));
    let (_, longest, length) = made(Answer::CRC_MISMATCH, 1, 15, 8191, &[0; 4098]);
    assert_eq!((&longest[..6], length), (&[LOG_MISMATCH, 15, 0x1F, 0xFF, 0x10, 0x02][..], 6));
    for (input, pid, section) in [(0, 0x11, &A[..11]), (16, 0x11, &A[..]), (0, 8192, &A[..]), (0, NO_PID, &A[..])] {
        let (mut record, mut length) = ([7; 10], 7);
        assert_eq!(calls::log_set_record(input, pid, section, &mut record, &mut length), Answer::DONE);
        assert_eq!((record, length), ([7; 10], 0));
    }
}

#[test]
fn read() {
    let mut place = 0;
    let mut kinds = Vec::new();
    while let Some(record) = record_at(&LOG, place).expect("a whole log") {
        kinds.push(record.kind);
        place = record.next;
    }
    assert_eq!((kinds, place), (vec![1, 5, 2, 1, 5, 3, 4, 1], 84));
    let emitted = LogRecord {
        kind: 1,
        input: 0,
        pid: 0x11,
        table_id: 0x42,
        extension: 1,
        section: 0,
        version: 3,
        change: 0xE722_AD04,
        next: 13,
        ..LogRecord::default()
    };
    assert_eq!(record_at(&LOG, 0), Ok(Some(emitted)));
    let bare = [LOG_BARE_SET, 3, 0x4E, 0, 1, 1, 3, 9];
    let set = LogRecord {
        kind: 6,
        input: 3,
        pid: 8192,
        table_id: 0x4E,
        extension: 1,
        version: 3,
        current: 1,
        last: 9,
        next: 8,
        ..LogRecord::default()
    };
    assert_eq!(record_at(&bare, 0), Ok(Some(set)));
    assert_eq!(record_at(&LOG, u64::MAX), Ok(None));
    assert_eq!(record_at(&LOG, 1), Err(Refused(Answer::UNKNOWN_KIND)));
    assert_eq!(record_at(&LOG[..83], 71), Err(Refused(Answer::RECORD_CUT)));
    let mut record = emitted;
    assert_eq!((calls::log_read(&LOG[..5], 0, &mut record), record), (Answer::RECORD_CUT, emitted));
    assert_eq!(crc(&TDT), 0xC26D_CF7C, "the change number of a section without a CRC");
}
