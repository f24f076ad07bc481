//! Sections without a PID, and stores of before 2026-12 that hold a row without one: 41, and everything as before.
use petrizolu::{
    ANY, Answer, Eit, EitState, Filter, HEAD_WORDS, Listed, NIT, NO_PID, Place, Refused, SLOT_WORDS, Sets, SetsState, UNIT_WORDS, calls,
    crc,
};

/// What a head of before 2026-12 has in the place of a PID.
const NONE: u64 = 8192;

fn sealed(bytes: &[u8]) -> Vec<u8> {
    [bytes, &crc(bytes).to_be_bytes()].concat()
}

/// A set of one section.
fn network(extension: u8) -> Vec<u8> {
    sealed(&[0x40, 0xF0, 0x0D, 0x30, extension, 0xC1, 0x00, 0x00, 0xF0, 0x00, 0xF0, 0x00])
}

/// A schedule of one table, and a present/following set.
fn guide(table_id: u8) -> Vec<u8> {
    sealed(&[table_id, 0xB0, 0x0F, 0x00, 0x01, 0xC1, 0x00, 0x00, 0x00, 0x01, 0x00, 0x01, 0x00, table_id])
}

#[test]
fn a_call_without_a_pid() {
    let mut sets = Sets::open(2, 64, 4).expect("the collector opens");
    let mut eit = Eit::open(2, 64, 4).expect("the collector opens");
    let refused = Refused(Answer::NO_PID_GIVEN);
    assert_eq!(sets.push(0, None, &network(1)).err(), Some(refused));
    assert_eq!(sets.push(16, None, &[]).err(), Some(refused), "before 37 and 14");
    assert_eq!(eit.push(0, None, &guide(0x4E)).err(), Some(refused));
    assert!(matches!(eit.push(0, Some(0x12), &guide(0x4E)), Ok(Some(_))));
    assert_eq!(eit.drop_matching(&Filter::ALL.pid(None)), Err(refused), "a filter that wants none");
    assert_eq!(eit.drop_matching(&Filter::ALL.pid(None).input(16)), Err(refused), "before 37");
    assert_eq!((sets.state().used, eit.state().used), (0, 1));
    assert_eq!(eit.drop_matching(&Filter::ALL), Ok(()), "a filter whose PID is free");
}

#[test]
fn a_set_of_before() {
    let (mut heads, mut slots, mut cells) = (vec![0; 3 * HEAD_WORDS], vec![0; 3 * SLOT_WORDS], vec![0; 256]);
    let mut sets = SetsState::default();
    assert_eq!(calls::sets_open(&mut sets, 3, 64, 4, &heads, &slots, &cells), Answer::DONE);
    for extension in [1, 2] {
        assert_eq!(calls::sets_push(&mut sets, &mut heads, &mut slots, &mut cells, 0, 0x10, &network(extension), &mut 0), Answer::SET);
    }
    let row = |heads: &mut Vec<u64>, row: usize, word: u64| heads[row * HEAD_WORDS] = word;
    for (damaged, word, refuses) in [(0, NONE, true), (1, NONE, true), (2, NONE, false), (1, NONE + 1, false), (1, u64::MAX, false)] {
        let (mut sets, mut heads, mut slots, mut cells) = (sets, heads.clone(), slots.clone(), cells.clone());
        row(&mut heads, damaged, word);
        let before = (sets, heads.clone(), slots.clone(), cells.clone());
        let (mut place, mut listed, mut list, mut told) = (Place::default(), Listed::default(), [7; 12], 7);
        let answers = [
            calls::sets_next(&sets, &heads, &slots, &cells, 0, 0, &mut place),
            calls::sets_entries(NIT, &sets, &heads, &slots, &cells, 0, 0, &mut list, &mut listed),
            calls::sets_push(&mut sets, &mut heads, &mut slots, &mut cells, 0, 8192, &[], &mut told),
            calls::sets_clear(&mut sets, &heads, &slots, &cells),
        ];
        if refuses {
            assert_eq!(answers, [Answer::NO_PID_GIVEN; 4], "row {damaged}");
            assert!(
                (sets, heads, slots, cells) == before && (place, listed, list, told) == (Place::default(), Listed::default(), [7; 12], 7)
            );
        } else {
            assert_eq!(answers, [Answer::YES, Answer::NO, Answer::BAD_PID, Answer::DONE], "row {damaged}, {word}");
        }
    }
    row(&mut heads, 0, NONE);
    sets.evictions = u64::MAX;
    let mut push = |pid| calls::sets_push(&mut sets, &mut heads, &mut slots, &mut cells, 0, pid, &network(1), &mut 0);
    assert_eq!((push(0x10), push(NO_PID)), (Answer::COUNTER_FULL, Answer::COUNTER_FULL), "11 comes first");
    assert_eq!(calls::sets_open(&mut sets, 3, 64, 4, &heads, &slots, &cells), Answer::DONE, "opened anew");
    assert_eq!(calls::sets_push(&mut sets, &mut heads, &mut slots, &mut cells, 0, 0x10, &network(1), &mut 0), Answer::SET);
}

#[test]
fn a_schedule_of_before() {
    let (mut heads, mut slots, mut cells) = (vec![0; 3 * HEAD_WORDS], vec![0; 3 * SLOT_WORDS], vec![0; 256]);
    let (mut schedule_heads, mut units) = (vec![0; 3 * HEAD_WORDS], vec![0; 3 * UNIT_WORDS]);
    let mut eit = EitState::default();
    assert_eq!(calls::eit_open(&mut eit, 3, 64, 4, &heads, &slots, &cells, &schedule_heads, &units), Answer::DONE);
    for (section, answer) in [(guide(0x4E), Answer::SET), (guide(0x50), Answer::SCHEDULE)] {
        let pushed =
            calls::eit_push(&mut eit, &mut heads, &mut slots, &mut cells, &mut schedule_heads, &mut units, 0, 0x12, &section, &mut 0);
        assert_eq!(pushed, answer);
    }
    for (of_schedules, row, refuses) in [(false, 0, true), (false, 1, true), (false, 2, false), (true, 0, true), (true, 1, false)] {
        let (mut eit, mut heads, mut slots, mut cells) = (eit, heads.clone(), slots.clone(), cells.clone());
        let (mut schedule_heads, mut units) = (schedule_heads.clone(), units.clone());
        (if of_schedules { &mut schedule_heads } else { &mut heads })[row * HEAD_WORDS] = NONE;
        let before = (eit, heads.clone(), slots.clone(), cells.clone(), schedule_heads.clone(), units.clone());
        let (mut place, mut listed, mut list, mut told) = (Place::default(), Listed::default(), [7; 12], 7);
        let wanted = Filter { pid: NONE, input: ANY, ..Filter::ALL };
        let answers = [
            calls::eit_next(&eit, &heads, &slots, &cells, &schedule_heads, &units, 0, 0, &mut place),
            calls::eit_next_in_schedule(&eit, &heads, &slots, &cells, &schedule_heads, &units, 0, 0, 0, &mut place),
            calls::eit_events(&eit, &heads, &slots, &cells, &schedule_heads, &units, 0, 0, &mut list, &mut listed),
            calls::eit_events_in_schedule(&eit, &heads, &slots, &cells, &schedule_heads, &units, 0, 0, 0, &mut list, &mut listed),
            calls::eit_push(&mut eit, &mut heads, &mut slots, &mut cells, &mut schedule_heads, &mut units, 0, 8192, &[], &mut told),
            calls::eit_drop(&mut eit, &mut heads, &mut slots, &cells, &mut schedule_heads, &mut units, &wanted),
            calls::eit_clear(&mut eit, &heads, &slots, &cells, &schedule_heads, &units),
        ];
        if refuses {
            assert_eq!(answers, [Answer::NO_PID_GIVEN; 7], "schedules: {of_schedules}, row {row}");
            assert!((eit, heads, slots, cells, schedule_heads, units) == before);
            assert_eq!((place, listed, list, told), (Place::default(), Listed::default(), [7; 12], 7));
        } else {
            let expected = [Answer::YES, Answer::YES, Answer::NO, Answer::NO, Answer::BAD_PID, Answer::BAD_PID, Answer::DONE];
            assert_eq!(answers, expected, "schedules: {of_schedules}, row {row}");
        }
    }
}
