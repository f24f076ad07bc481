//! The third demand for present and following, tried: two EIT collectors of which one holds fewer keys, fed alike. Each present/following set that the smaller hands out
//! must have been handed out by the larger at that section or before, since the last clear. Feeds that obey the demand's conditions, and feeds that break one of them.
use crate::make::{Dice, Head, long};
use crate::pairs::Side;
use player::answer::{Answer, Out, Set};
use player::command::{Command, Part};
use std::fmt::{self, Display};

/// The condition that a feed breaks.
#[derive(Clone, Copy, Debug, PartialEq, Eq)]
enum Broken {
    /// Sections of one segment give different segment_last_section_numbers.
    SegmentsAgree,
    /// A section_number lies above its segment's end.
    NoneAboveItsSegment,
    /// One section comes with different bytes, so that the larger refuses some as conflicting.
    RefusesNoneAsConflicting,
    /// The smaller is the one with the larger limit.
    LimitNoLarger,
}

impl Broken {
    const ALL: [Broken; 4] = [Broken::SegmentsAgree, Broken::NoneAboveItsSegment, Broken::RefusesNoneAsConflicting, Broken::LimitNoLarger];
}

impl Display for Broken {
    fn fmt(&self, f: &mut fmt::Formatter<'_>) -> fmt::Result {
        f.write_str(match self {
            Broken::SegmentsAgree => "segments that disagree",
            Broken::NoneAboveItsSegment => "sections above their segment",
            Broken::RefusesNoneAsConflicting => "conflicts in the larger",
            Broken::LimitNoLarger => "limits the other way",
        })
    }
}

/// A present/following sub_table, or a table of a schedule, as it is sent.
#[derive(Clone, Copy)]
struct Table {
    table_id: u8,
    service_id: u16,
    version: u8,
    last: u8,
}

const SECTIONS_PER_SEGMENT: u8 = 8;

impl Table {
    /// What all sections of a segment say: its last number counts within the segment, and every sub_table has segments of other sizes.
    fn within_segment(self, number: u8) -> u8 {
        let segment = number / SECTIONS_PER_SEGMENT;
        (segment + self.version + self.service_id as u8) % SECTIONS_PER_SEGMENT
    }

    fn segment_end(self, number: u8) -> u8 {
        let first = number / SECTIONS_PER_SEGMENT * SECTIONS_PER_SEGMENT;
        (first + self.within_segment(number)).min(self.last)
    }

    /// The numbers that are sent: those inside their segment, or all of them.
    fn numbers(self, broken: Option<Broken>) -> Vec<u8> {
        (0..=self.last).filter(|&number| broken == Some(Broken::NoneAboveItsSegment) || number <= self.segment_end(number)).collect()
    }

    fn section(self, number: u8, dice: &mut Dice, broken: Option<Broken>) -> Vec<u8> {
        let mut segment_last = self.segment_end(number);
        if broken == Some(Broken::SegmentsAgree) && dice.once_in(4) {
            // Another end, at or after this number, so that no section lies above its segment.
            let first = number / SECTIONS_PER_SEGMENT * SECTIONS_PER_SEGMENT;
            let ends: Vec<u8> = (number..=self.last.min(first + 7)).collect();
            segment_last = dice.of(&ends);
        }
        let conflicting = broken == Some(Broken::RefusesNoneAsConflicting) && dice.once_in(6);
        let last_table_id = if self.table_id < 0x50 { self.table_id } else { 0x51 };
        let event = [0, u8::from(conflicting), 0xE0, 0, 0, 0, 0, 0, 0, 0, 0, 0];
        let body = [&[0, 1, 0, 1, segment_last, last_table_id][..], &event].concat();
        let Table { table_id, service_id, version, last } = self;
        long(Head { table_id, extension: service_id, version, current_next: true, number, last }, &body)
    }
}

/// The commands that both collectors get, after they are opened.
fn feed(dice: &mut Dice, commands: usize, broken: Option<Broken>) -> Vec<Command> {
    let lasts = [0, 1, 1, 2, 9, 17];
    let mut tables: Vec<Table> = (0..3 + dice.below(4))
        .map(|at| Table { table_id: dice.of(&[0x4E, 0x4E, 0x4F, 0x50, 0x51]), service_id: at as u16, version: 0, last: dice.of(&lasts) })
        .collect();
    let mut feed = Vec::new();
    let mut now = 0;
    while feed.len() < commands {
        if dice.once_in(3) {
            now = dice.below(tables.len());
        }
        if dice.once_in(40) {
            tables[now].version = (tables[now].version + 1) % 32;
            tables[now].last = dice.of(&lasts);
        }
        if dice.once_in(150) {
            feed.push(Command::Clear { part: Part::Eit });
        }
        let number = dice.of(&tables[now].numbers(broken));
        let section = tables[now].section(number, dice, broken);
        feed.push(Command::Push { part: Part::Eit, pid: Some(0x12), section });
    }
    feed
}

/// The present/following set of an answer 5.
fn handed_out(answer: &Answer) -> Option<&Set> {
    match answer {
        Answer::Collected(5, _, Out::Set(set)) => Some(set),
        _ => None,
    }
}

/// How many sets the smaller handed out, and how many of them the larger had not.
fn follow(smaller: &[Answer], larger: &[Answer], feed: &[Command]) -> (usize, usize) {
    let (mut handed, mut missing) = (0, 0);
    let mut since_clear: Vec<&Set> = Vec::new();
    for ((small, large), command) in smaller.iter().zip(larger).zip(feed) {
        if let Command::Clear { .. } = command {
            since_clear.clear();
        }
        since_clear.extend(handed_out(large));
        if let Some(set) = handed_out(small) {
            handed += 1;
            missing += usize::from(!since_clear.contains(&set));
        }
    }
    (handed, missing)
}

/// One seed through one side with both limits.
fn tried(side: Side, seed: u64, commands: usize, broken: Option<Broken>) -> (usize, usize) {
    let mut dice = Dice::new(seed);
    let small = 1 + dice.below(3) as u16;
    let large = small + 1 + dice.below(3) as u16;
    let feed = feed(&mut dice, commands, broken);
    let answers = |limit| {
        let open = Command::Open { part: Part::Eit, limit, cells: 1000, size: 64 };
        let script: Vec<Command> = std::iter::once(open).chain(feed.iter().cloned()).collect();
        side.answers(&script).split_off(1)
    };
    let (one, other) = (answers(small), answers(large));
    match broken {
        Some(Broken::LimitNoLarger) => follow(&other, &one, &feed),
        _ => follow(&one, &other, &feed),
    }
}

/// So many seeds that obey the conditions, and as many that break each of them in turn.
pub fn compare(seeds: usize, commands: usize) -> bool {
    let mut good = true;
    for side in [Side::Original, Side::RULES, Side::Port] {
        let (mut handed, mut missing) = (0, 0);
        for seed in 0..seeds as u64 {
            let (out, not) = tried(side, seed, commands, None);
            handed += out;
            missing += not;
        }
        println!(
            "{side}: {seeds} seeds of {commands} commands that obey the conditions: the smaller handed out {handed} sets, {missing} of them not handed out by the larger"
        );
        good &= handed > 0 && missing == 0;
        for broken in Broken::ALL {
            let found = (0..seeds as u64).filter(|&seed| tried(side, seed, commands, Some(broken)).1 > 0).count();
            println!("{side}: {broken}: a counterexample in {found} of {seeds} seeds");
            good &= found > 0;
        }
    }
    good
}
