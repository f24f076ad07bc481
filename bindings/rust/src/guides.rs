//! Two guides compared: where two copies of one table, or of one schedule, differ.
use crate::calls::{self, Compared, Difference, HeldByOne};
use crate::rows::pid_word;
use crate::{Answer, DIFFERENCE_WORDS, MOST_DIFFERENCES, Refused};

/// Where two sets differ, by rising number, and whether their versions and last numbers agree.
#[derive(Debug, Clone, PartialEq, Eq)]
pub struct Differences {
    pub list: Vec<Difference>,
    pub versions: bool,
    pub lasts: bool,
}

/// Of two schedules: a word for each of the kind's 16 tables (include/petrizolu.h), and the differences by rising table_id and number.
#[derive(Debug, Clone, PartialEq, Eq)]
pub struct ScheduleDifferences {
    pub tables: [u32; 16],
    pub differences: Differences,
}

/// Compares two sets, each as its sections by rising number, with the PID that it came on; without one they are refused (41).
pub fn compare(first: &[u8], first_pid: Option<u16>, second: &[u8], second_pid: Option<u16>) -> Result<Differences, Refused> {
    differences(MOST_DIFFERENCES, |list, compared| calls::compare(first, pid_word(first_pid), second, pid_word(second_pid), list, compared))
}

/// Compares two schedules, each as the sections of its tables by rising table_id and number.
pub fn compare_schedules(
    first: &[u8],
    first_pid: Option<u16>,
    second: &[u8],
    second_pid: Option<u16>,
) -> Result<ScheduleDifferences, Refused> {
    let mut tables = [0; 16];
    let found = differences(16 * MOST_DIFFERENCES, |list, compared| {
        calls::compare_schedules(first, pid_word(first_pid), second, pid_word(second_pid), &mut tables, list, compared)
    });
    found.map(|differences| ScheduleDifferences { tables, differences })
}

/// The section of a number that exactly one of two sets holds, and whether it is the first; empty bytes are a set without sections here.
pub fn held_by_one<'a>(first: &'a [u8], second: &'a [u8], number: u8) -> Result<Option<(bool, &'a [u8])>, Refused> {
    let mut held = HeldByOne::default();
    match calls::held_by_one(first, second, number.into(), &mut held) {
        Answer::YES => {
            let is_first = held.side == 1;
            let side = if is_first { first } else { second };
            Ok(Some((is_first, &side[held.start as usize..][..held.length as usize])))
        }
        Answer::NO => Ok(None),
        refusal => Err(Refused(refusal)),
    }
}

/// Asks with room for as many as there can be.
fn differences(most: usize, ask: impl FnOnce(&mut [u32], &mut Compared) -> Answer) -> Result<Differences, Refused> {
    let mut list = vec![0; most * DIFFERENCE_WORDS];
    let mut compared = Compared::default();
    match ask(&mut list, &mut compared) {
        Answer::YES | Answer::NO => {
            let (entries, _) = list.as_chunks::<DIFFERENCE_WORDS>();
            let list = entries[..compared.count as usize].iter().map(|&[table_id, number, kind, place]| Difference {
                table_id,
                number,
                kind,
                place,
            });
            Ok(Differences { list: list.collect(), versions: compared.versions == 1, lasts: compared.lasts == 1 })
        }
        refusal => Err(Refused(refusal)),
    }
}
