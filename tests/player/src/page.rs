//! A page of entries over lent memory.
use crate::answer::Answer;
use crate::command::{Page, Part};
use petrizolu::{Answer as Number, ENTRY_WORDS, Listed};

/// Asks for a page of entries. The list has room for them and for a part of one more; words behind the last entry, and all where nothing is told, stay as they were.
pub(crate) fn entries(part: Part, page: &Page, ask: impl FnOnce(u64, &mut [u32], &mut Listed) -> Number) -> Answer {
    const BEFORE: u32 = 0xA5A5_A5A5;
    let untold = Listed { count: u64::MAX, section: u64::MAX, place: u64::MAX };
    let room = usize::from(page.room);
    let mut list = vec![BEFORE; room * ENTRY_WORDS + usize::from(page.skip) % ENTRY_WORDS];
    let mut listed = untold;
    let number = ask(page.skip.into(), &mut list, &mut listed);
    let tells = !matches!(number, Number::NOT_WHOLE | Number::MALFORMED);
    let shown = if tells { listed.count.saturating_sub(page.skip.into()).min(room as u64) as usize } else { 0 };
    let (entries, behind) = list.split_at(shown * ENTRY_WORDS);
    assert!(behind.iter().all(|&word| word == BEFORE), "{number}: words behind the last entry were written");
    assert_eq!(listed == untold, !tells, "{number}: what is told of the listing");
    let (entries, _) = entries.as_chunks();
    Answer::Entries(part, number.0, tells.then(|| ([listed.count, listed.section, listed.place], entries.to_vec())))
}
