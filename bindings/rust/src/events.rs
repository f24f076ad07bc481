//! What a guide says: its events, and its networks, bouquets and services, each with its descriptors, entry by entry.
use crate::calls::{self, Entry, Listed};
use crate::{Answer, ENTRY_WORDS, Refused};

/// Every entry that could be listed, in section order and then byte order, and what ended the listing early, if anything did.
#[derive(Debug, Clone, Default, PartialEq, Eq)]
pub struct Listing {
    pub entries: Vec<Entry>,
    pub ended: Option<Ended>,
}

/// Why the listing ended early (32; of a single section also 18 and 19), or why nothing is listed (35, 36), the section's number and the byte in it.
#[derive(Debug, Clone, Copy, PartialEq, Eq)]
pub struct Ended {
    pub answer: Answer,
    pub section: u64,
    pub place: u64,
}

/// The events of a section, which need not have come through a collector.
pub fn events(section: &[u8]) -> Result<Listing, Refused> {
    listing(|list, listed| calls::events(section, 0, list, listed))
}

/// The entries of a section by the reader `NIT`, `BAT` or `SDT`; the section need not have come through a collector.
pub fn entries(reader: u32, section: &[u8]) -> Result<Listing, Refused> {
    listing(|list, listed| calls::entries(reader, section, 0, list, listed))
}

/// Asks how many entries there are, and then for all of them.
pub(crate) fn listing(mut ask: impl FnMut(&mut [u32], &mut Listed) -> Answer) -> Result<Listing, Refused> {
    let mut listed = Listed::default();
    let answer = ask(&mut [], &mut listed);
    if matches!(answer, Answer::NOT_WHOLE | Answer::MALFORMED) {
        return Err(Refused(answer));
    }
    let mut list = vec![0; listed.count as usize * ENTRY_WORDS];
    ask(&mut list, &mut listed);
    let (entries, _) = list.as_chunks();
    let ended = !matches!(answer, Answer::YES | Answer::NO);
    let Listed { section, place, .. } = listed;
    Ok(Listing { entries: entries.iter().map(Entry::of).collect(), ended: ended.then_some(Ended { answer, section, place }) })
}
