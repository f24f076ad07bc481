//! docs/RULES.md, "Gate" and "Watched PIDs".
use super::Reading;
use super::collector::Collector;
use super::section::{crc, crc_fits, current, long_form, programs, programs_and_network, stored_crc, version, word};
use crate::faults::Fault;
use player::answer::{Judgement, Out};
use std::collections::BTreeSet;

/// What the gate keeps for a key.
struct Kept {
    key: u64,
    version: u8,
    change: u32,
}

pub struct Gate {
    capacity: usize,
    repeats: bool,
    follow: Follow,
    /// The change rule.
    rule: u64,
    /// In order of first arrival.
    keys: Vec<Kept>,
    /// Completed, emitted, suppressed, CRC failures, short sections, CRC mismatches, evictions.
    pub counters: [u64; 7],
}

/// What changes the watch: nothing, each changed PAT section, or complete PATs.
#[derive(Clone, Copy, PartialEq, Eq)]
pub enum Follow {
    Off,
    Sections,
    Tables,
}

impl Follow {
    pub fn of(follow: bool, pats: bool) -> Follow {
        match (follow, pats) {
            (false, _) => Follow::Off,
            (true, false) => Follow::Sections,
            (true, true) => Follow::Tables,
        }
    }
}

/// The watched PIDs of one input, and its PAT store.
pub struct Watch {
    pub watched: BTreeSet<u16>,
    protected: BTreeSet<u16>,
    followed: BTreeSet<u16>,
    /// A set collector of one key, 256 cells of 1,024 bytes.
    pub pats: Collector,
}

/// The longest section of a PAT (ISO/IEC 13818-1, 2.4.4.3).
const LONGEST_PAT: u16 = 1024;

const COMPLETED: usize = 0;
const EMITTED: usize = 1;
const SUPPRESSED: usize = 2;
const CRC_FAILURES: usize = 3;
const SHORT_SECTIONS: usize = 4;
const CRC_MISMATCHES: usize = 5;
const EVICTIONS: usize = 6;

const WELL_KNOWN: [u16; 8] = [0x0000, 0x0001, 0x0010, 0x0011, 0x0012, 0x0013, 0x0014, 0x001B];

fn pat_store(reading: &Reading) -> Collector {
    Collector::open(false, 1, 256, if reading.has(Fault::PatOverlong) { 4096 } else { LONGEST_PAT })
}

impl Watch {
    /// With the default settings but the former manner of following, and nothing in the PAT store.
    pub fn new(reading: &Reading) -> Watch {
        let protected = BTreeSet::from(WELL_KNOWN);
        Watch { watched: protected.clone(), protected, followed: BTreeSet::new(), pats: pat_store(reading) }
    }

    /// A record that nobody opened: it watches nothing.
    pub fn unopened(reading: &Reading) -> Watch {
        Watch { watched: BTreeSet::new(), protected: BTreeSet::new(), followed: BTreeSet::new(), pats: pat_store(reading) }
    }

    /// The PAT store is emptied where complete PATs are followed, and else left alone.
    pub fn open(&mut self, reading: &Reading, well_known: bool, extra: &[u16], follow: Follow) {
        self.protected = BTreeSet::from_iter(extra.iter().copied());
        if well_known {
            self.protected.extend(WELL_KNOWN);
        }
        self.watched = self.protected.clone();
        self.followed.clear();
        if follow == Follow::Tables {
            self.open_pats(reading);
        }
    }

    fn open_pats(&mut self, reading: &Reading) {
        let former = std::mem::replace(&mut self.pats, pat_store(reading));
        if reading.has(Fault::PatLeftByOpening) {
            self.pats = former;
            self.pats.rows.evictions = 0;
        } else if reading.has(Fault::PatCountLeftByOpening) {
            self.pats.rows.evictions = former.rows.evictions;
        }
    }

    pub fn watches(&self, pid: u16) -> bool {
        self.watched.contains(&pid)
    }

    fn follow_pat(&mut self, reading: &Reading, programs: BTreeSet<u16>) {
        self.watched.extend(&programs);
        for pid in self.followed.difference(&programs) {
            let stays = self.protected.contains(pid) && !reading.has(Fault::ProtectedDropped);
            if !stays && !reading.has(Fault::FormerKept) {
                self.watched.remove(pid);
            }
        }
        self.followed = programs;
    }

    /// A sound section, where complete PATs are followed: a set that is handed out is followed, and nothing else is.
    fn follow_tables(&mut self, reading: &mut Reading, from: Origin, emitted: bool, section: &[u8]) {
        let former = self.followed.clone();
        match self.enter(reading, from, emitted, section) {
            None => {}
            Some((_, Out::Set(_))) if !emitted && reading.has(Fault::PatSuppressedUnfollowed) => {}
            Some((_, Out::Set(set))) => {
                let all = all_programs(reading, &set.sections);
                self.follow_pat(reading, all);
            }
            Some((number, _)) => self.follow_too_early(reading, number, section),
        }
        if reading.has(Fault::PatDropsProtected) {
            self.watched.retain(|pid| self.followed.contains(pid) || !former.contains(pid));
        }
    }

    /// A section on PID 0 that is readable as a PAT, marked current and of at most 1,024 bytes enters the PAT store by the set rules, emitted or suppressed.
    /// `None` for every other: it enters nothing.
    fn enter(&mut self, reading: &mut Reading, from: Origin, emitted: bool, section: &[u8]) -> Option<(u8, Out)> {
        programs(reading, section)?;
        let enters = (from.pid == 0 || reading.has(Fault::PatOnAnyPid))
            && (current(section) || reading.has(Fault::PatMarkedNext))
            && (section.len() <= LONGEST_PAT.into() || reading.has(Fault::PatOverlong))
            && (emitted || !reading.has(Fault::PatSuppressed));
        let before = self.pats.rows.evictions;
        let pushed = enters.then(|| self.pats.push(reading, from.input, Some(0), section));
        if reading.has(Fault::PatEvictionUncounted) {
            self.pats.rows.evictions = before;
        }
        pushed
    }

    /// Of a section that entered and completed nothing: it changes no watch, unless by a fault.
    fn follow_too_early(&mut self, reading: &mut Reading, number: u8, section: &[u8]) {
        let own = BTreeSet::from_iter(programs(reading, section).into_iter().flatten());
        let kept = number == 4;
        if (kept && reading.has(Fault::PatSectionReplaces)) || (number == 22 && reading.has(Fault::PatConflictFollowed)) {
            self.follow_pat(reading, own);
        } else if kept && reading.has(Fault::PatIncompleteFollowed) {
            self.follow_pat(reading, &self.followed | &own);
        } else if kept && self.pats.kept() == 1 && reading.has(Fault::PatBegunForgetsFormer) {
            self.follow_pat(reading, BTreeSet::new());
        }
    }
}

/// The PIDs of all programs of a complete PAT.
fn all_programs(reading: &mut Reading, sections: &[Vec<u8>]) -> BTreeSet<u16> {
    let mut all = BTreeSet::new();
    for (at, section) in sections.iter().enumerate() {
        if at + 1 < sections.len() && reading.has(Fault::PatLastSectionOnly) {
            continue;
        }
        all.extend(programs(reading, section).into_iter().flatten());
        if at > 0 && reading.has(Fault::PatNetworkOfASecond) {
            all.extend(programs_and_network(section));
        }
    }
    all
}

/// Where a section came from.
#[derive(Clone, Copy)]
pub struct Origin {
    pub input: u8,
    pub pid: u16,
}

impl Gate {
    pub fn open(capacity: usize, repeats: bool, follow: Follow, rule: u64) -> Gate {
        Gate { capacity, repeats, follow, rule, keys: Vec::new(), counters: [0; 7] }
    }

    /// Whether complete PATs are followed.
    pub fn follows_tables(&self) -> bool {
        self.follow == Follow::Tables
    }

    /// A PAT changes the watch of its own input.
    pub fn offer(&mut self, reading: &mut Reading, watches: &mut [Watch], from: Origin, section: &[u8]) -> Judgement {
        self.counters[COMPLETED] += 1;
        if section.len() < 3 || (has_crc(reading, section) && !crc_fits(section)) {
            self.counters[CRC_FAILURES] += 1;
            let failure = failure(reading, section);
            let own = if matches!(failure, Judgement::Short(_)) { SHORT_SECTIONS } else { CRC_MISMATCHES };
            self.counters[own] += u64::from(!reading.has(Fault::FailureUncounted));
            if reading.has(Fault::FailureHeld) && section.len() >= 12 {
                self.admit(reading, kept(reading, self.rule, from, section));
            }
            if reading.has(Fault::PatFailed) && section.len() >= 12 && self.follow == Follow::Tables {
                self.follow_tables(reading, watches, from, true, section);
            }
            return failure;
        }
        let changed = self.admit(reading, kept(reading, self.rule, from, section));
        let emitted = changed || self.repeats;
        let follows = if reading.has(Fault::RepeatFollowed) { emitted } else { changed };
        match self.follow {
            Follow::Off => {}
            Follow::Sections => {
                let input = if reading.has(Fault::PatOfAnotherInput) { 0 } else { from.input };
                let watch = &mut watches[usize::from(input)];
                if reading.has(Fault::PatOfTheFormerManner) {
                    watch.enter(reading, from, emitted, section);
                }
                if follows && let Some(programs) = programs(reading, section) {
                    watch.follow_pat(reading, BTreeSet::from_iter(programs));
                }
            }
            Follow::Tables => self.follow_tables(reading, watches, from, emitted, section),
        }
        self.counters[if emitted { EMITTED } else { SUPPRESSED }] += 1;
        if emitted { Judgement::Emitted } else { Judgement::Suppressed }
    }

    fn follow_tables(&mut self, reading: &mut Reading, watches: &mut [Watch], from: Origin, emitted: bool, section: &[u8]) {
        let at = usize::from(from.input);
        exchange_stores(reading, watches, at);
        let before = watches[at].pats.rows.evictions;
        watches[at].follow_tables(reading, from, emitted, section);
        if reading.has(Fault::PatEvictionInTheGate) {
            self.counters[EVICTIONS] += watches[at].pats.rows.evictions - before;
        }
        exchange_stores(reading, watches, at);
    }

    /// Whether the key was unknown, or known with another version or change number.
    fn admit(&mut self, reading: &Reading, new: Kept) -> bool {
        if let Some(at) = self.keys.iter().position(|kept| kept.key == new.key) {
            let old = &self.keys[at];
            let changed = (old.version != new.version && !reading.has(Fault::VersionIgnored))
                || (old.change != new.change && !reading.has(Fault::ChangeIgnored));
            if reading.has(Fault::KnownKeyMoves) {
                self.keys.remove(at);
                self.keys.push(new);
            } else if !reading.has(Fault::KnownKeyStays) {
                self.keys[at] = new;
            }
            return changed;
        }
        let capacity = self.capacity + usize::from(reading.has(Fault::CapacityPlusOne));
        if self.keys.len() >= capacity && !self.keys.is_empty() {
            self.keys.remove(0);
            self.counters[EVICTIONS] += u64::from(!reading.has(Fault::EvictionUncounted));
        }
        if capacity > 0 || !reading.has(Fault::CapacityZeroHoldsNone) {
            self.keys.push(new);
        }
        true
    }
}

/// By a fault all inputs have the PAT store of input 0: it is in the place of theirs while a section enters.
fn exchange_stores(reading: &Reading, watches: &mut [Watch], at: usize) {
    if reading.has(Fault::PatStoreShared) && at > 0 {
        let (first, others) = watches.split_at_mut(1);
        std::mem::swap(&mut first[0].pats, &mut others[at - 1].pats);
    }
}

/// Long form, or a Time Offset Table.
fn has_crc(reading: &Reading, section: &[u8]) -> bool {
    long_form(section) || (section[0] == 0x73 && !reading.has(Fault::TotUnchecked))
}

/// What a section failed by: too short to hold its CRC, or the CRC stored and the CRC of the bytes before it.
fn failure(reading: &Reading, section: &[u8]) -> Judgement {
    let (bytes, stored) = section.split_at(section.len().saturating_sub(4));
    match stored.try_into().map(u32::from_be_bytes) {
        Ok(stored) if reading.has(Fault::NumbersExchanged) => Judgement::Mismatch(crc(bytes), stored),
        Ok(stored) => Judgement::Mismatch(stored, crc(bytes)),
        Err(_) if reading.has(Fault::ShortAsMismatch) => Judgement::Mismatch(0, crc(section)),
        Err(_) => Judgement::Short(section.len()),
    }
}

/// Whether a section without a header is told by the CRC that it carries.
fn by_stored_crc(reading: &Reading, rule: u64, section: &[u8]) -> bool {
    let only_the_tot = reading.has(Fault::OnlyTotStoredCrc) && section[0] != 0x73;
    let plain_too = reading.has(Fault::PlainStoredCrc) && section.len() >= 4;
    match rule {
        1 => section[0] == 0x73 && reading.has(Fault::TotStoredCrc),
        _ => (has_crc(reading, section) && !only_the_tot && !reading.has(Fault::RuleIgnored)) || plain_too,
    }
}

/// What a section is known by beside its table_id; extension, number and version are 0 where it has no header.
pub struct Parts {
    pub extension: u16,
    pub number: u8,
    pub version: u8,
    pub change: u32,
}

/// Whether there are three bytes, and room for the CRC that the form announces.
pub fn has_parts(reading: &Reading, section: &[u8]) -> bool {
    section.len() >= 3 && (section.len() >= 4 || !has_crc(reading, section))
}

/// The change number is by rule 2 the stored CRC of every section whose CRC was checked.
pub fn parts(reading: &Reading, rule: u64, section: &[u8]) -> Parts {
    let least = if reading.has(Fault::HeaderAtEleven) { 11 } else { 12 };
    let headed = long_form(section) && section.len() >= least;
    let (extension, number, version, change) = if headed {
        (word(section, 3), section[6], version(section), stored_crc(section))
    } else if by_stored_crc(reading, rule, section) {
        (0, 0, 0, stored_crc(section))
    } else {
        (0, 0, 0, crc(section))
    };
    Parts { extension, number, version, change }
}

/// The key of a section, its version and its change number.
fn kept(reading: &Reading, rule: u64, from: Origin, section: &[u8]) -> Kept {
    let Parts { extension, number, version, change } = parts(reading, rule, section);
    let number = if reading.has(Fault::NumberNotInKey) { 0 } else { number };
    let key = u64::from(from.pid) + (u64::from(section[0]) << 13) + (u64::from(extension) << 21) + (u64::from(number) << 37);
    let input = if reading.has(Fault::InputNotInKey) { 0 } else { u64::from(from.input) << 45 };
    Kept { key: key + input, version, change }
}
