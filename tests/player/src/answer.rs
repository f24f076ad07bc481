//! What an implementation answers, and the line that says it.
use crate::command::Part;
use crate::guides::Told;
use crate::logs;
use std::fmt::{self, Display, Write as _};

/// A set as it is handed out.
#[derive(Debug, PartialEq, Eq)]
pub struct Set {
    /// Compared, but not told: a set goes out with a section of its own input.
    pub input: u8,
    pub pid: Option<u16>,
    pub table_id: u8,
    pub extension: u16,
    pub current_next: bool,
    pub version: u8,
    pub last: u8,
    pub sections: Vec<Vec<u8>>,
}

#[derive(Debug, PartialEq, Eq)]
pub enum Out {
    Nothing,
    Set(Set),
    Schedule { first: u8, last: u8, sets: Vec<Set> },
}

/// How many keys were evicted and are held: of sets, and in the EIT collector of schedules.
#[derive(Debug, PartialEq, Eq)]
pub enum Held {
    Sets { evicted: u64, rows: usize },
    Eit { evicted: [u64; 2], rows: [usize; 2] },
}

/// What the gate says of a section.
#[derive(Clone, Copy, Debug, PartialEq, Eq)]
pub enum Judgement {
    Emitted,
    Suppressed,
    /// The CRC stored and the CRC worked out.
    Mismatch(u32, u32),
    /// How many bytes were offered.
    Short(usize),
}

impl Judgement {
    pub fn number(self) -> u8 {
        match self {
            Judgement::Emitted => 1,
            Judgement::Suppressed => 2,
            Judgement::Mismatch(..) => 3,
            Judgement::Short(_) => 31,
        }
    }

    /// The word that the programs print.
    pub fn word(self) -> &'static str {
        match self {
            Judgement::Emitted => "emitted",
            Judgement::Suppressed => "suppressed",
            Judgement::Mismatch(..) => "mismatch",
            Judgement::Short(_) => "short",
        }
    }
}

/// A section that a packet finished.
#[derive(Clone, Debug, PartialEq, Eq)]
pub struct Finished {
    pub judgement: Judgement,
    /// Where its bytes are: in the section buffers, or in the packet; and its first byte there. Compared, but not told.
    pub in_buffers: bool,
    pub start: u64,
    pub bytes: Vec<u8>,
}

/// What the packet layer says of a packet that it counted: 29, 30 or 43.
#[derive(Clone, Debug, PartialEq, Eq)]
pub struct Fed {
    pub number: u8,
    /// Packets and malformed packets of the input.
    pub packets: [u64; 2],
    /// The seven counters of the gate.
    pub counters: [u64; 7],
    /// How many sections were finished, and each of them.
    pub count: u64,
    pub sections: Vec<Finished>,
}

#[derive(Debug, PartialEq, Eq)]
pub enum Answer {
    /// The input that is current from now on.
    Input(u8),
    /// A number alone.
    Number(Part, u8),
    /// The gate's answer to a section, with completed, emitted, suppressed, CRC failures and evictions.
    Judged(Judgement, [u64; 5]),
    /// The seven counters: the five, with short sections and CRC mismatches before evictions.
    Counters([u64; 7]),
    /// Of the PAT store of the input.
    Pats {
        evicted: u64,
        rows: u64,
    },
    /// No packet of this PID is looked at.
    Unwatched,
    /// No packets bring these bytes as one section.
    Undeliverable,
    Watched(Part, Vec<u16>),
    /// A collector's answer to a section or a filter.
    Collected(u8, Held, Out),
    /// The same to the sections of a list, of which so many bytes were taken.
    Taken(u64, Box<Answer>),
    Fed(Fed),
    /// What a question for entries answers; where it tells anything (all but 10 and 14), how many there are, the section and the place where the listing ended, and
    /// the words of the entries of the page.
    Entries(Part, u8, Option<([u64; 3], Vec<[u32; 12]>)>),
    /// A calendar date in eight decimal digits, or 0.
    Date(u32),
    Guides(Told),
    Logs(logs::Told),
}

impl Answer {
    /// The number, and whose answer it is.
    pub fn number(&self) -> Option<(Part, u8)> {
        match self {
            Answer::Number(part, n) => Some((*part, *n)),
            Answer::Judged(judgement, _) => Some((Part::Gate, judgement.number())),
            Answer::Collected(n, Held::Sets { .. }, _) => Some((Part::Sets, *n)),
            Answer::Collected(n, Held::Eit { .. }, _) => Some((Part::Eit, *n)),
            Answer::Taken(_, answer) => answer.number(),
            Answer::Fed(fed) => Some((Part::Demux, fed.number)),
            Answer::Entries(part, n, _) => Some((*part, *n)),
            Answer::Guides(told) => Some((Part::Guides, told.number())),
            Answer::Logs(told) => Some((Part::Logs, told.number())),
            Answer::Input(_) | Answer::Unwatched | Answer::Undeliverable | Answer::Watched(..) | Answer::Date(_) => None,
            Answer::Counters(_) | Answer::Pats { .. } => None,
        }
    }
}

impl Display for Part {
    fn fmt(&self, f: &mut fmt::Formatter<'_>) -> fmt::Result {
        f.write_str(self.name())
    }
}

impl Display for Set {
    fn fmt(&self, f: &mut fmt::Formatter<'_>) -> fmt::Result {
        write!(f, " [set pid={} tid={:02X} ext={:04X}", pid_text(self.pid), self.table_id, self.extension)?;
        write!(f, " cn={} ver={} last={}", u8::from(self.current_next), self.version, self.last)?;
        write!(f, " n={}", self.sections.len())?;
        self.sections.iter().try_for_each(|section| write!(f, " {}", hex(section)))?;
        f.write_str("]")
    }
}

impl Display for Out {
    fn fmt(&self, f: &mut fmt::Formatter<'_>) -> fmt::Result {
        match self {
            Out::Nothing => Ok(()),
            Out::Set(set) => write!(f, "{set}"),
            Out::Schedule { first, last, sets } => {
                write!(f, " [sched {first:02X}-{last:02X}")?;
                sets.iter().try_for_each(|set| write!(f, "{set}"))?;
                f.write_str("]")
            }
        }
    }
}

/// With 29 how many sections were finished comes first, and the gate's counters and each section stand behind.
impl Display for Fed {
    fn fmt(&self, f: &mut fmt::Formatter<'_>) -> fmt::Result {
        let [packets, malformed] = self.packets;
        if self.number != 29 {
            return write!(f, "demux {} {packets} {malformed}", self.number);
        }
        write!(f, "demux 29 {} {packets} {malformed}", self.count)?;
        self.counters.iter().try_for_each(|count| write!(f, " {count}"))?;
        self.sections.iter().try_for_each(|section| write!(f, "{section}"))
    }
}

impl Display for Finished {
    fn fmt(&self, f: &mut fmt::Formatter<'_>) -> fmt::Result {
        write!(f, " [{}", self.judgement.number())?;
        match self.judgement {
            Judgement::Emitted | Judgement::Suppressed => {}
            Judgement::Mismatch(stored, worked) => write!(f, " {stored:08X} {worked:08X}")?,
            Judgement::Short(length) => write!(f, " {length}")?,
        }
        write!(f, " {}]", hex(&self.bytes))
    }
}

impl Display for Answer {
    fn fmt(&self, f: &mut fmt::Formatter<'_>) -> fmt::Result {
        match self {
            Answer::Input(input) => write!(f, "input {input}"),
            Answer::Number(part, n) => write!(f, "{part} {n}"),
            Answer::Judged(judgement, [completed, emitted, suppressed, crc, evicted]) => {
                write!(f, "gate {} {completed} {emitted} {suppressed} {crc} {evicted}", judgement.number())?;
                match judgement {
                    Judgement::Emitted | Judgement::Suppressed => Ok(()),
                    Judgement::Mismatch(stored, worked) => write!(f, " {stored:08X} {worked:08X}"),
                    Judgement::Short(length) => write!(f, " {length}"),
                }
            }
            Answer::Counters(counters) => {
                f.write_str("gate counters")?;
                counters.iter().try_for_each(|count| write!(f, " {count}"))
            }
            Answer::Pats { evicted, rows } => write!(f, "gate pats ev={evicted} rows={rows}"),
            Answer::Unwatched => f.write_str("gate unwatched"),
            Answer::Undeliverable => f.write_str("gate undeliverable"),
            Answer::Watched(part, pids) => {
                write!(f, "{part} watched")?;
                pids.iter().try_for_each(|pid| write!(f, " {pid:04X}"))
            }
            Answer::Collected(n, Held::Sets { evicted, rows }, out) => write!(f, "sets {n} ev={evicted} rows={rows}{out}"),
            Answer::Collected(n, Held::Eit { evicted: [e, s], rows: [r, t] }, out) => {
                write!(f, "eit {n} ev={e}/{s} rows={r}/{t}{out}")
            }
            Answer::Taken(taken, answer) => write!(f, "{answer} taken={taken}"),
            Answer::Fed(fed) => write!(f, "{fed}"),
            Answer::Entries(part, n, None) => write!(f, "{part} {n}"),
            Answer::Entries(part, n, Some(([count, section, place], entries))) => {
                write!(f, "{part} {n} count={count} section={section} place={place}")?;
                entries.iter().try_for_each(|words| write!(f, " [{}]", words.map(|word| word.to_string()).join(" ")))
            }
            Answer::Date(date) => write!(f, "eit date {date}"),
            Answer::Guides(told) => write!(f, "{told}"),
            Answer::Logs(told) => write!(f, "{told}"),
        }
    }
}

/// Bytes in upper-case hexadecimal; a section of no bytes is a point.
pub fn hex(bytes: &[u8]) -> String {
    let mut text = String::with_capacity(2 * bytes.len());
    for byte in bytes {
        let _ = write!(text, "{byte:02X}");
    }
    if text.is_empty() { ".".into() } else { text }
}

pub fn pid_text(pid: Option<u16>) -> String {
    pid.map_or("-".into(), |pid| format!("{pid:04X}"))
}
