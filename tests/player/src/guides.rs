//! Two guides compared: what is asked and told, as text and on a tape, and the library behind it.
use crate::answer::{hex, pid_text};
use petrizolu::{Answer as Number, Compared, DIFFERENCE_WORDS, HeldByOne, NO_PID, calls};
use std::fmt::{self, Display};

/// The sections of a table, or of a schedule, and the PID that they came on.
#[derive(Clone, Debug, PartialEq, Eq)]
pub struct Copy {
    pub pid: Option<u16>,
    pub bytes: Vec<u8>,
}

#[derive(Clone, Debug)]
pub enum Guides {
    /// Two sets, or two schedules, into a list of so many words.
    Compare { schedules: bool, words: u16, sides: [Copy; 2] },
    /// The section of a number that one of two sets alone holds.
    Held { number: u16, sides: [Vec<u8>; 2] },
}

/// What is answered; `told` is what 8, 9 and 34 tell (of one section 8 alone), `tables` what 8 and 9 say of two schedules.
#[derive(Clone, Debug, PartialEq, Eq)]
pub enum Told {
    Compared { number: u8, told: Option<[u64; 3]>, tables: Option<[u32; 16]>, list: Vec<[u32; DIFFERENCE_WORDS]> },
    Held { number: u8, told: Option<[u64; 3]> },
}

impl Told {
    pub fn number(&self) -> u8 {
        match self {
            Told::Compared { number, .. } | Told::Held { number, .. } => *number,
        }
    }
}

impl Guides {
    pub fn kind(&self) -> &'static str {
        match self {
            Guides::Compare { schedules: false, .. } => "guides sets",
            Guides::Compare { .. } => "guides schedules",
            Guides::Held { .. } => "guides held",
        }
    }

    /// What stands in a script behind the kind; of two sides the first before the second.
    pub fn parse(
        kind: &str,
        words: &[&str],
        hex: impl Fn(&str) -> Option<Vec<u8>>,
        pid: impl Fn(&str) -> Option<Option<u16>>,
    ) -> Option<Guides> {
        Some(match (kind, words) {
            ("held", [number, first, second]) => Guides::Held { number: number.parse().ok()?, sides: [hex(first)?, hex(second)?] },
            (kind @ ("sets" | "schedules"), [room, p, first, q, second]) => Guides::Compare {
                schedules: kind == "schedules",
                words: room.strip_prefix("words=")?.parse().ok()?,
                sides: [Copy { pid: pid(p)?, bytes: hex(first)? }, Copy { pid: pid(q)?, bytes: hex(second)? }],
            },
            _ => return None,
        })
    }

    /// Asks the library.
    pub fn ask(&self) -> Told {
        match self {
            Guides::Compare { schedules, words, sides } => compare(*schedules, (*words).into(), sides),
            Guides::Held { number, sides: [first, second] } => {
                let untold = HeldByOne { side: u64::MAX, start: u64::MAX, length: u64::MAX };
                let mut held = untold;
                let number = calls::held_by_one(first, second, (*number).into(), &mut held);
                assert_eq!(held != untold, number == Number::YES, "{number}: what is told of the section");
                Told::Held { number: number.0, told: (held != untold).then_some([held.side, held.start, held.length]) }
            }
        }
    }
}

/// Words behind the last difference, and all where nothing is listed, stay as they were; of the words of tables all are written or none.
fn compare(schedules: bool, words: usize, [first, second]: &[Copy; 2]) -> Told {
    const BEFORE: u32 = 0xA5A5_A5A5;
    let untold = Compared { count: u64::MAX, versions: u64::MAX, lasts: u64::MAX };
    let mut list = vec![BEFORE; words];
    let mut tables = [BEFORE; 16];
    let mut compared = untold;
    let [p, q] = [first, second].map(|copy| copy.pid.map_or(NO_PID, u32::from));
    let number = if schedules {
        calls::compare_schedules(&first.bytes, p, &second.bytes, q, &mut tables, &mut list, &mut compared)
    } else {
        calls::compare(&first.bytes, p, &second.bytes, q, &mut list, &mut compared)
    };
    let listed = matches!(number, Number::YES | Number::NO);
    let shown = if listed { compared.count as usize } else { 0 };
    let (entries, behind) = list.split_at(shown * DIFFERENCE_WORDS);
    assert!(behind.iter().all(|&word| word == BEFORE), "{number}: words behind the last difference were written");
    assert_eq!(compared != untold, listed || number == Number::NO_ROOM, "{number}: what is told of the comparison");
    assert!(tables == [BEFORE; 16] || listed && schedules && !tables.contains(&BEFORE), "{number}: the words of the tables");
    let (entries, _) = entries.as_chunks();
    Told::Compared {
        number: number.0,
        told: (compared != untold).then_some([compared.count, compared.versions, compared.lasts]),
        tables: (listed && schedules).then_some(tables),
        list: entries.to_vec(),
    }
}

// ---- as text

impl Display for Guides {
    fn fmt(&self, f: &mut fmt::Formatter<'_>) -> fmt::Result {
        match self {
            Guides::Compare { words, sides, .. } => {
                write!(f, " words={words}")?;
                sides.iter().try_for_each(|copy| write!(f, " {} {}", pid_text(copy.pid), hex(&copy.bytes)))
            }
            Guides::Held { number, sides: [first, second] } => write!(f, " {number} {} {}", hex(first), hex(second)),
        }
    }
}

impl Display for Told {
    fn fmt(&self, f: &mut fmt::Formatter<'_>) -> fmt::Result {
        write!(f, "guides {}", self.number())?;
        match self {
            Told::Compared { told, tables, list, .. } => {
                if let Some([count, versions, lasts]) = told {
                    write!(f, " count={count} versions={versions} lasts={lasts}")?;
                }
                if let Some(tables) = tables {
                    write!(f, " tables={}", tables.map(|word| word.to_string()).join(","))?;
                }
                list.iter().try_for_each(|words| write!(f, " [{}]", words.map(|word| word.to_string()).join(" ")))
            }
            Told::Held { told: Some([side, start, length]), .. } => write!(f, " side={side} start={start} length={length}"),
            Told::Held { told: None, .. } => Ok(()),
        }
    }
}

// ---- on a tape

/// What a tape has of each kind, in this order; `pid` reads a PID or none, `section` a length and bytes.
pub fn read<R, E>(
    first: u8,
    tape: &mut R,
    short: fn(&mut R) -> Result<u16, E>,
    pid: fn(&mut R) -> Result<Option<u16>, E>,
    section: fn(&mut R) -> Result<Vec<u8>, E>,
) -> Result<Guides, E> {
    if first == 0x62 {
        return Ok(Guides::Held { number: short(tape)?, sides: [section(tape)?, section(tape)?] });
    }
    let words = short(tape)?;
    let mut copy = || Ok(Copy { pid: pid(tape)?, bytes: section(tape)? });
    Ok(Guides::Compare { schedules: first == 0x61, words, sides: [copy()?, copy()?] })
}

/// A set longer than 65,535 bytes is not for a tape.
pub fn write(guides: &Guides, tape: &mut Vec<u8>, no_pid: u16) {
    let bytes = |tape: &mut Vec<u8>, bytes: &[u8]| {
        tape.extend(u16::try_from(bytes.len()).expect("at most 65,535 bytes").to_be_bytes());
        tape.extend(bytes);
    };
    match guides {
        Guides::Compare { schedules, words, sides } => {
            tape.push(0x60 + u8::from(*schedules));
            tape.extend(words.to_be_bytes());
            for copy in sides {
                tape.extend(copy.pid.unwrap_or(no_pid).to_be_bytes());
                bytes(tape, &copy.bytes);
            }
        }
        Guides::Held { number, sides } => {
            tape.push(0x62);
            tape.extend(number.to_be_bytes());
            sides.iter().for_each(|side| bytes(tape, side));
        }
    }
}
