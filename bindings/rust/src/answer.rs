//! The numbers that a call answers with.
use std::fmt::{self, Display};

/// A number of enum petrizolu_answer.
#[derive(Debug, Clone, Copy, PartialEq, Eq, PartialOrd, Ord)]
pub struct Answer(pub u8);

impl Answer {
    pub const EMITTED: Self = Self(1);
    pub const SUPPRESSED: Self = Self(2);
    pub const CRC_MISMATCH: Self = Self(3);
    pub const NOTHING: Self = Self(4);
    pub const SET: Self = Self(5);
    pub const SCHEDULE: Self = Self(6);
    pub const DONE: Self = Self(7);
    pub const YES: Self = Self(8);
    pub const NO: Self = Self(9);
    pub const NOT_WHOLE: Self = Self(10);
    pub const COUNTER_FULL: Self = Self(11);
    pub const BAD_PID: Self = Self(12);
    pub const TOO_LITTLE: Self = Self(13);
    pub const MALFORMED: Self = Self(14);
    pub const SHORT_FORM: Self = Self(15);
    pub const BAD_NUMBER: Self = Self(16);
    pub const BAD_CRC: Self = Self(17);
    pub const NOT_EIT: Self = Self(18);
    pub const BROKEN_EIT: Self = Self(19);
    pub const TOO_LONG: Self = Self(20);
    pub const NO_CELL: Self = Self(21);
    pub const CONFLICT: Self = Self(22);
    pub const RANGE: Self = Self(23);
    pub const FED: Self = Self(29);
    pub const MALFORMED_PACKET: Self = Self(30);
    pub const TOO_SHORT: Self = Self(31);
    pub const PAST_LOOP: Self = Self(32);
    pub const OTHER_KEY: Self = Self(33);
    pub const NO_ROOM: Self = Self(34);
    pub const OTHER_TABLE: Self = Self(35);
    pub const BROKEN_LOOP: Self = Self(36);
    pub const BAD_INPUT: Self = Self(37);
    pub const UNKNOWN_KIND: Self = Self(38);
    pub const RECORD_CUT: Self = Self(39);
    pub const OTHER_RECORD: Self = Self(40);
    pub const NO_PID_GIVEN: Self = Self(41);
    pub const OVERLONG_SECTION: Self = Self(42);
    pub const NO_BUFFER: Self = Self(43);
    pub const NO_LOG_ROOM: Self = Self(44);

    /// `Ok` where the answer is 7.
    pub(crate) fn done(self) -> Result<(), Refused> {
        match self {
            Self::DONE => Ok(()),
            other => Err(Refused(other)),
        }
    }
}

impl Display for Answer {
    fn fmt(&self, f: &mut fmt::Formatter<'_>) -> fmt::Result {
        self.0.fmt(f)
    }
}

/// An answer that is a refusal.
#[derive(Debug, Clone, Copy, PartialEq, Eq)]
pub struct Refused(pub Answer);

impl Display for Refused {
    fn fmt(&self, f: &mut fmt::Formatter<'_>) -> fmt::Result {
        write!(f, "refused: {}", self.0)
    }
}

impl std::error::Error for Refused {}
