//! Packet identifiers.
use core::fmt;

#[derive(Debug, Clone, Copy, PartialEq, Eq, Hash, PartialOrd, Ord)]
pub struct Pid(u16);

impl Pid {
    /// What the original's does with 8192 and above is not known: the harness never asks.
    pub const fn new(value: u16) -> Pid {
        assert!(value < 8192);
        Pid(value)
    }

    pub const fn value(self) -> u16 {
        self.0
    }
}

impl fmt::Display for Pid {
    fn fmt(&self, f: &mut fmt::Formatter<'_>) -> fmt::Result {
        write!(f, "{:#06x}", self.0)
    }
}

/// docs/RULES.md, "Watched PIDs".
pub mod well_known {
    use super::Pid;

    pub const PAT: Pid = Pid::new(0x0000);
    pub const CAT: Pid = Pid::new(0x0001);
    pub const NIT: Pid = Pid::new(0x0010);
    pub const SDT_BAT: Pid = Pid::new(0x0011);
    pub const EIT: Pid = Pid::new(0x0012);
    pub const RST: Pid = Pid::new(0x0013);
    pub const TDT_TOT: Pid = Pid::new(0x0014);
    pub const SAT: Pid = Pid::new(0x001B);
}
