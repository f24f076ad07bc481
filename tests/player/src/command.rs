//! What an implementation is asked.
use crate::guides::Guides;
use crate::logs::Logs;

#[derive(Clone, Copy, Debug, PartialEq, Eq, PartialOrd, Ord)]
pub enum Part {
    Gate,
    Sets,
    Eit,
    /// The packet layer, with a gate of its own.
    Demux,
    /// Two guides compared; nothing is kept.
    Guides,
    /// Logs, checked, written and read; nothing is kept.
    Logs,
}

impl Part {
    /// The word that its commands and its lines begin with.
    pub fn name(self) -> &'static str {
        match self {
            Part::Gate => "gate",
            Part::Sets => "sets",
            Part::Eit => "eit",
            Part::Demux => "demux",
            Part::Guides => "guides",
            Part::Logs => "logs",
        }
    }
}

/// What a gate and the watch of an input are opened with.
#[derive(Clone, Debug)]
pub struct Opening {
    pub capacity: u32,
    pub repeats: bool,
    pub follow: bool,
    pub well_known: bool,
    pub rule: u64,
    /// Complete PATs are followed, in place of each changed section; nothing where following is off.
    pub pats: bool,
    pub extra: Vec<u16>,
}

impl Opening {
    /// As a command of the gate.
    pub fn gate(self) -> Command {
        let Opening { capacity, repeats, follow, well_known, rule, pats, extra } = self;
        Command::GateOpen { capacity, repeats, follow, well_known, rule, pats, extra }
    }
}

/// The commands of the packet layer.
#[derive(Clone, Debug)]
pub enum Demux {
    /// The gate, and the watch of the input.
    Open(Opening),
    /// The streams of the input, with so many section buffers.
    Streams(u16),
    Packet(Vec<u8>),
    Ask(u16),
    Watched,
}

/// The filter of `eit drop`: what is `None` is free. A PID may be asked to be none. A kind above 3 or a current_next above 1 matches nothing.
#[derive(Clone, Copy, Debug, Default)]
pub struct Filter {
    pub pid: Option<Option<u16>>,
    pub kind: Option<u8>,
    pub service_id: Option<u16>,
    pub transport_stream_id: Option<u16>,
    pub original_network_id: Option<u16>,
    pub current_next: Option<u8>,
    /// Exactly the input that is current.
    pub this_input: bool,
}

/// How a section comes to the gate: in packets, so only on a watched PID, or straight to it.
#[derive(Clone, Copy, Debug, PartialEq, Eq)]
pub enum By {
    Packets,
    Offer,
}

/// The commands after `Input` are on this input, until the next one; those before the first are on input 0.
#[derive(Clone, Debug)]
pub enum Command {
    Input(u8),
    /// `pats` says how PATs are followed where they are: complete PATs on PID 0, or, without it, each changed section.
    GateOpen {
        capacity: u32,
        repeats: bool,
        follow: bool,
        well_known: bool,
        rule: u64,
        pats: bool,
        extra: Vec<u16>,
    },
    Gate {
        by: By,
        pid: u16,
        section: Vec<u8>,
    },
    Ask {
        pid: u16,
    },
    Watched,
    Counters,
    /// How many rows the PAT store of the input has in use, and how many left it.
    Pats,
    Open {
        part: Part,
        limit: u16,
        cells: u16,
        size: u16,
    },
    Push {
        part: Part,
        pid: Option<u16>,
        section: Vec<u8>,
    },
    /// The sections of a list, each with its input and its PID.
    PushAll {
        part: Part,
        list: Vec<u8>,
    },
    Clear {
        part: Part,
    },
    Drop(Filter),
    Demux(Demux),
    /// What the set in a row says, or, with a table, that table of the schedule in a row.
    Events {
        row: u16,
        table: Option<u8>,
        page: Page,
    },
    /// What one section says.
    Read {
        section: Vec<u8>,
        page: Page,
    },
    /// The calendar date of a day.
    Date(u32),
    /// What the set in a row of the set collector says, by a reader: 1 networks', 2 bouquets', 3 services'.
    Entries {
        reader: u8,
        row: u16,
        page: Page,
    },
    /// What one section says by a reader.
    ReadTable {
        reader: u8,
        section: Vec<u8>,
        page: Page,
    },
    Guides(Guides),
    Logs(Logs),
}

/// Entries from `skip` on, as many as there is room for.
#[derive(Clone, Copy, Debug)]
pub struct Page {
    pub skip: u16,
    pub room: u16,
}

impl Command {
    /// Whose command it is; a change of the input is for all.
    pub fn part(&self) -> Option<Part> {
        match self {
            Command::Input(_) => None,
            Command::GateOpen { .. } | Command::Gate { .. } | Command::Ask { .. } => Some(Part::Gate),
            Command::Watched | Command::Counters | Command::Pats => Some(Part::Gate),
            Command::Open { part, .. } | Command::Push { part, .. } | Command::PushAll { part, .. } | Command::Clear { part } => {
                Some(*part)
            }
            Command::Drop(_) | Command::Events { .. } | Command::Read { .. } | Command::Date(_) => Some(Part::Eit),
            Command::Entries { .. } | Command::ReadTable { .. } => Some(Part::Sets),
            Command::Demux(_) => Some(Part::Demux),
            Command::Guides(_) => Some(Part::Guides),
            Command::Logs(_) => Some(Part::Logs),
        }
    }

    /// What an opening of a gate opens it with.
    pub fn opening(&self) -> Option<Opening> {
        match self {
            Command::GateOpen { capacity, repeats, follow, well_known, rule, pats, extra } => Some(Opening {
                capacity: *capacity,
                repeats: *repeats,
                follow: *follow,
                well_known: *well_known,
                rule: *rule,
                pats: *pats,
                extra: extra.clone(),
            }),
            Command::Demux(Demux::Open(opening)) => Some(opening.clone()),
            _ => None,
        }
    }

    /// The words a command begins with in a script.
    pub fn kind(&self) -> &'static str {
        match self {
            Command::Input(_) => "input",
            Command::GateOpen { .. } => "gate open",
            Command::Gate { by: By::Packets, .. } => "gate section",
            Command::Gate { by: By::Offer, .. } => "gate offer",
            Command::Ask { .. } => "gate ask",
            Command::Watched => "gate watched",
            Command::Counters => "gate counters",
            Command::Pats => "gate pats",
            Command::Open { part: Part::Eit, .. } => "eit open",
            Command::Open { .. } => "sets open",
            Command::Push { part: Part::Eit, .. } => "eit push",
            Command::Push { .. } => "sets push",
            Command::PushAll { part: Part::Eit, .. } => "eit all",
            Command::PushAll { .. } => "sets all",
            Command::Clear { part: Part::Eit } => "eit clear",
            Command::Clear { .. } => "sets clear",
            Command::Drop(_) => "eit drop",
            Command::Demux(Demux::Open(_)) => "demux open",
            Command::Demux(Demux::Streams(_)) => "demux streams",
            Command::Demux(Demux::Packet(_)) => "demux packet",
            Command::Demux(Demux::Ask(_)) => "demux ask",
            Command::Demux(Demux::Watched) => "demux watched",
            Command::Events { table: None, .. } => "eit events",
            Command::Events { .. } => "eit table",
            Command::Read { .. } => "eit read",
            Command::Date(_) => "eit date",
            Command::Entries { .. } => "sets entries",
            Command::ReadTable { .. } => "sets read",
            Command::Guides(guides) => guides.kind(),
            Command::Logs(logs) => logs.kind(),
        }
    }
}
