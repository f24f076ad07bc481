//! Commands as text, one a line (compare/README.md, "Scripts").
use crate::answer::{hex, pid_text};
use crate::command::{By, Command, Demux, Filter, Opening, Page, Part};
use crate::guides::Guides;
use crate::logs;
use std::fmt::{self, Display};

/// The command as a line of a script, which `parse` reads.
impl Display for Command {
    fn fmt(&self, f: &mut fmt::Formatter<'_>) -> fmt::Result {
        write!(f, "{}", self.kind())?;
        if let Some(opening) = self.opening() {
            return write!(f, "{opening}");
        }
        match self {
            Command::Input(input) => write!(f, " {input}"),
            Command::Gate { pid, section, .. } => write!(f, " {pid:04X} {}", hex(section)),
            Command::Ask { pid } => write!(f, " {pid:04X}"),
            Command::Open { limit, cells, size, .. } => write!(f, " limit={limit} cells={cells} size={size}"),
            Command::Push { pid, section, .. } => write!(f, " {} {}", pid_text(*pid), hex(section)),
            Command::PushAll { list, .. } => write!(f, " {}", hex(list)),
            Command::Demux(Demux::Streams(buffers)) => write!(f, " {buffers}"),
            Command::Demux(Demux::Packet(packet)) => write!(f, " {}", hex(packet)),
            Command::Demux(Demux::Ask(pid)) => write!(f, " {pid:04X}"),
            Command::Demux(Demux::Open(_) | Demux::Watched) | Command::GateOpen { .. } => Ok(()),
            Command::Watched | Command::Counters | Command::Pats | Command::Clear { .. } => Ok(()),
            Command::Drop(filter) => {
                if let Some(pid) = filter.pid {
                    write!(f, " pid={}", pid_text(pid))?;
                }
                if let Some(kind) = filter.kind {
                    write!(f, " kind={kind}")?;
                }
                let fields = [("sid", filter.service_id), ("tsid", filter.transport_stream_id), ("onid", filter.original_network_id)];
                for (name, field) in fields {
                    if let Some(number) = field {
                        write!(f, " {name}={number:04X}")?;
                    }
                }
                if let Some(cn) = filter.current_next {
                    write!(f, " cn={cn}")?;
                }
                if filter.this_input { write!(f, " input=this") } else { Ok(()) }
            }
            Command::Events { row, table, page } => {
                write!(f, " row={row}")?;
                if let Some(table) = table {
                    write!(f, " table={table}")?;
                }
                write!(f, "{page}")
            }
            Command::Read { section, page } => write!(f, " {}{page}", hex(section)),
            Command::Date(day) => write!(f, " {day}"),
            Command::Entries { reader, row, page } => write!(f, " reader={reader} row={row}{page}"),
            Command::ReadTable { reader, section, page } => write!(f, " {} reader={reader}{page}", hex(section)),
            Command::Guides(guides) => write!(f, "{guides}"),
            Command::Logs(logs) => write!(f, "{logs}"),
        }
    }
}

impl Display for Opening {
    fn fmt(&self, f: &mut fmt::Formatter<'_>) -> fmt::Result {
        let extra: Vec<String> = self.extra.iter().map(|pid| format!("{pid:04X}")).collect();
        write!(f, " cap={} repeats={} follow={}", self.capacity, u8::from(self.repeats), u8::from(self.follow))?;
        write!(f, " wellknown={} rule={} pats={}", u8::from(self.well_known), self.rule, u8::from(self.pats))?;
        write!(f, " extra={}", extra.join(","))
    }
}

impl Display for Page {
    fn fmt(&self, f: &mut fmt::Formatter<'_>) -> fmt::Result {
        write!(f, " skip={} room={}", self.skip, self.room)
    }
}

/// A line of a script; `None` where it is none.
pub fn parse(line: &str) -> Option<Command> {
    let words: Vec<&str> = line.split_whitespace().collect();
    let field = |name: &str| words.iter().find_map(|w| w.strip_prefix(name)?.strip_prefix('='));
    let hex16 = |text: &str| u16::from_str_radix(text, 16).ok();
    let maybe_pid = |text: &str| if text == "-" { Some(None) } else { hex16(text).map(Some) };
    let number = |name: &str, default: u32| field(name).map_or(Some(default), |text| text.parse().ok());
    let small = |name: &str, default: u16| number(name, default.into()).and_then(|n| u16::try_from(n).ok());
    let page = || Some(Page { skip: small("skip", 0)?, room: small("room", 64)? });
    let reader = || u8::try_from(small("reader", 1)?).ok();
    let flag = |name: &str, default: bool| field(name).map_or(default, |text| text == "1");
    let exact = |name: &str| match field(name) {
        None => Some(None),
        Some(text) => hex16(text).map(Some),
    };
    let opening = |capacity| {
        Some(Opening {
            capacity: number("cap", capacity)?,
            repeats: flag("repeats", false),
            follow: flag("follow", true),
            well_known: flag("wellknown", true),
            rule: number("rule", 1).filter(|&rule| rule < 4)?.into(),
            pats: flag("pats", false),
            extra: match field("extra").unwrap_or("") {
                "" => Vec::new(),
                list => list.split(',').map(hex16).collect::<Option<_>>()?,
            },
        })
    };
    let part = match *words.first()? {
        "input" => return words.get(1)?.parse().ok().map(Command::Input),
        "gate" => Part::Gate,
        "sets" => Part::Sets,
        "eit" => Part::Eit,
        "demux" => Part::Demux,
        "guides" => Part::Guides,
        "logs" => Part::Logs,
        _ => return None,
    };
    Some(match (part, *words.get(1)?) {
        (Part::Demux, "open") => Command::Demux(Demux::Open(opening(4096)?)),
        (Part::Demux, "streams") => Command::Demux(Demux::Streams(words.get(2)?.parse().ok()?)),
        (Part::Demux, "packet") => Command::Demux(Demux::Packet(unhex(words.get(2)?)?)),
        (Part::Demux, "ask") => Command::Demux(Demux::Ask(hex16(words.get(2)?)?)),
        (Part::Demux, "watched") => Command::Demux(Demux::Watched),
        (Part::Gate, "open") => opening(65_536)?.gate(),
        (Part::Gate, how @ ("section" | "offer")) => Command::Gate {
            by: if how == "section" { By::Packets } else { By::Offer },
            pid: hex16(words.get(2)?)?,
            section: unhex(words.get(3)?)?,
        },
        (Part::Gate, "ask") => Command::Ask { pid: hex16(words.get(2)?)? },
        (Part::Gate, "watched") => Command::Watched,
        (Part::Gate, "counters") => Command::Counters,
        (Part::Gate, "pats") => Command::Pats,
        (Part::Sets | Part::Eit, "open") => {
            Command::Open { part, limit: small("limit", 64)?, cells: small("cells", 64)?, size: small("size", 4096)? }
        }
        (Part::Sets | Part::Eit, "push") => Command::Push { part, pid: maybe_pid(words.get(2)?)?, section: unhex(words.get(3)?)? },
        (Part::Sets | Part::Eit, "all") => Command::PushAll { part, list: unhex(words.get(2)?)? },
        (Part::Sets | Part::Eit, "clear") => Command::Clear { part },
        (Part::Eit, "drop") => Command::Drop(Filter {
            pid: match field("pid") {
                None => None,
                Some(text) => Some(maybe_pid(text)?),
            },
            kind: match field("kind") {
                None => None,
                Some(text) => Some(text.parse().ok().filter(|&kind: &u8| kind < 4)?),
            },
            service_id: exact("sid")?,
            transport_stream_id: exact("tsid")?,
            original_network_id: exact("onid")?,
            current_next: field("cn").map(|text| u8::from(text == "1")),
            this_input: match field("input") {
                None => false,
                Some("this") => true,
                Some(_) => return None,
            },
        }),
        (Part::Sets, "entries") => Command::Entries { reader: reader()?, row: small("row", 0)?, page: page()? },
        (Part::Sets, "read") => Command::ReadTable { reader: reader()?, section: unhex(words.get(2)?)?, page: page()? },
        (Part::Eit, "events") => Command::Events { row: small("row", 0)?, table: None, page: page()? },
        (Part::Eit, "table") => {
            Command::Events { row: small("row", 0)?, table: Some(u8::try_from(small("table", 0)?).ok()?), page: page()? }
        }
        (Part::Eit, "read") => Command::Read { section: unhex(words.get(2)?)?, page: page()? },
        (Part::Eit, "date") => Command::Date(words.get(2)?.parse().ok()?),
        (Part::Guides, kind) => Command::Guides(Guides::parse(kind, words.get(2..)?, unhex, maybe_pid)?),
        (Part::Logs, kind) => Command::Logs(logs::parse(kind, words.get(2..)?, unhex, maybe_pid, number)?),
        _ => return None,
    })
}

fn unhex(text: &str) -> Option<Vec<u8>> {
    if text == "." {
        return Some(Vec::new());
    }
    let digits: Vec<u8> = text.chars().map(|c| Some(c.to_digit(16)? as u8)).collect::<Option<_>>()?;
    digits.chunks(2).map(|pair| Some(pair[0] << 4 | pair.get(1)?)).collect()
}
