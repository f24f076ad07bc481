//! The library behind the commands.
use crate::answer::Answer;
use crate::command::{Command, Part};
use crate::demux::Demuxes;
use crate::eit::Eit;
use crate::gate::{Differs, Gates};
use crate::logs::Memory;
use crate::sets::Sets;

/// As many rows and bytes of cells as a collector is lent; a gate has rows for the default capacity.
const ROWS: usize = 64;
const CELLS: usize = 1 << 20;

pub struct Port {
    /// The input that is current.
    input: u8,
    pub gates: Gates,
    pub sets: Sets,
    pub eit: Eit,
    /// The packet layer, from its first command on.
    demux: Option<Box<Demuxes>>,
    /// The memory of a run that checks or writes a log, from the first on; what it holds is not to matter.
    run: Option<Box<Memory>>,
    byte: u8,
}

impl Port {
    /// A gate with the default settings is open, and the watch record of each input; the collectors are not, and answer 10 until they are. Input 0 is
    /// current.
    pub fn begin() -> Self {
        Self::on_bytes(0)
    }

    /// The same on memory whose bytes were all `byte` before: what it held is not to matter.
    pub fn on_bytes(byte: u8) -> Self {
        Self {
            input: 0,
            gates: Gates::begin(byte),
            sets: Sets::lend(ROWS, CELLS, byte),
            eit: Eit::lend(ROWS, CELLS, byte),
            demux: None,
            run: None,
            byte,
        }
    }

    pub fn answer(&mut self, command: &Command) -> Result<Answer, Differs> {
        if let Command::Input(input) = command {
            self.input = *input;
        }
        match command.part() {
            None => Ok(Answer::Input(self.input)),
            Some(Part::Gate) => self.gates.answer(self.input, command),
            Some(Part::Sets) => Ok(self.sets.answer(self.input, command)),
            Some(Part::Eit) => Ok(self.eit.answer(self.input, command)),
            Some(Part::Guides) => {
                let Command::Guides(guides) = command else { panic!("no command that compares guides: {command}") };
                Ok(Answer::Guides(guides.ask()))
            }
            Some(Part::Logs) => {
                let Command::Logs(logs) = command else { panic!("no command of logs: {command}") };
                let byte = self.byte;
                Ok(Answer::Logs(logs.ask(self.run.get_or_insert_with(|| Box::new(Memory::of(byte))))))
            }
            Some(Part::Demux) => {
                let Command::Demux(command) = command else { panic!("no command of the packet layer: {command}") };
                let input = self.input;
                self.demux().answer(input, command)
            }
        }
    }

    /// The packet layer; nothing of it is open before its first command.
    pub fn demux(&mut self) -> &mut Demuxes {
        self.demux.get_or_insert_with(|| Box::new(Demuxes::lend(self.byte)))
    }

    /// What is compared only once no command follows.
    pub fn end(&self) -> Result<(), Differs> {
        self.gates.same_rows()?;
        self.demux.as_ref().map_or(Ok(()), |demux| demux.same_rows())
    }
}
