//! Plays tapes.
use crate::gate::Differs;
use crate::port::Port;
use crate::tape::{Stop, Tape};
use std::io::{self, Read, Write};

/// Plays a tape and writes a line for each command; answers how the gate's two forms differ, where they do. A tape that ends inside a command gives
/// `cut`, a command that there is not `bad` and its place, counted from 0, and one on which the gate's forms differ `differs` and its place; each
/// ends the run.
pub fn play(tape: impl Read, port: &mut Port, out: &mut impl Write) -> io::Result<Result<(), Differs>> {
    let mut tape = Tape::new(tape);
    let mut played = Ok(());
    loop {
        match tape.next_command() {
            Ok(command) => match port.answer(&command) {
                Ok(answer) => writeln!(out, "{answer}")?,
                Err(differs) => {
                    writeln!(out, "differs {}", tape.place)?;
                    played = Err(differs);
                    break;
                }
            },
            Err(Stop::End) => break,
            Err(Stop::Cut) => {
                writeln!(out, "cut")?;
                break;
            }
            Err(Stop::Bad) => {
                writeln!(out, "bad {}", tape.place)?;
                break;
            }
            Err(Stop::Unreadable(error)) => return Err(error),
        }
    }
    if let Err(differs) = port.end() {
        writeln!(out, "differs {}", tape.place)?;
        played = played.and(Err(differs));
    }
    Ok(played)
}
