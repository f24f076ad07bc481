//! `player`: plays the tape on standard input over the proved library and prints a line for each command. How the gate's forms differ, where they
//! do, is said on standard error.
use player::play::play;
use player::port::Port;
use std::io::{self, BufReader, BufWriter, Write};
use std::process::ExitCode;

fn main() -> io::Result<ExitCode> {
    let mut out = BufWriter::with_capacity(1 << 16, io::stdout().lock());
    let played = play(BufReader::new(io::stdin().lock()), &mut Port::begin(), &mut out)?;
    out.flush()?;
    Ok(match played {
        Ok(()) => ExitCode::SUCCESS,
        Err(differs) => {
            eprintln!("{}", differs.0);
            ExitCode::FAILURE
        }
    })
}
