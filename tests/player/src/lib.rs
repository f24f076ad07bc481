//! Plays commands over the library that hosts link, and says the line that each is answered with. It is how the library is run beside the
//! original and beside a second implementation (compare/), and how stored runs are held to what was stored (tests/run).
//!
//! `command` has what is asked and `answer` what is told; `script` has commands as text, `tape` as bytes. `lent` owns memory that a test may write
//! over, `page` a list for entries, `gate`, `sets`, `eit` and `demux` make the calls over it (`guides` over bytes alone, `logs` over the memory of a run), `port` puts them together and `play` plays a whole tape.
pub mod answer;
pub mod command;
pub mod demux;
pub mod eit;
pub mod gate;
pub mod guides;
pub mod lent;
pub mod logs;
mod page;
pub mod play;
pub mod port;
pub mod script;
pub mod sets;
pub mod tape;
