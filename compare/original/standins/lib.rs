// Stand-in for the crate's root: the modules that the gate and the collectors need.
extern crate alloc;

pub mod collect;
pub mod demux;
pub mod descriptors;
pub mod error;
pub mod tables;
pub mod traits;
#[allow(dead_code)]
mod wire;

pub use error::{Error, Result};
