//! A13, "Checkpoint with salvage": a table packed into bytes, and read back under a roster.

mod layout;
mod read;
mod salvage;
mod write;

pub use read::read_checkpoint;
pub use write::write_checkpoint;
