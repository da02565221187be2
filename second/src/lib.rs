//! The call side of a light-path node, written from document 01 and requests A1, A6, A7, A8, A11 and A13 alone.
//!
//! The node's state is kept in maps and sets (`Node`). A table is only what goes in and comes out.
#![forbid(unsafe_code)]

mod bytes;
mod calls;
mod checkpoint;
mod checksum;
mod connections;
mod expiry;
pub mod keys;
mod late;
pub mod message;
mod node;
mod objects;
mod places;
mod reply;
mod roster;
mod rules;
mod slots;
pub mod table;
#[cfg(test)]
mod tests;

pub use checkpoint::{read_checkpoint, write_checkpoint};
pub use checksum::words_sum;
pub use expiry::{Clock, Closing};
pub use message::{read_message, Message};
pub use node::{handle, Answered, Node};
pub use roster::read_roster;
pub use table::Table;
