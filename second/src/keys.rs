//! 01, "Message layout" and "Every answer": what calls and connections are known by.

use crate::table::NAME;

/// An address pair. It is ordered: swapped addresses are another pair.
#[derive(Clone, Copy, PartialEq, Eq, Hash, Debug)]
pub struct Pair {
    pub endpoint: u32,
    pub sender: u32,
}

/// The five fields that a connection is known by. The Call ID is none of them.
#[derive(Clone, Copy, PartialEq, Eq, Hash, Debug)]
pub struct Connection {
    pub pair: Pair,
    pub tunnel: u16,
    pub extended: u32,
    pub lsp: u16,
}

/// A long Call ID: 1 to 32 bytes, the last of them not zero (A1). Zeros before that one count.
#[derive(Clone, Copy, PartialEq, Eq, Hash, Debug)]
pub(crate) struct Name {
    pub size: u8,
    /// Zeros past the size.
    pub bytes: [u8; NAME],
}

impl Name {
    /// The bytes that count.
    pub fn as_bytes(&self) -> &[u8] {
        &self.bytes[..self.size.into()]
    }

    /// Takes 1 to 32 bytes that do not end in zero.
    pub fn new(name: &[u8]) -> Name {
        let mut bytes = [0; NAME];
        bytes[..name.len()].copy_from_slice(name);
        Name {
            size: name.len() as u8,
            bytes,
        }
    }
}

/// The two IDs of a call.
#[derive(Clone, Copy, Debug)]
pub(crate) struct CallIds {
    pub id: u16,
    pub name: Name,
}

impl CallIds {
    /// A6: a short ID and the name made of it, 20 lower case hex digits: sender 8, end point 8, short ID 4.
    pub fn made_of(pair: Pair, id: u16) -> CallIds {
        let Pair { endpoint, sender } = pair;
        let digits = format!("{sender:08x}{endpoint:08x}{id:04x}");
        let name = Name::new(digits.as_bytes());
        CallIds { id, name }
    }
}

/// A1: a name as it was received, up to its last byte that is not zero. Nothing is left of zeros only.
pub(crate) fn without_padding(name: &[u8]) -> &[u8] {
    let end = name.iter().rposition(|&byte| byte != 0).map_or(0, |last| last + 1);
    &name[..end]
}

/// A MESSAGE_ID's epoch and identifier. They are the two numbers of a nameless request (A6).
#[derive(Clone, Copy, PartialEq, Eq, Hash, Debug)]
pub struct MessageId {
    pub epoch: u32,
    pub identifier: u32,
}

/// A short Call ID with its pair.
pub(crate) type ShortId = (Pair, u16);
/// A long Call ID with its pair.
pub(crate) type LongId = (Pair, Name);
/// The two numbers of a nameless request with its pair.
pub(crate) type PairRequest = (Pair, MessageId);
