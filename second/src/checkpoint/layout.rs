//! A13: the packed bits of a checkpoint. All records are whole bytes.

use crate::bytes::{long, word};
use crate::keys::{Connection, LongId, MessageId, Name, Pair, ShortId};
use crate::table::{Call, NAME};

/// The form that this program writes and reads.
pub const FORM: u8 = 1;
/// Bytes of the head, of a call's record and of a connection's.
pub const HEAD: usize = 4;
pub const CALL: usize = 55;
pub const CONNECTION: usize = 18;

/// The four bytes before the records.
#[derive(Clone, Copy)]
pub struct Head {
    pub form: u8,
    pub calls: usize,
    pub connections: usize,
}

impl Head {
    pub fn of(checkpoint: &[u8; HEAD]) -> Head {
        let first = word(checkpoint, 0);
        Head {
            form: (first >> 12) as u8,
            calls: (first & 0xfff).into(),
            connections: word(checkpoint, 2).into(),
        }
    }

    /// The length of a checkpoint with these counts.
    pub fn length(self) -> usize {
        HEAD + CALL * self.calls + CONNECTION * self.connections
    }

    pub fn bytes(self) -> [u8; HEAD] {
        let calls = u32::from(self.form) << 12 | self.calls as u32;
        (calls << 16 | self.connections as u32).to_be_bytes()
    }
}

/// A call's record. No places are taken in `call`, and its numbers have the record's widths.
#[derive(Clone, Copy)]
pub struct CallRecord {
    pub slot: u8,
    pub call: Call,
}

impl CallRecord {
    /// Takes 55 bytes.
    pub fn of(bytes: &[u8]) -> CallRecord {
        let mut name = [0; NAME];
        name.copy_from_slice(&bytes[12..44]);
        let call = Call {
            id: word(bytes, 1).into(),
            endpoint: long(bytes, 3),
            sender: long(bytes, 7),
            made: (bytes[11] >> 7).into(),
            size: (bytes[11] & 0x7f).into(),
            name,
            refreshed: long(bytes, 44),
            epoch: long(bytes, 47) & 0x00ff_ffff,
            identifier: long(bytes, 51),
            ..Call::FREE
        };
        CallRecord { slot: bytes[0], call }
    }

    /// The short Call ID with its pair.
    pub fn short_id(&self) -> ShortId {
        let pair = Pair {
            endpoint: self.call.endpoint,
            sender: self.call.sender,
        };
        (pair, self.call.id as u16)
    }

    /// The long one with its pair.
    pub fn long_id(&self) -> LongId {
        let name = Name {
            size: self.call.size as u8,
            bytes: self.call.name,
        };
        (self.short_id().0, name)
    }

    /// The request that made the call, if one did (A6).
    pub fn made_by(&self) -> Option<MessageId> {
        let &Call { epoch, identifier, .. } = &self.call;
        (self.call.made == 1).then_some(MessageId { epoch, identifier })
    }

    pub fn put(&self, bytes: &mut Vec<u8>) {
        let call = &self.call;
        bytes.push(self.slot);
        bytes.extend((call.id as u16).to_be_bytes());
        bytes.extend(call.endpoint.to_be_bytes());
        bytes.extend(call.sender.to_be_bytes());
        bytes.push((call.made << 7 | call.size) as u8);
        bytes.extend(call.name);
        bytes.extend(call.refreshed.to_be_bytes());
        bytes.extend(&call.epoch.to_be_bytes()[1..]);
        bytes.extend(call.identifier.to_be_bytes());
    }
}

/// A connection's record.
#[derive(Clone, Copy)]
pub struct ConnectionRecord {
    /// The Call ID, 0 for no call.
    pub call: u16,
    pub connection: Connection,
}

impl ConnectionRecord {
    /// Takes 18 bytes.
    pub fn of(bytes: &[u8]) -> ConnectionRecord {
        let connection = Connection {
            pair: Pair {
                endpoint: long(bytes, 0),
                sender: long(bytes, 12),
            },
            tunnel: word(bytes, 6),
            extended: long(bytes, 8),
            lsp: word(bytes, 16),
        };
        ConnectionRecord {
            call: word(bytes, 4),
            connection,
        }
    }

    pub fn put(&self, bytes: &mut Vec<u8>) {
        let connection = &self.connection;
        bytes.extend(connection.pair.endpoint.to_be_bytes());
        bytes.extend(self.call.to_be_bytes());
        bytes.extend(connection.tunnel.to_be_bytes());
        bytes.extend(connection.extended.to_be_bytes());
        bytes.extend(connection.pair.sender.to_be_bytes());
        bytes.extend(connection.lsp.to_be_bytes());
    }
}
