//! A checkpoint taken apart and put together again, from A13's layout.

use crate::random::Random;

pub const HEAD: usize = 4;
pub const CALL: usize = 55;
pub const CONNECTION: usize = 18;

/// A call's record. Its fields stand at these bytes.
pub type Call = [u8; CALL];
/// A connection's record.
pub type Connection = [u8; CONNECTION];

/// Where a record's fields stand: first byte and number of bytes.
pub type Field = (usize, usize);
pub const SLOT: Field = (0, 1);
pub const ID: Field = (1, 2);
pub const ENDPOINT: Field = (3, 4);
pub const SENDER: Field = (7, 4);
/// With the made mark in its top bit.
pub const SIZE: Field = (11, 1);
pub const NAME: Field = (12, 32);
pub const REFRESHED: Field = (44, 4);
pub const EPOCH: Field = (48, 3);
pub const IDENTIFIER: Field = (51, 4);

/// The same for a connection.
pub const UNDER_ENDPOINT: Field = (0, 4);
pub const UNDER_ID: Field = (4, 2);
pub const UNDER_TUNNEL: Field = (6, 2);
pub const UNDER_EXTENDED: Field = (8, 4);
pub const UNDER_SENDER: Field = (12, 4);
pub const UNDER_LSP: Field = (16, 2);

/// A field's number; a name has none.
pub fn get(record: &[u8], (at, size): Field) -> u32 {
    let bytes = record[at..at + size].iter();
    bytes.fold(0, |number, &byte| number << 8 | u32::from(byte))
}

/// Writes a field, the number's lowest bytes.
pub fn set(record: &mut [u8], (at, size): Field, number: u32) {
    record[at..at + size].copy_from_slice(&number.to_be_bytes()[4 - size..]);
}

/// A call's pair, and a connection's: end point and sender.
pub fn pair(call: &Call) -> (u32, u32) {
    (get(call, ENDPOINT), get(call, SENDER))
}

pub fn under_pair(connection: &Connection) -> (u32, u32) {
    (get(connection, UNDER_ENDPOINT), get(connection, UNDER_SENDER))
}

/// Whether a call came without names (A6).
pub fn is_marked(call: &Call) -> bool {
    call[SIZE.0] >= 0x80
}

/// The epoch and identifier of the request that made it.
pub fn numbers(call: &Call) -> (u32, u32) {
    (get(call, EPOCH), get(call, IDENTIFIER))
}

/// A call's name, of at most 32 bytes.
pub fn name(call: &Call) -> &[u8] {
    let size = usize::from(call[SIZE.0] & 0x7f).min(NAME.1);
    &call[NAME.0..][..size]
}

/// Sets the name's length and leaves the mark as it is.
pub fn set_size(call: &mut Call, size: usize) {
    call[SIZE.0] = call[SIZE.0] & 0x80 | size as u8;
}

/// The records of a checkpoint.
#[derive(Clone, Default)]
pub struct Parts {
    pub calls: Vec<Call>,
    pub connections: Vec<Connection>,
}

impl Parts {
    /// None where the length is not that of the counts.
    pub fn of(checkpoint: &[u8]) -> Option<Parts> {
        let head: [u8; HEAD] = *checkpoint.first_chunk()?;
        let calls = get(&head, (0, 2)) as usize & 0xfff;
        let connections = get(&head, (2, 2)) as usize;
        if checkpoint.len() != HEAD + CALL * calls + CONNECTION * connections {
            return None;
        }
        let (calls, connections) = checkpoint[HEAD..].split_at(CALL * calls);
        Some(Parts {
            calls: calls.as_chunks().0.to_vec(),
            connections: connections.as_chunks().0.to_vec(),
        })
    }

    /// A checkpoint of form 1. Records beyond the largest counts are left out.
    pub fn bytes(&self) -> Vec<u8> {
        let calls = &self.calls[..self.calls.len().min(0xfff)];
        let connections = &self.connections[..self.connections.len().min(0xffff)];
        let mut checkpoint = (0x1000 | calls.len() as u16).to_be_bytes().to_vec();
        checkpoint.extend((connections.len() as u16).to_be_bytes());
        checkpoint.extend(calls.as_flattened());
        checkpoint.extend(connections.as_flattened());
        checkpoint
    }

    /// A call's place among the calls.
    pub fn some_call(&self, random: &mut Random) -> Option<usize> {
        (!self.calls.is_empty()).then(|| random.below(self.calls.len()))
    }

    pub fn some_connection(&self, random: &mut Random) -> Option<usize> {
        (!self.connections.is_empty()).then(|| random.below(self.connections.len()))
    }

    /// The connections that name the call, by their places.
    pub fn naming(&self, call: &Call) -> Vec<usize> {
        let names = |one: &Connection| under_pair(one) == pair(call) && get(one, UNDER_ID) == get(call, ID);
        let numbers = 0..self.connections.len();
        numbers.filter(|&number| names(&self.connections[number])).collect()
    }
}

#[cfg(test)]
mod tests {
    use super::*;

    #[test]
    fn fields_follow_each_other() {
        let call = [SLOT, ID, ENDPOINT, SENDER, SIZE, NAME, REFRESHED, EPOCH, IDENTIFIER];
        assert_eq!(end(&call), CALL);
        let connection = [
            UNDER_ENDPOINT,
            UNDER_ID,
            UNDER_TUNNEL,
            UNDER_EXTENDED,
            UNDER_SENDER,
            UNDER_LSP,
        ];
        assert_eq!(end(&connection), CONNECTION);
    }

    fn end(fields: &[Field]) -> usize {
        fields.iter().fold(0, |end, &(at, size)| {
            assert_eq!(at, end);
            end + size
        })
    }

    #[test]
    fn apart_and_together() {
        let mut record = [0; CALL];
        set(&mut record, EPOCH, 0xff12_3456);
        assert_eq!(record[47..52], [0, 0x12, 0x34, 0x56, 0]);
        assert_eq!(get(&record, EPOCH), 0x0012_3456);
        let parts = Parts {
            calls: vec![record; 2],
            connections: vec![[7; CONNECTION]],
        };
        let checkpoint = parts.bytes();
        assert_eq!(checkpoint[..4], [0x10, 2, 0, 1]);
        let again = Parts::of(&checkpoint).expect("the right length");
        assert_eq!((again.calls, again.connections), (parts.calls, parts.connections));
        assert!(Parts::of(&checkpoint[1..]).is_none());
    }
}
