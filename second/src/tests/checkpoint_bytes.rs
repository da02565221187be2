//! Checkpoints put together byte by byte, from A13's layout.

use super::build::*;
use crate::read_checkpoint;
use crate::table::Table;

/// A call's record of the pair (END, sender).
pub fn call(slot: u8, id: u16, sender: u32, name: &[u8]) -> Vec<u8> {
    call_at(END, slot, id, sender, name)
}

pub fn call_at(endpoint: u32, slot: u8, id: u16, sender: u32, name: &[u8]) -> Vec<u8> {
    let mut record = vec![slot];
    record.extend(id.to_be_bytes());
    record.extend(endpoint.to_be_bytes());
    record.extend(sender.to_be_bytes());
    record.push(name.len() as u8);
    record.extend(name);
    // The rest of the name, then 4 + 3 + 4 bytes of zeros.
    record.resize(55, 0);
    record
}

/// A connection's record of the pair (END, sender), told from others by its LSP ID.
pub fn under(id: u16, sender: u32, lsp: u16) -> Vec<u8> {
    under_at(END, id, sender, lsp)
}

pub fn under_at(endpoint: u32, id: u16, sender: u32, lsp: u16) -> Vec<u8> {
    let mut record = endpoint.to_be_bytes().to_vec();
    record.extend(id.to_be_bytes());
    record.extend(hex("0001 0a000001"));
    record.extend(sender.to_be_bytes());
    record.extend(lsp.to_be_bytes());
    record
}

/// A checkpoint of form 1 with the right counts.
pub fn checkpoint(calls: &[Vec<u8>], connections: &[Vec<u8>]) -> Vec<u8> {
    let mut checkpoint = (0x1000 | calls.len() as u16).to_be_bytes().to_vec();
    checkpoint.extend((connections.len() as u16).to_be_bytes());
    checkpoint.extend(calls.concat());
    checkpoint.extend(connections.concat());
    checkpoint
}

/// What a checkpoint is read as: used slots with short IDs, dropped calls and connections, and the table.
pub struct Read {
    pub calls: Vec<(usize, u16)>,
    pub dropped: (usize, usize),
    pub table: Table,
}

/// X with guarantee 1 and limit 4, Y with 10 and 60.
pub const ROOMY: &[(u32, u16, u16)] = &[(X, 1, 4), (Y, 10, 60)];

/// Salvages a checkpoint. Plain reading has to answer 72 exactly when something is dropped, and else give the same.
pub fn salvage(records: &[(u32, u16, u16)], checkpoint: &[u8]) -> Read {
    salvage_under(&roster(records), checkpoint)
}

/// The same under a roster of any form, by its bytes.
pub fn salvage_under(roster: &[u8], checkpoint: &[u8]) -> Read {
    let (answer, table, calls, connections) = read_checkpoint(true, roster, checkpoint);
    assert_eq!(answer, 0);
    assert!(crate::Node::from_table(&table).is_some());
    let plain = read_checkpoint(false, roster, checkpoint);
    if (calls, connections) == (0, 0) {
        assert_eq!(plain, (0, table, 0, 0));
    } else {
        assert_eq!(plain, (72, crate::read_roster(roster).1, 0, 0));
    }
    Read {
        calls: table.used().map(|slot| (slot, table.calls[slot].id as u16)).collect(),
        dropped: (calls, connections),
        table,
    }
}

impl Read {
    /// The LSP IDs of a slot's taken places, by place.
    pub fn lsps(&self, slot: usize) -> Vec<u16> {
        let places = self.table.calls[slot].places.iter();
        places.filter(|p| p.taken == 1).map(|p| p.lsp as u16).collect()
    }

    /// The LSP IDs of a customer's taken places, by place.
    pub fn standalone(&self, customer: usize) -> Vec<u16> {
        let places = self.table.customers[customer].places.iter();
        places.filter(|p| p.taken == 1).map(|p| p.lsp as u16).collect()
    }
}
