//! A13: writing a checkpoint. Refusals: 1, then 73.

use std::collections::BTreeMap;

use super::layout::{CallRecord, ConnectionRecord, Head, FORM};
use crate::node::{Holder, Node};
use crate::rules::put_request;
use crate::table::{Call, Table};

/// Writes a checkpoint to the front of the buffer: 0 and its length, or 1 or 73, length 0 and the buffer as it was.
pub fn write_checkpoint(table: &Table, buffer: &mut [u8]) -> (u8, usize) {
    let Some(node) = Node::from_table(table) else {
        return (1, 0);
    };
    let checkpoint = checkpoint_of(&node);
    match buffer.get_mut(..checkpoint.len()) {
        Some(front) => {
            front.copy_from_slice(&checkpoint);
            (0, checkpoint.len())
        }
        None => (73, 0),
    }
}

fn checkpoint_of(node: &Node) -> Vec<u8> {
    let (calls, connections) = (calls_in_order(node), connections_in_order(node));
    let head = Head {
        form: FORM,
        calls: calls.len(),
        connections: connections.len(),
    };
    let mut checkpoint = Vec::with_capacity(head.length());
    checkpoint.extend(head.bytes());
    calls.values().for_each(|record| record.put(&mut checkpoint));
    connections.values().for_each(|record| record.put(&mut checkpoint));
    checkpoint
}

/// The calls by slot.
fn calls_in_order(node: &Node) -> BTreeMap<usize, CallRecord> {
    let mut records = BTreeMap::new();
    for (&(pair, id), open) in &node.calls {
        let mut call = Call {
            endpoint: pair.endpoint,
            sender: pair.sender,
            refreshed: open.refreshed,
            id: id.into(),
            size: open.name.size.into(),
            name: open.name.bytes,
            ..Call::FREE
        };
        put_request(&mut call, open.made_by);
        let slot = open.slot as u8;
        records.insert(open.slot, CallRecord { slot, call });
    }
    records
}

/// The connections by slot and place, then those of Call ID 0 by customer and place.
fn connections_in_order(node: &Node) -> BTreeMap<(bool, usize, usize), ConnectionRecord> {
    let mut records = BTreeMap::new();
    for (&connection, position) in &node.connections {
        let (standalone, whose) = match position.holder {
            Holder::Call { slot, .. } => (false, slot),
            Holder::Customer(customer) => (true, customer),
        };
        let call = position.holder.call_id();
        let record = ConnectionRecord { call, connection };
        records.insert((standalone, whose, position.place), record);
    }
    records
}
