//! A13: the records that salvage keeps, in three steps.

use std::collections::HashMap;

use super::layout::{CallRecord, ConnectionRecord};
use crate::keys::{LongId, ShortId};
use crate::node::{Node, OpenCall};
use crate::places::Places;
use crate::table::Table;

/// The node of the records kept, under the roster whose fresh table is given.
pub fn salvage(fresh: &Table, calls: &[CallRecord], connections: &[ConnectionRecord]) -> Node {
    let mut node = Node::from_table(fresh).expect("a fresh table breaks no rule");
    let alone = calls.iter().filter(|record| stands_alone(&node, record));
    let alone: Vec<&CallRecord> = alone.collect();
    for record in without_duplicates(&alone, connections) {
        node.keep_call(record);
    }
    for record in connections {
        node.keep_connection(record);
    }
    node
}

/// Step 1: the slot is one of the total, and the roster's table with this one call breaks no rule. Its refresh never
/// does, for the time is the latest that is restored (A7).
fn stands_alone(fresh: &Node, record: &CallRecord) -> bool {
    let mut node = fresh.clone();
    node.time = record.call.refreshed;
    node.insert_call(record.slot.into(), &record.call).is_some() && node.keeps_share()
}

/// Step 2: of the calls with one pair and long ID, the one that most connection records name, the first if equal.
fn without_duplicates<'a>(calls: &[&'a CallRecord], connections: &[ConnectionRecord]) -> Vec<&'a CallRecord> {
    let mut named: HashMap<ShortId, usize> = HashMap::new();
    for record in connections {
        let short = (record.connection.pair, record.call);
        *named.entry(short).or_default() += 1;
    }
    let mut winners: HashMap<LongId, (usize, usize)> = HashMap::new();
    for (number, record) in calls.iter().enumerate() {
        let names = named.get(&record.short_id()).copied().unwrap_or(0);
        let winner = winners.entry(record.long_id()).or_insert((number, names));
        if names > winner.1 {
            *winner = (number, names);
        }
    }
    let wins = |line: &(usize, &&CallRecord)| winners[&line.1.long_id()].0 == line.0;
    let kept = calls.iter().enumerate().filter(wins);
    kept.map(|(_, &record)| record).collect()
}

impl Node {
    /// Step 3 for a call: drops it if its slot is taken, its pair has its short ID or, if it is made, its two numbers
    /// (A6), or a share rule would break. Its long ID is its alone since step 2. The time is the latest refresh of those
    /// kept.
    fn keep_call(&mut self, record: &CallRecord) {
        let slot = usize::from(record.slot);
        let ((pair, id), made_by) = (record.short_id(), record.made_by());
        let request_twice = made_by.is_some_and(|request| self.made.contains_key(&(pair, request)));
        if !self.free.is_free(slot) || self.calls.contains_key(&(pair, id)) || request_twice {
            return;
        }
        let customer = self.roster.find(record.call.sender);
        let customer = customer.expect("listed, or dropped in step 1");
        self.roster.accounts[customer].open += 1;
        let account = &self.roster.accounts[customer];
        if account.open > account.limit || !self.keeps_share() {
            self.roster.accounts[customer].open -= 1;
            return;
        }
        let open = OpenCall {
            slot,
            name: record.long_id().1,
            made_by,
            refreshed: record.call.refreshed,
            places: Places::default(),
        };
        self.time = self.time.max(open.refreshed);
        self.free.take(slot);
        self.enter(pair, id, open);
    }

    /// Step 3 for a connection: drops it if it stands already, under whatever Call ID, its sender is not listed, its
    /// call is not kept, or the four are full.
    fn keep_connection(&mut self, record: &ConnectionRecord) {
        if let Some(customer) = self.roster.find(record.connection.pair.sender) {
            self.put(record.connection, record.call, customer);
        }
    }
}
