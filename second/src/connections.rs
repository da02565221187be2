//! 01, "Every answer": putting connections under calls and taking them away.

use crate::keys::Connection;
use crate::message::PathRequest;
use crate::node::{Holder, Node, Position};

impl Node {
    /// Path: 14, 24, 35, 37, 23.
    pub(crate) fn add(&mut self, request: &PathRequest<'_>, customer: usize) -> u8 {
        self.put(request.connection, request.call, customer)
    }

    /// Puts a connection under a call of its pair or, with Call ID 0, with the customer: the answers of a Path.
    pub(crate) fn put(&mut self, connection: Connection, id: u16, customer: usize) -> u8 {
        if let Some(position) = self.connections.get(&connection) {
            return if position.holder.call_id() == id { 24 } else { 14 };
        }
        let (holder, places) = if id == 0 {
            let account = &mut self.roster.accounts[customer];
            (Holder::Customer(customer), &mut account.places)
        } else {
            let Some(call) = self.calls.get_mut(&(connection.pair, id)) else {
                return 35;
            };
            let slot = call.slot;
            (Holder::Call { id, slot }, &mut call.places)
        };
        let Some(place) = places.take_lowest() else {
            return 37;
        };
        let position = Position { holder, place };
        self.connections.insert(connection, position);
        23
    }

    /// PathTear: 15, 25. Its Call ID is not looked at.
    pub(crate) fn drop_connection(&mut self, request: &PathRequest<'_>) -> u8 {
        let Some(position) = self.connections.remove(&request.connection) else {
            return 15;
        };
        let places = match position.holder {
            Holder::Customer(customer) => &mut self.roster.accounts[customer].places,
            Holder::Call { id, .. } => {
                let call = self.calls.get_mut(&(request.connection.pair, id));
                &mut call.expect("a connection's call is open").places
            }
        };
        places.release(position.place);
        25
    }
}
