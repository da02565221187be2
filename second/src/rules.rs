//! 01, "Table rules", and those of 02: from a table to the node's maps, which is the rule check, and back.

use std::collections::HashMap;

use crate::keys::{Connection, MessageId, Name, Pair};
use crate::node::{Holder, Node, OpenCall, Position};
use crate::places::Places;
use crate::roster::{Form, Roster};
use crate::slots::Slots;
use crate::table::{Call, Customer, Place, Table, PLACES};

/// An epoch is under this, a node's own and any message's.
const EPOCHS: u32 = 1 << 24;

impl Node {
    /// None where the table breaks a table rule (answer 1).
    pub fn from_table(table: &Table) -> Option<Node> {
        let mut node = Node::without_calls(table)?;
        for (slot, call) in table.calls.iter().enumerate() {
            if !table.uses(slot) && *call != Call::FREE {
                return None;
            }
        }
        let used = table.used().count();
        node.calls.reserve(used);
        node.long_ids.reserve(used);
        node.connections.reserve(PLACES * used);
        // A bit that no slot has is not in the total either.
        for slot in table.used() {
            node.insert_call(slot, table.calls.get(slot)?)?;
        }
        let listed = node.roster.accounts.len();
        for (customer, record) in table.customers[..listed].iter().enumerate() {
            node.insert_standalone(customer, record)?;
            let last = marked(record.kept, record.epoch, record.identifier)?;
            node.last_ids.extend(last.map(|last| (record.address, last)));
        }
        node.keeps_share().then_some(node)
    }

    /// The node of the table's roster, with its calls and connections left out.
    fn without_calls(table: &Table) -> Option<Node> {
        let roster = checked_roster(table)?;
        Some(Node {
            address: table.address,
            epoch: table.epoch,
            next: table.next,
            time: table.time,
            free: Slots::all_free(roster.total()),
            roster,
            calls: HashMap::new(),
            long_ids: HashMap::new(),
            made: HashMap::new(),
            connections: HashMap::new(),
            last_ids: HashMap::new(),
        })
    }

    /// S is at most the total.
    pub(crate) fn keeps_share(&self) -> bool {
        self.roster.share_sum() <= self.roster.total()
    }

    /// A used slot of the total: listed sender within its limit, good IDs that its pair has only once, as it has the
    /// two numbers of a made call; no refresh after the node's time (A7).
    pub(crate) fn insert_call(&mut self, slot: usize, call: &Call) -> Option<()> {
        if !self.free.take(slot) {
            return None;
        }
        if call.refreshed > self.time {
            return None;
        }
        let made_by = marked(call.made, call.epoch, call.identifier)?;
        let id = u16::try_from(call.id).ok()?;
        let name = checked_name(call)?;
        let customer = self.roster.find(call.sender)?;
        let account = &mut self.roster.accounts[customer];
        if id == 0 || account.open == account.limit {
            return None;
        }
        account.open += 1;
        let pair = Pair {
            endpoint: call.endpoint,
            sender: call.sender,
        };
        let holder = Holder::Call { id, slot };
        let places = self.insert_places(pair, holder, &call.places)?;
        let open = OpenCall {
            slot,
            name,
            made_by,
            refreshed: call.refreshed,
            places,
        };
        self.enter(pair, id, open).then_some(())
    }

    /// The four of a call.
    fn insert_places(&mut self, pair: Pair, holder: Holder, four: &[Place]) -> Option<Places> {
        let mut places = Places::default();
        for (place, stands) in four.iter().enumerate() {
            if let Some(connection) = checked_place(stands, pair)? {
                self.insert_connection(connection, Position { holder, place })?;
                places.take(place);
            }
        }
        Some(places)
    }

    /// A customer's four for Call ID 0.
    fn insert_standalone(&mut self, customer: usize, record: &Customer) -> Option<()> {
        let holder = Holder::Customer(customer);
        for (place, (stands, &endpoint)) in record.places.iter().zip(&record.endpoints).enumerate() {
            let pair = Pair {
                endpoint,
                sender: record.address,
            };
            if let Some(connection) = checked_place(stands, pair)? {
                self.insert_connection(connection, Position { holder, place })?;
                self.roster.accounts[customer].places.take(place);
            } else if endpoint != 0 {
                return None;
            }
        }
        Some(())
    }

    /// No connection stands twice, be it under calls or Call ID 0.
    fn insert_connection(&mut self, connection: Connection, position: Position) -> Option<()> {
        match self.connections.insert(connection, position) {
            Some(_) => None,
            None => Some(()),
        }
    }

    pub fn to_table(&self) -> Table {
        let mut table = Table {
            address: self.address,
            epoch: self.epoch,
            next: self.next,
            time: self.time,
            listed: self.roster.accounts.len() as u32,
            form: self.roster.form.map_or(0, Form::number),
            ..Table::EMPTY
        };
        for (record, account) in table.customers.iter_mut().zip(&self.roster.accounts) {
            record.address = account.address;
            record.guarantee = account.guarantee.into();
            record.limit = account.limit.into();
            if let Some(last) = self.last_ids.get(&account.address) {
                (record.kept, record.epoch, record.identifier) = (1, last.epoch, last.identifier);
            }
        }
        for (&(pair, id), open) in &self.calls {
            table.occupy(open.slot);
            let call = &mut table.calls[open.slot];
            call.endpoint = pair.endpoint;
            call.sender = pair.sender;
            call.refreshed = open.refreshed;
            call.id = id.into();
            call.size = open.name.size.into();
            call.name = open.name.bytes;
            put_request(call, open.made_by);
        }
        for (connection, position) in &self.connections {
            put_connection(&mut table, connection, position);
        }
        table
    }
}

/// The roster is acceptable, or empty with zeros for address, epoch and form; unused records are zeros.
fn checked_roster(table: &Table) -> Option<Roster> {
    let listed = usize::try_from(table.listed).ok()?;
    let unused = table.customers.get(listed..)?;
    if unused.iter().any(|record| *record != Customer::UNUSED) {
        return None;
    }
    let form = Form::numbered(table.form);
    if listed == 0 {
        let zeros = [table.address, table.epoch, table.form] == [0; 3];
        return zeros.then(|| Roster::new(None, 0));
    }
    if table.epoch >= EPOCHS || form.is_none() {
        return None;
    }
    let mut roster = Roster::new(form, listed);
    for record in &table.customers[..listed] {
        let guarantee = u8::try_from(record.guarantee).ok()?;
        let limit = u8::try_from(record.limit).ok()?;
        roster.list(record.address, guarantee, limit).ok()?;
    }
    (roster.share_sum() <= roster.total()).then_some(roster)
}

/// A name of 1 to 32 bytes, the last of them not zero, zeros behind it.
fn checked_name(call: &Call) -> Option<Name> {
    let size = u8::try_from(call.size).ok()?;
    let past = call.name.get(size.into()..)?;
    let name = &call.name[..size.into()];
    if name.last().is_none_or(|&last| last == 0) || past.iter().any(|&byte| byte != 0) {
        return None;
    }
    Some(Name { size, bytes: call.name })
}

/// The MESSAGE_ID beside a mark, if the mark says that there is one: the request's that made a call (A6), a customer's
/// last (A8). Without one there are zeros. Else a rule is broken. 0 and 0 are numbers like others.
fn marked(mark: u32, epoch: u32, identifier: u32) -> Option<Option<MessageId>> {
    match mark {
        0 => (epoch == 0 && identifier == 0).then_some(None),
        1 => (epoch < EPOCHS).then_some(Some(MessageId { epoch, identifier })),
        _ => None,
    }
}

/// The mark and the two numbers of a made call; the fields of any other stay zero.
pub(crate) fn put_request(call: &mut Call, made_by: Option<MessageId>) {
    if let Some(MessageId { epoch, identifier }) = made_by {
        call.made = 1;
        call.epoch = epoch;
        call.identifier = identifier;
    }
}

/// The connection of a pair that a place holds, if it holds one: taken is 1 and both IDs have sixteen bits, or the
/// place is zeros. Else a rule is broken.
fn checked_place(place: &Place, pair: Pair) -> Option<Option<Connection>> {
    match place.taken {
        0 => (*place == Place::FREE).then_some(None),
        1 => Some(Some(Connection {
            pair,
            tunnel: u16::try_from(place.tunnel).ok()?,
            extended: place.extended,
            lsp: u16::try_from(place.lsp).ok()?,
        })),
        _ => None,
    }
}

fn put_connection(table: &mut Table, connection: &Connection, position: &Position) {
    let &Connection {
        pair,
        tunnel,
        extended,
        lsp,
    } = connection;
    let place = Place {
        taken: 1,
        tunnel: tunnel.into(),
        extended,
        lsp: lsp.into(),
    };
    match position.holder {
        Holder::Customer(customer) => {
            let customer = &mut table.customers[customer];
            customer.endpoints[position.place] = pair.endpoint;
            customer.places[position.place] = place;
        }
        Holder::Call { slot, .. } => table.calls[slot].places[position.place] = place,
    }
}
