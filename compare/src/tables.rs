//! Plain looks at a table, for the generator and for the functions that break tables.

use crate::build::{Connection, Fields};
use crate::form::{self, long_id};
use crate::layout::SLOTS;
use crate::made;
use crate::random::Random;
use second::table::{Call, Customer, Place, Table};

pub const FREE_PLACE: Place = Place {
    taken: 0,
    tunnel: 0,
    extended: 0,
    lsp: 0,
};

pub const FREE_CALL: Call = Call {
    endpoint: 0,
    sender: 0,
    refreshed: 0,
    epoch: 0,
    identifier: 0,
    id: 0,
    made: 0,
    size: 0,
    name: [0; 32],
    places: [FREE_PLACE; 4],
};

pub const UNUSED: Customer = Customer {
    address: 0,
    guarantee: 0,
    limit: 0,
    kept: 0,
    epoch: 0,
    identifier: 0,
    endpoints: [0; 4],
    places: [FREE_PLACE; 4],
};

/// The empty table, as a refused roster returns it.
pub const EMPTY: Table = Table {
    address: 0,
    epoch: 0,
    next: 1,
    time: 0,
    listed: 0,
    form: 0,
    occupied: [0; 8],
    customers: [UNUSED; 8],
    calls: [FREE_CALL; SLOTS],
};

/// A connection as the table holds it, with the Call ID that it stands under.
#[derive(Clone, Copy, Debug)]
pub struct Held {
    pub connection: Connection,
    pub call: u16,
}

/// The total of the table's roster.
pub fn total(table: &Table) -> usize {
    form::total(table.form as u8)
}

/// Whether a bit is set; some have no slot.
pub fn is_used(table: &Table, slot: usize) -> bool {
    table.occupied[slot / 32] >> (slot % 32) & 1 == 1
}

/// Marks a slot as used, or as free.
pub fn set_used(table: &mut Table, slot: usize, used: bool) {
    let bit = 1 << (slot % 32);
    let part = &mut table.occupied[slot / 32];
    *part = if used { *part | bit } else { *part & !bit };
}

/// The used slots' numbers.
pub fn used(table: &Table) -> Vec<usize> {
    (0..SLOTS).filter(|&slot| is_used(table, slot)).collect()
}

/// The numbers of the total's free slots.
pub fn free(table: &Table) -> Vec<usize> {
    (0..total(table)).filter(|&slot| !is_used(table, slot)).collect()
}

pub fn calls(table: &Table) -> impl Iterator<Item = &Call> {
    (0..SLOTS)
        .filter(|&slot| is_used(table, slot))
        .map(|slot| &table.calls[slot])
}

pub fn listed(table: &Table) -> &[Customer] {
    &table.customers[..table.listed as usize]
}

pub fn name(call: &Call) -> &[u8] {
    &call.name[..call.size as usize]
}

/// A customer's open calls.
pub fn count(table: &Table, address: u32) -> usize {
    calls(table).filter(|call| call.sender == address).count()
}

/// S.
pub fn taken(table: &Table) -> usize {
    let larger = |one: &Customer| count(table, one.address).max(one.guarantee as usize);
    listed(table).iter().map(larger).sum()
}

/// Every connection held.
pub fn held(table: &Table) -> Vec<Held> {
    let mut all = Vec::new();
    for call in calls(table) {
        let places = call.places.iter().filter(|place| is_taken(place));
        all.extend(places.map(|place| Held {
            connection: under(call, place),
            call: call.id as u16,
        }));
    }
    for customer in listed(table) {
        let places = (0..4).filter(|&place| is_taken(&customer.places[place]));
        all.extend(places.map(|place| Held {
            connection: standalone(customer, place),
            call: 0,
        }));
    }
    all
}

/// Whether a connection stands there.
pub fn is_taken(place: &Place) -> bool {
    place.taken == 1
}

fn under(call: &Call, place: &Place) -> Connection {
    connection(call.endpoint, call.sender, place)
}

fn standalone(customer: &Customer, place: usize) -> Connection {
    connection(customer.endpoints[place], customer.address, &customer.places[place])
}

/// The connection in a place of a table that breaks no rule.
fn connection(endpoint: u32, sender: u32, place: &Place) -> Connection {
    Connection {
        endpoint,
        tunnel: place.tunnel as u16,
        extended: place.extended,
        sender,
        lsp: place.lsp as u16,
    }
}

/// A used slot.
pub fn some_used(table: &Table, random: &mut Random) -> Option<usize> {
    let used = used(table);
    (!used.is_empty()).then(|| *random.pick(&used))
}

pub fn some_call(table: &Table, random: &mut Random) -> Option<Call> {
    some_used(table, random).map(|slot| table.calls[slot])
}

/// A call that came without names (A6).
pub fn some_marked(table: &Table, random: &mut Random) -> Option<Call> {
    let marked: Vec<&Call> = calls(table).filter(|call| call.made == 1).collect();
    (!marked.is_empty()).then(|| **random.pick(&marked))
}

/// The short ID that a nameless request of the pair would get.
pub fn next_made(table: &Table, endpoint: u32, sender: u32) -> u16 {
    let of_pair = |call: &&Call| (call.endpoint, call.sender) == (endpoint, sender);
    let mut taken = vec![false; 2 * SLOTS + 2];
    for call in calls(table).filter(of_pair) {
        let number = made::number_of(endpoint, sender, name(call)).map_or(0, usize::from);
        for number in [number, call.id as usize] {
            if let Some(mark) = taken.get_mut(number) {
                *mark = true;
            }
        }
    }
    let free = (1..taken.len()).find(|&number| !taken[number]);
    free.expect("each call is in the way of two") as u16
}

/// Whether a nameless request of these fields made the call.
pub fn is_made_by(call: &Call, fields: &Fields) -> bool {
    call.made == 1
        && (call.endpoint, call.sender) == (fields.endpoint, fields.sender)
        && (call.epoch, call.identifier) == (fields.epoch, fields.identifier)
}

pub fn some_held(table: &Table, random: &mut Random) -> Option<Held> {
    let held = held(table);
    (!held.is_empty()).then(|| *random.pick(&held))
}

/// Whether an open call of the pair has the short ID, and whether one has the name, whatever its padding.
pub fn in_use(table: &Table, pair: (u32, u32), id: u16, name: &[u8]) -> (bool, bool) {
    let mut found = (false, false);
    for call in calls(table).filter(|call| (call.endpoint, call.sender) == pair) {
        found.0 |= call.id == u32::from(id);
        found.1 |= self::name(call) == long_id(name);
    }
    found
}
