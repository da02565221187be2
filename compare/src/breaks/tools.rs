//! Small changes that breakings and near misses are put together from.

use crate::random::Random;
use crate::tables::{self, is_taken, FREE_CALL, FREE_PLACE};
use second::table::{Call, Place, Table};

/// An end point that no call and no connection of the table has.
pub fn fresh_endpoint(table: &Table, random: &mut Random) -> u32 {
    loop {
        let address = random.word();
        let known = tables::listed(table).iter().flat_map(|one| one.endpoints);
        let mut known = known.chain(tables::calls(table).map(|call| call.endpoint));
        if !known.any(|endpoint| endpoint == address) {
            return address;
        }
    }
}

/// An address that is not listed.
pub fn unlisted(table: &Table, random: &mut Random) -> u32 {
    let listed: Vec<u32> = tables::listed(table).iter().map(|one| one.address).collect();
    loop {
        let (near, any) = (random.pick(&listed) ^ 1 << random.below(32), random.word());
        let address = *random.pick(&[near, 0, u32::MAX, any]);
        if !listed.contains(&address) {
            return address;
        }
    }
}

/// A short ID that no call has.
pub fn fresh_id(table: &Table, random: &mut Random) -> u32 {
    loop {
        let id = u32::from(random.half());
        if id != 0 && tables::calls(table).all(|call| call.id != id) {
            return id;
        }
    }
}

pub fn set_name(call: &mut Call, name: &[u8]) {
    call.size = name.len() as u32;
    call.name = [0; 32];
    call.name[..name.len()].copy_from_slice(name);
}

/// Marks a call as made by a request with these numbers (A6), or takes mark and numbers away.
pub fn set_request(call: &mut Call, made_by: Option<(u32, u32)>) {
    call.made = made_by.is_some().into();
    (call.epoch, call.identifier) = made_by.unwrap_or_default();
}

/// An epoch and an identifier.
pub fn some_numbers(random: &mut Random) -> (u32, u32) {
    let any = (random.word() >> 8, random.word());
    *random.pick(&[any, any, (0, 0), (0, 1), (1, 0), (0x00ff_ffff, u32::MAX)])
}

/// A name of 16 random bytes: no call has it.
pub fn fresh_name(call: &mut Call, random: &mut Random) {
    let name = random.long_id(16);
    set_name(call, &name);
}

/// Two calls of one sender, in any order.
pub fn two_of_a_sender(table: &Table, random: &mut Random) -> Option<(usize, usize)> {
    two_calls(table, random, |one, other| one.sender == other.sender)
}

/// Two calls of different senders.
pub fn two_of_two_senders(table: &Table, random: &mut Random) -> Option<(usize, usize)> {
    two_calls(table, random, |one, other| one.sender != other.sender)
}

fn two_calls(table: &Table, random: &mut Random, wanted: fn(&Call, &Call) -> bool) -> Option<(usize, usize)> {
    let mut used = tables::used(table);
    random.shuffle(&mut used);
    for &one in &used {
        let fits = |&other: &usize| wanted(&table.calls[one], &table.calls[other]);
        let other = used.iter().copied().filter(|&other| other != one).find(fits);
        if let Some(other) = other {
            return Some((one, other));
        }
    }
    None
}

/// Two calls of one pair with nothing else in common: the second is moved into the first's pair, with fresh IDs and
/// without connections or a mark.
pub fn two_of_a_pair(table: &mut Table, random: &mut Random) -> Option<(usize, usize)> {
    let (one, other) = two_of_a_sender(table, random)?;
    let id = fresh_id(table, random);
    let endpoint = table.calls[one].endpoint;
    let call = &mut table.calls[other];
    call.endpoint = endpoint;
    call.id = id;
    call.places = [FREE_PLACE; 4];
    fresh_name(call, random);
    set_request(call, None);
    Some((one, other))
}

/// Frees all calls that `keep` does not want, and what they hold.
pub fn keep_calls(table: &mut Table, keep: impl Fn(usize, &Call) -> bool) {
    for slot in tables::used(table) {
        if !keep(slot, &table.calls[slot]) {
            table.calls[slot] = FREE_CALL;
            tables::set_used(table, slot, false);
        }
    }
}

/// Removes all connections of Call ID 0.
pub fn drop_standalone(table: &mut Table) {
    (0..8).for_each(|customer| drop_standalone_of(table, customer));
}

/// Removes those of one customer.
pub fn drop_standalone_of(table: &mut Table, customer: usize) {
    let customer = &mut table.customers[customer];
    (customer.endpoints, customer.places) = ([0; 4], [FREE_PLACE; 4]);
}

/// Numbers that no connection of the table has.
pub fn fresh_place(table: &Table, random: &mut Random) -> Place {
    let mut place = Place {
        taken: 1,
        tunnel: random.half().into(),
        extended: random.word(),
        lsp: random.half().into(),
    };
    let held = tables::held(table);
    while held.iter().any(|held| u32::from(held.connection.lsp) == place.lsp) {
        place.lsp = (place.lsp + 1) & 0xffff;
    }
    place
}

/// A place under the call, and one of the table's connections in it: a held one or, if there is none, a fresh one.
pub fn some_place(table: &mut Table, slot: usize, random: &mut Random) -> usize {
    let places = &table.calls[slot].places;
    let taken: Vec<usize> = (0..4).filter(|&place| is_taken(&places[place])).collect();
    if !taken.is_empty() {
        return *random.pick(&taken);
    }
    let place = random.below(4);
    table.calls[slot].places[place] = fresh_place(table, random);
    place
}

/// A place of the customer's four that holds a connection, a fresh one if there was none.
pub fn some_standalone(table: &mut Table, customer: usize, random: &mut Random) -> usize {
    let places = &table.customers[customer].places;
    let taken: Vec<usize> = (0..4).filter(|&place| is_taken(&places[place])).collect();
    if !taken.is_empty() {
        return *random.pick(&taken);
    }
    let place = random.below(4);
    let endpoint = fresh_endpoint(table, random);
    let fresh = fresh_place(table, random);
    set_standalone(table, customer, place, (fresh, endpoint));
    place
}

/// Puts a connection's numbers and end point into a customer's four.
pub fn set_standalone(table: &mut Table, customer: usize, place: usize, (numbers, endpoint): (Place, u32)) {
    table.customers[customer].places[place] = numbers;
    table.customers[customer].endpoints[place] = endpoint;
}

pub fn some_customer(table: &Table, random: &mut Random) -> Option<usize> {
    (table.listed > 0).then(|| random.below(table.listed as usize))
}

/// Two listed customers, in any order.
pub fn two_customers(table: &Table, random: &mut Random) -> Option<(usize, usize)> {
    if table.listed < 2 {
        return None;
    }
    let mut customers: Vec<usize> = (0..table.listed as usize).collect();
    random.shuffle(&mut customers);
    Some((customers[0], customers[1]))
}

/// The roster's place of an address.
pub fn customer_of(table: &Table, address: u32) -> usize {
    let mut listed = tables::listed(table).iter();
    listed
        .position(|one| one.address == address)
        .expect("every sender is listed")
}

/// A customer that has at least this many calls, and its count.
pub fn customer_with(table: &Table, least: usize, random: &mut Random) -> Option<(usize, usize)> {
    let count = |&customer: &usize| tables::count(table, table.customers[customer].address);
    let mut customers: Vec<usize> = (0..table.listed as usize).collect();
    random.shuffle(&mut customers);
    let found = customers.into_iter().find(|customer| count(customer) >= least)?;
    Some((found, count(&found)))
}

/// One more call of the customer in a free slot, with fresh IDs and a fresh end point.
pub fn add_call(table: &mut Table, customer: usize, random: &mut Random) -> bool {
    let free = tables::free(table);
    if free.is_empty() {
        return false;
    }
    let slot = *random.pick(&free);
    put_call(table, customer, slot, random);
    true
}

/// A call of the customer in this slot, which is free, with fresh IDs and a fresh end point.
pub fn put_call(table: &mut Table, customer: usize, slot: usize, random: &mut Random) {
    let (endpoint, id) = (fresh_endpoint(table, random), fresh_id(table, random));
    let call = &mut table.calls[slot];
    call.endpoint = endpoint;
    call.sender = table.customers[customer].address;
    call.id = id;
    fresh_name(call, random);
    tables::set_used(table, slot, true);
}

/// Raises a customer's guarantee, and its limit with it, until S is `sum`. S may not be above it yet.
pub fn raise_taken(table: &mut Table, customer: usize, sum: usize) {
    let before = tables::taken(table);
    let one = &table.customers[customer];
    let larger = tables::count(table, one.address).max(one.guarantee as usize);
    let one = &mut table.customers[customer];
    one.guarantee = (larger + sum - before) as u32;
    one.limit = one.limit.max(one.guarantee);
}
