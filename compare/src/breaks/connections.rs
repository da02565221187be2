//! "No connection twice": within a call, across calls, across a call and Call ID 0, within a customer's four.

use super::tools::*;
use super::Break;
use crate::random::Random;
use crate::tables;
use second::table::Table;

pub const BREAKS: &[(&str, Break)] = &[
    ("connection twice within a call", within_call),
    ("connection twice across two calls of a pair", across_calls),
    ("connection twice across a call and Call ID 0", across_standalone),
    ("connection twice within a customer's four", within_standalone),
    ("all-zero connection twice within a call", zero_within_call),
    (
        "all-zero connection twice within a customer's four",
        zero_within_standalone,
    ),
];

/// Another place of the four than this one.
fn another(place: usize, random: &mut Random) -> usize {
    (place + random.between(1, 3)) % 4
}

fn within_call(table: &mut Table, random: &mut Random) -> bool {
    let Some(slot) = tables::some_used(table, random) else {
        return false;
    };
    let place = some_place(table, slot, random);
    let places = &mut table.calls[slot].places;
    places[another(place, random)] = places[place];
    true
}

fn across_calls(table: &mut Table, random: &mut Random) -> bool {
    let Some((one, other)) = two_of_a_pair(table, random) else {
        return false;
    };
    let place = some_place(table, one, random);
    table.calls[other].places[random.below(4)] = table.calls[one].places[place];
    true
}

fn across_standalone(table: &mut Table, random: &mut Random) -> bool {
    let Some(slot) = tables::some_used(table, random) else {
        return false;
    };
    let place = some_place(table, slot, random);
    let call = table.calls[slot];
    let customer = customer_of(table, call.sender);
    let copy = (call.places[place], call.endpoint);
    set_standalone(table, customer, random.below(4), copy);
    true
}

fn within_standalone(table: &mut Table, random: &mut Random) -> bool {
    let Some(customer) = some_customer(table, random) else {
        return false;
    };
    let place = some_standalone(table, customer, random);
    let one = &table.customers[customer];
    let copy = (one.places[place], one.endpoints[place]);
    set_standalone(table, customer, another(place, random), copy);
    true
}

/// Marked twice and zeros otherwise: the mark alone makes a connection of it.
fn zero_within_call(table: &mut Table, random: &mut Random) -> bool {
    let Some(slot) = tables::some_used(table, random) else {
        return false;
    };
    let call = &mut table.calls[slot];
    call.places = tables::FREE_CALL.places;
    let place = random.below(4);
    call.places[place].taken = 1;
    call.places[another(place, random)].taken = 1;
    true
}

fn zero_within_standalone(table: &mut Table, random: &mut Random) -> bool {
    let Some(customer) = some_customer(table, random) else {
        return false;
    };
    drop_standalone_of(table, customer);
    let customer = &mut table.customers[customer];
    let place = random.below(4);
    customer.places[place].taken = 1;
    customer.places[another(place, random)].taken = 1;
    true
}
