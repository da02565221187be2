//! Near misses: tables that look as if they broke a table rule of 01 and break none. They are never answered 1.

use crate::breaks::form::narrow;
use crate::breaks::tools::*;
use crate::breaks::Break;
use crate::form;
use crate::layout::SLOTS;
use crate::near_kept;
use crate::near_made;
use crate::near_refreshed;
use crate::random::Random;
use crate::tables::{self, EMPTY, FREE_CALL};
use second::table::{Place, Table};

const NEAR_MISSES: &[(&str, Break)] = &[
    ("same IDs at another end point", ids_elsewhere),
    ("same IDs of another sender", ids_of_another),
    ("same IDs with the addresses swapped", ids_swapped),
    ("names a and a, a zero byte, b", |t, r| names_alike(t, r, b"a\0b")),
    ("names a and a zero byte, a", |t, r| names_alike(t, r, b"\0a")),
    ("same connection at another end point", connection_elsewhere),
    ("same connection of another sender", connection_of_another),
    (
        "same connection of Call ID 0 at another end point",
        standalone_elsewhere,
    ),
    ("same connection in one four at two end points", standalone_twice),
    ("same connection in two customers' fours", standalone_of_another),
    ("all-zero connection of Call ID 0, sender 0.0.0.0", zero_standalone),
    ("all-zero connection under a call", zero_under),
    ("connections that differ in the Tunnel ID", |t, r| {
        differ(t, r, |place| place.tunnel ^= 1)
    }),
    ("connections that differ in the extended tunnel ID", |t, r| {
        differ(t, r, |place| place.extended ^= 1 << 31)
    }),
    ("connections that differ in the LSP ID", |t, r| {
        differ(t, r, |place| place.lsp ^= 0x100)
    }),
    ("only the last place taken", last_place),
    ("call in another slot", moved),
    ("any next own identifier", any_next),
    ("own address and epoch 0 or largest", own_numbers),
    ("limit of the total and guarantee 0", wide_share),
    ("calls at the limit", calls_at_limit),
    ("S at the total", all_taken),
    ("name of 32 bytes", long_name),
    ("Call ID 65,535 and name of zeros and a one", far_ids),
    ("empty table, any next own identifier", empty),
    ("the other form, which the table fits", other_form),
    ("form 2: call in a slot from 64 on", far_slot),
    ("form 2: call in slot 199", last_slot),
];

/// Every near miss, with its name.
pub fn all() -> impl Iterator<Item = &'static (&'static str, Break)> {
    let later = near_made::NEAR_MISSES.iter().chain(near_refreshed::NEAR_MISSES);
    NEAR_MISSES.iter().chain(later).chain(near_kept::NEAR_MISSES)
}

/// The second call gets the first one's IDs, at an end point that no call has.
fn ids_elsewhere(table: &mut Table, random: &mut Random) -> bool {
    let Some((one, other)) = two_of_a_sender(table, random) else {
        return false;
    };
    let endpoint = fresh_endpoint(table, random);
    copy_ids(table, one, other);
    table.calls[other].endpoint = endpoint;
    true
}

fn copy_ids(table: &mut Table, from: usize, to: usize) {
    let call = table.calls[from];
    table.calls[to].id = call.id;
    set_name(&mut table.calls[to], tables::name(&call));
}

/// Both calls at one end point that no other call has.
fn ids_of_another(table: &mut Table, random: &mut Random) -> bool {
    let Some((one, other)) = two_of_two_senders(table, random) else {
        return false;
    };
    let endpoint = fresh_endpoint(table, random);
    copy_ids(table, one, other);
    table.calls[one].endpoint = endpoint;
    table.calls[other].endpoint = endpoint;
    true
}

/// Two calls alone, each one's end point the other's sender; the same connection under both.
pub(crate) fn ids_swapped(table: &mut Table, random: &mut Random) -> bool {
    let Some((one, other)) = two_of_two_senders(table, random) else {
        return false;
    };
    keep_calls(table, |slot, _| slot == one || slot == other);
    drop_standalone(table);
    copy_ids(table, one, other);
    let (sender, swapped) = (table.calls[one].sender, table.calls[other].sender);
    table.calls[one].endpoint = swapped;
    table.calls[other].endpoint = sender;
    table.calls[other].places = table.calls[one].places;
    true
}

fn names_alike(table: &mut Table, random: &mut Random, alike: &[u8]) -> bool {
    let Some((one, other)) = two_of_a_pair(table, random) else {
        return false;
    };
    let endpoint = fresh_endpoint(table, random);
    table.calls[one].endpoint = endpoint;
    table.calls[other].endpoint = endpoint;
    set_name(&mut table.calls[one], b"a");
    set_name(&mut table.calls[other], alike);
    true
}

fn connection_elsewhere(table: &mut Table, random: &mut Random) -> bool {
    let Some((one, other)) = two_of_a_sender(table, random) else {
        return false;
    };
    table.calls[other].endpoint = fresh_endpoint(table, random);
    some_place(table, one, random);
    table.calls[other].places = table.calls[one].places;
    true
}

fn connection_of_another(table: &mut Table, random: &mut Random) -> bool {
    let Some((one, other)) = two_of_two_senders(table, random) else {
        return false;
    };
    let endpoint = fresh_endpoint(table, random);
    some_place(table, one, random);
    for slot in [one, other] {
        table.calls[slot].endpoint = endpoint;
    }
    table.calls[other].places = table.calls[one].places;
    true
}

/// A call's connection in its sender's four, at an end point that no call has.
fn standalone_elsewhere(table: &mut Table, random: &mut Random) -> bool {
    let Some(slot) = tables::some_used(table, random) else {
        return false;
    };
    let place = some_place(table, slot, random);
    let endpoint = fresh_endpoint(table, random);
    let call = table.calls[slot];
    let customer = customer_of(table, call.sender);
    set_standalone(table, customer, random.below(4), (call.places[place], endpoint));
    true
}

fn standalone_twice(table: &mut Table, random: &mut Random) -> bool {
    let Some(customer) = some_customer(table, random) else {
        return false;
    };
    let place = some_standalone(table, customer, random);
    let endpoint = fresh_endpoint(table, random);
    let other = (place + random.between(1, 3)) % 4;
    let copy = table.customers[customer].places[place];
    set_standalone(table, customer, other, (copy, endpoint));
    true
}

fn standalone_of_another(table: &mut Table, random: &mut Random) -> bool {
    let Some((one, other)) = two_customers(table, random) else {
        return false;
    };
    let fresh = fresh_place(table, random);
    let copy = (fresh, fresh_endpoint(table, random));
    set_standalone(table, one, random.below(4), copy);
    set_standalone(table, other, random.below(4), copy);
    true
}

/// Customer 0.0.0.0 holds a connection of which all five fields are zero. No other connection of its stays.
fn zero_standalone(table: &mut Table, random: &mut Random) -> bool {
    let mut listed = tables::listed(table).iter();
    let Some(customer) = listed.position(|one| one.address == 0) else {
        return false;
    };
    keep_calls(table, |_, call| call.sender != 0);
    drop_standalone_of(table, customer);
    table.customers[customer].places[random.below(4)].taken = 1;
    true
}

/// A marked place of zeros; the call alone at its end point.
fn zero_under(table: &mut Table, random: &mut Random) -> bool {
    let Some(slot) = tables::some_used(table, random) else {
        return false;
    };
    table.calls[slot].endpoint = fresh_endpoint(table, random);
    table.calls[slot].places = FREE_CALL.places;
    table.calls[slot].places[random.below(4)].taken = 1;
    true
}

/// Two connections of a call alike but for one field; the call alone at its end point.
fn differ(table: &mut Table, random: &mut Random, change: fn(&mut Place)) -> bool {
    let Some(slot) = tables::some_used(table, random) else {
        return false;
    };
    let fresh = fresh_place(table, random);
    table.calls[slot].endpoint = fresh_endpoint(table, random);
    let places = &mut table.calls[slot].places;
    *places = FREE_CALL.places;
    let one = random.below(4);
    let other = (one + random.between(1, 3)) % 4;
    (places[one], places[other]) = (fresh, fresh);
    change(&mut places[other]);
    true
}

fn last_place(table: &mut Table, random: &mut Random) -> bool {
    let Some(slot) = tables::some_used(table, random) else {
        return false;
    };
    let fresh = fresh_place(table, random);
    table.calls[slot].places = FREE_CALL.places;
    table.calls[slot].places[3] = fresh;
    true
}

fn moved(table: &mut Table, random: &mut Random) -> bool {
    let free = tables::free(table);
    move_to(table, &free, random)
}

/// Moves a call into one of these slots, which are free, if there is one.
fn move_to(table: &mut Table, free: &[usize], random: &mut Random) -> bool {
    let (Some(from), false) = (tables::some_used(table, random), free.is_empty()) else {
        return false;
    };
    let to = *random.pick(free);
    table.calls.swap(from, to);
    tables::set_used(table, from, false);
    tables::set_used(table, to, true);
    true
}

fn far_slot(table: &mut Table, random: &mut Random) -> bool {
    let mut free = tables::free(table);
    free.retain(|&slot| slot >= form::total(1));
    move_to(table, &free, random)
}

fn last_slot(table: &mut Table, random: &mut Random) -> bool {
    let mut free = tables::free(table);
    free.retain(|&slot| slot == SLOTS - 1);
    move_to(table, &free, random)
}

/// A table of form 1 is one of form 2 as it stands; one of form 2 is brought within form 1 first.
fn other_form(table: &mut Table, _: &mut Random) -> bool {
    if table.form == 2 {
        narrow(table);
    }
    table.form = 3 - table.form;
    true
}

fn any_next(table: &mut Table, random: &mut Random) -> bool {
    let any = random.word();
    table.next = *random.pick(&[0, u32::MAX, any]);
    true
}

fn own_numbers(table: &mut Table, random: &mut Random) -> bool {
    table.address = *random.pick(&[0, u32::MAX, table.customers[0].address]);
    table.epoch = *random.pick(&[0, 0x00ff_ffff]);
    true
}

fn wide_share(table: &mut Table, random: &mut Random) -> bool {
    let Some(customer) = some_customer(table, random) else {
        return false;
    };
    let total = tables::total(table) as u32;
    let one = &mut table.customers[customer];
    (one.guarantee, one.limit) = (0, total);
    true
}

fn calls_at_limit(table: &mut Table, random: &mut Random) -> bool {
    let Some((customer, count)) = customer_with(table, 1, random) else {
        return false;
    };
    let one = &mut table.customers[customer];
    one.limit = count as u32;
    one.guarantee = one.guarantee.min(one.limit);
    true
}

fn all_taken(table: &mut Table, random: &mut Random) -> bool {
    let Some(customer) = some_customer(table, random) else {
        return false;
    };
    let total = tables::total(table);
    raise_taken(table, customer, total);
    true
}

fn long_name(table: &mut Table, random: &mut Random) -> bool {
    let Some(slot) = tables::some_used(table, random) else {
        return false;
    };
    let name = random.long_id(32);
    set_name(&mut table.calls[slot], &name);
    true
}

fn far_ids(table: &mut Table, random: &mut Random) -> bool {
    let Some(slot) = tables::some_used(table, random) else {
        return false;
    };
    let endpoint = fresh_endpoint(table, random);
    let call = &mut table.calls[slot];
    (call.endpoint, call.id) = (endpoint, u16::MAX.into());
    let mut name = vec![0; random.below(32)];
    name.push(1);
    set_name(call, &name);
    true
}

fn empty(table: &mut Table, random: &mut Random) -> bool {
    *table = EMPTY;
    table.next = random.word();
    true
}
