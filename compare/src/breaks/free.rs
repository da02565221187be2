//! "What is free holds zeros": each field of a free slot, of a free place and of an unused record.

use super::tools::{set_request, some_customer};
use super::Break;
use crate::random::Random;
use crate::tables::{self, is_taken};
use second::table::{Call, Customer, Place, Table};

pub const BREAKS: &[(&str, Break)] = &[
    ("free slot's end point", |t, r| {
        slot(t, r, |call, r| call.endpoint = bit32(r))
    }),
    ("free slot's sender", |t, r| {
        slot(t, r, |call, r| call.sender = bit32(r))
    }),
    ("free slot's last refresh", |t, r| {
        slot(t, r, |call, r| call.refreshed = bit32(r))
    }),
    ("free slot's request epoch", |t, r| {
        slot(t, r, |call, r| call.epoch = bit32(r))
    }),
    ("free slot's request identifier", |t, r| {
        slot(t, r, |call, r| call.identifier = bit32(r))
    }),
    ("free slot's made mark", |t, r| {
        slot(t, r, |call, r| call.made = if r.chance(1, 2) { 1 } else { bit32(r) })
    }),
    ("free slot's mark and numbers", |t, r| {
        slot(t, r, |call, r| set_request(call, Some((r.word() >> 8, r.word()))))
    }),
    ("free slot's short ID", |t, r| slot(t, r, |call, r| call.id = bit32(r))),
    ("free slot's name size", |t, r| {
        slot(t, r, |call, r| call.size = bit32(r))
    }),
    ("free slot's name", |t, r| {
        slot(t, r, |call, r| call.name[r.below(32)] = bit8(r))
    }),
    ("free slot's place: mark", |t, r| {
        slot(t, r, |call, r| some(&mut call.places, r).taken = 1)
    }),
    ("free slot's place: Tunnel ID", |t, r| {
        slot(t, r, |call, r| some(&mut call.places, r).tunnel = bit32(r))
    }),
    ("free slot's place: extended", |t, r| {
        slot(t, r, |call, r| some(&mut call.places, r).extended = bit32(r))
    }),
    ("free slot's place: LSP ID", |t, r| {
        slot(t, r, |call, r| some(&mut call.places, r).lsp = bit32(r))
    }),
    ("call's free place: Tunnel ID", |t, r| {
        place(t, r, |place, r| place.tunnel = bit32(r))
    }),
    ("call's free place: extended", |t, r| {
        place(t, r, |place, r| place.extended = bit32(r))
    }),
    ("call's free place: LSP ID", |t, r| {
        place(t, r, |place, r| place.lsp = bit32(r))
    }),
    ("customer's free place: end point", |t, r| {
        standalone(t, r, |_, endpoint, r| *endpoint = bit32(r))
    }),
    ("customer's free place: Tunnel ID", |t, r| {
        standalone(t, r, |place, _, r| place.tunnel = bit32(r))
    }),
    ("customer's free place: extended", |t, r| {
        standalone(t, r, |place, _, r| place.extended = bit32(r))
    }),
    ("customer's free place: LSP ID", |t, r| {
        standalone(t, r, |place, _, r| place.lsp = bit32(r))
    }),
    ("unused record's address", |t, r| {
        record(t, r, |one, r| one.address = bit32(r))
    }),
    ("unused record's guarantee", |t, r| {
        record(t, r, |one, r| one.guarantee = bit32(r))
    }),
    ("unused record's limit", |t, r| {
        record(t, r, |one, r| one.limit = bit32(r))
    }),
    ("unused record's place: mark", |t, r| {
        record(t, r, |one, r| some(&mut one.places, r).taken = 1)
    }),
    ("unused record's place: end point", |t, r| {
        record(t, r, |one, r| *some(&mut one.endpoints, r) = bit32(r))
    }),
    ("unused record's place: Tunnel ID", |t, r| {
        record(t, r, |one, r| some(&mut one.places, r).tunnel = bit32(r))
    }),
    ("unused record's place: extended", |t, r| {
        record(t, r, |one, r| some(&mut one.places, r).extended = bit32(r))
    }),
    ("unused record's place: LSP ID", |t, r| {
        record(t, r, |one, r| some(&mut one.places, r).lsp = bit32(r))
    }),
];

fn bit8(random: &mut Random) -> u8 {
    1 << random.below(8)
}

fn bit32(random: &mut Random) -> u32 {
    1 << random.below(32)
}

fn some<'a, T>(items: &'a mut [T], random: &mut Random) -> &'a mut T {
    let place = random.below(items.len());
    &mut items[place]
}

/// Changes a free slot of the total; often the last one, or the first. Those outside it are for `form`.
fn slot(table: &mut Table, random: &mut Random, change: fn(&mut Call, &mut Random)) -> bool {
    let free = tables::free(table);
    let (Some(&low), Some(&high)) = (free.first(), free.last()) else {
        return false;
    };
    let any = *random.pick(&free);
    let slot = *random.pick(&[low, high, any]);
    change(&mut table.calls[slot], random);
    true
}

/// Changes a free place of a call.
fn place(table: &mut Table, random: &mut Random, change: fn(&mut Place, &mut Random)) -> bool {
    let Some(slot) = tables::some_used(table, random) else {
        return false;
    };
    let places = table.calls[slot].places.iter_mut();
    let mut free: Vec<&mut Place> = places.filter(|place| !is_taken(place)).collect();
    if free.is_empty() {
        return false;
    }
    let place = random.below(free.len());
    change(free[place], random);
    true
}

/// Changes a free place of a customer's four, or its end point.
fn standalone(table: &mut Table, random: &mut Random, change: fn(&mut Place, &mut u32, &mut Random)) -> bool {
    let Some(customer) = some_customer(table, random) else {
        return false;
    };
    let customer = &mut table.customers[customer];
    let free: Vec<usize> = (0..4).filter(|&place| !is_taken(&customer.places[place])).collect();
    if free.is_empty() {
        return false;
    }
    let place = *random.pick(&free);
    change(&mut customer.places[place], &mut customer.endpoints[place], random);
    true
}

/// Changes a record behind those listed.
fn record(table: &mut Table, random: &mut Random, change: fn(&mut Customer, &mut Random)) -> bool {
    let listed = table.listed as usize;
    if listed == 8 {
        return false;
    }
    change(some(&mut table.customers[listed..], random), random);
    true
}
