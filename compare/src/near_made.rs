//! Near misses of A6: tables that look as if they broke a rule of made calls and break none.

use crate::breaks::tools::*;
use crate::breaks::Break;
use crate::made;
use crate::near::ids_swapped;
use crate::random::Random;
use crate::tables;
use second::table::Table;

pub const NEAR_MISSES: &[(&str, Break)] = &[
    ("made call, numbers 0 and 0", |t, r| one_made(t, r, (0, 0))),
    ("made call, largest numbers", |t, r| {
        one_made(t, r, (0x00ff_ffff, u32::MAX))
    }),
    ("numbers 0 and 0 beside unmarked calls of the pair", zeros_beside),
    ("made calls of a pair with one epoch", |t, r| {
        numbers_alike(t, r, |(epoch, identifier)| (epoch, identifier ^ 1))
    }),
    ("made calls of a pair with one identifier", |t, r| {
        numbers_alike(t, r, |(epoch, identifier)| (epoch ^ 1 << 23, identifier))
    }),
    ("made calls of a pair with their numbers exchanged", |t, r| {
        numbers_alike(t, r, |(epoch, identifier)| (identifier, epoch))
    }),
    ("same request numbers at another end point", numbers_elsewhere),
    ("same request numbers of another sender", numbers_of_another),
    ("same request numbers with the addresses swapped", numbers_swapped),
    ("made call under another name", made_renamed),
    ("unmarked call under a made name", named_as_made),
    ("made call's mark and numbers taken away", unmade),
];

/// A call alone at its end point, made by a request with these numbers.
fn one_made(table: &mut Table, random: &mut Random, numbers: (u32, u32)) -> bool {
    let Some(slot) = tables::some_used(table, random) else {
        return false;
    };
    table.calls[slot].endpoint = fresh_endpoint(table, random);
    set_request(&mut table.calls[slot], Some(numbers));
    true
}

/// Every unmarked call holds zeros there; the mark tells them apart.
fn zeros_beside(table: &mut Table, random: &mut Random) -> bool {
    let Some((one, other)) = two_alone(table, random) else {
        return false;
    };
    set_request(&mut table.calls[one], None);
    set_request(&mut table.calls[other], Some((0, 0)));
    true
}

/// Two calls of a pair that has no others.
fn two_alone(table: &mut Table, random: &mut Random) -> Option<(usize, usize)> {
    let (one, other) = two_of_a_pair(table, random)?;
    let endpoint = fresh_endpoint(table, random);
    table.calls[one].endpoint = endpoint;
    table.calls[other].endpoint = endpoint;
    Some((one, other))
}

/// Two made calls of a pair, the second's numbers changed from the first's. The identifier is one that an epoch can be.
fn numbers_alike(table: &mut Table, random: &mut Random, change: fn((u32, u32)) -> (u32, u32)) -> bool {
    let Some((one, other)) = two_alone(table, random) else {
        return false;
    };
    let epoch = random.word() >> 8;
    let numbers = (epoch, epoch ^ 1 << random.below(24));
    set_request(&mut table.calls[one], Some(numbers));
    set_request(&mut table.calls[other], Some(change(numbers)));
    true
}

fn numbers_elsewhere(table: &mut Table, random: &mut Random) -> bool {
    let Some((one, other)) = two_of_a_sender(table, random) else {
        return false;
    };
    for slot in [one, other] {
        table.calls[slot].endpoint = fresh_endpoint(table, random);
    }
    share_numbers(table, one, other, random);
    true
}

fn share_numbers(table: &mut Table, one: usize, other: usize, random: &mut Random) {
    let numbers = some_numbers(random);
    set_request(&mut table.calls[one], Some(numbers));
    set_request(&mut table.calls[other], Some(numbers));
}

fn numbers_of_another(table: &mut Table, random: &mut Random) -> bool {
    let Some((one, other)) = two_of_two_senders(table, random) else {
        return false;
    };
    let endpoint = fresh_endpoint(table, random);
    for slot in [one, other] {
        table.calls[slot].endpoint = endpoint;
    }
    share_numbers(table, one, other, random);
    true
}

fn numbers_swapped(table: &mut Table, random: &mut Random) -> bool {
    if !ids_swapped(table, random) {
        return false;
    }
    let used = tables::used(table);
    share_numbers(table, used[0], used[1], random);
    true
}

/// No rule says that a made call's name is the one that was made.
fn made_renamed(table: &mut Table, random: &mut Random) -> bool {
    let Some(slot) = tables::some_used(table, random) else {
        return false;
    };
    let size = random.between(1, 32);
    table.calls[slot].endpoint = fresh_endpoint(table, random);
    let call = &mut table.calls[slot];
    set_request(call, Some(some_numbers(random)));
    set_name(call, &random.long_id(size));
    true
}

/// Also under the short ID that the name is made of.
fn named_as_made(table: &mut Table, random: &mut Random) -> bool {
    let Some(slot) = tables::some_used(table, random) else {
        return false;
    };
    let endpoint = fresh_endpoint(table, random);
    let call = &mut table.calls[slot];
    call.endpoint = endpoint;
    set_request(call, None);
    let (id, any) = (call.id as u16, random.half() | 1);
    let name = made::name(call.endpoint, call.sender, *random.pick(&[id, 1, any]));
    set_name(call, &name);
    true
}

fn unmade(table: &mut Table, random: &mut Random) -> bool {
    let Some(slot) = tables::some_used(table, random) else {
        return false;
    };
    set_request(&mut table.calls[slot], None);
    true
}
