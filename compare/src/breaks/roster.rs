//! "The roster is acceptable or empty", "c within limit", "S at most 64", or 200 in form 2.

use super::tools::*;
use super::Break;
use crate::layout::BITS;
use crate::random::Random;
use crate::tables::{self, EMPTY};
use second::table::{Customer, Table};

pub const BREAKS: &[(&str, Break)] = &[
    ("listed 9", listed_nine),
    ("listed 10 to 255", listed_many),
    ("listed one more than there are", listed_more),
    ("listed one fewer than there are", listed_fewer),
    ("listed 0 over customers", listed_none),
    ("listed 0 with an own address", empty_address),
    ("listed 0 with an own epoch", empty_epoch),
    ("listed 0 with an occupied bit", empty_bit),
    ("listed 0 with a call", empty_call),
    ("listed 0 with a connection of Call ID 0", empty_standalone),
    ("epoch 2^24", epoch_next),
    ("epoch above 2^24", epoch_above),
    ("limit 0", limit_none),
    ("limit one above the total", limit_next),
    ("limit further above the total", limit_above),
    ("guarantee above a limit lowered", guarantee_by_limit),
    ("guarantee raised above the limit", guarantee_raised),
    ("address listed twice", address_twice),
    ("guarantees add up to one above the total", guarantees_next),
    ("guarantees far above the total", guarantees_above),
    ("S one above the total by a guarantee", taken_by_guarantee),
    ("S one above the total by a call", taken_by_call),
    ("calls above a limit lowered", calls_by_limit),
    ("calls above the limit by one opened", calls_by_call),
];

fn listed_nine(table: &mut Table, _: &mut Random) -> bool {
    table.listed = 9;
    true
}

fn listed_many(table: &mut Table, random: &mut Random) -> bool {
    table.listed = *random.pick(&[10, 16, 64, 128, 136, 200, 254, 255]);
    true
}

fn listed_more(table: &mut Table, _: &mut Random) -> bool {
    table.listed += 1;
    table.listed <= 8
}

/// The last record is then an unused one that is not zeros; its calls go, so that no sender is missing.
fn listed_fewer(table: &mut Table, _: &mut Random) -> bool {
    if table.listed < 2 {
        return false;
    }
    table.listed -= 1;
    let last = table.customers[table.listed as usize].address;
    keep_calls(table, |_, call| call.sender != last);
    true
}

fn listed_none(table: &mut Table, random: &mut Random) -> bool {
    let had_some = table.listed > 0;
    table.listed = 0;
    if random.chance(1, 2) {
        (table.address, table.epoch, table.form) = (0, 0, 0);
        keep_calls(table, |_, _| false);
    }
    had_some
}

fn empty_address(table: &mut Table, random: &mut Random) -> bool {
    *table = EMPTY;
    table.address = 1 << random.below(32);
    true
}

fn empty_epoch(table: &mut Table, random: &mut Random) -> bool {
    *table = EMPTY;
    table.epoch = 1 << random.below(32);
    true
}

fn empty_bit(table: &mut Table, random: &mut Random) -> bool {
    *table = EMPTY;
    tables::set_used(table, random.below(BITS), true);
    true
}

/// A good call of the table in the empty table, with its occupied bit and without.
fn empty_call(table: &mut Table, random: &mut Random) -> bool {
    let Some(slot) = tables::some_used(table, random) else {
        return false;
    };
    let call = table.calls[slot];
    *table = EMPTY;
    table.calls[slot] = call;
    tables::set_used(table, slot, random.chance(1, 2));
    true
}

fn empty_standalone(table: &mut Table, random: &mut Random) -> bool {
    *table = EMPTY;
    let place = random.below(4);
    table.customers[random.below(8)].places[place].taken = 1;
    true
}

fn epoch_next(table: &mut Table, _: &mut Random) -> bool {
    table.epoch = 1 << 24;
    true
}

fn epoch_above(table: &mut Table, random: &mut Random) -> bool {
    table.epoch |= 1 << random.between(24, 31);
    true
}

/// Limit and guarantee 0, the customer's calls gone.
fn limit_none(table: &mut Table, random: &mut Random) -> bool {
    let Some(customer) = some_customer(table, random) else {
        return false;
    };
    let address = table.customers[customer].address;
    keep_calls(table, |_, call| call.sender != address);
    table.customers[customer].limit = 0;
    table.customers[customer].guarantee = 0;
    true
}

fn with_customer(table: &mut Table, random: &mut Random, change: impl FnOnce(&mut Customer)) -> bool {
    let Some(customer) = some_customer(table, random) else {
        return false;
    };
    change(&mut table.customers[customer]);
    true
}

fn limit_next(table: &mut Table, random: &mut Random) -> bool {
    let limit = tables::total(table) as u32 + 1;
    with_customer(table, random, |one| one.limit = limit)
}

fn limit_above(table: &mut Table, random: &mut Random) -> bool {
    let limit = random.between(tables::total(table) + 2, 300) as u32;
    with_customer(table, random, |one| one.limit = limit)
}

/// Where a customer's calls are under its guarantee, its limit can go one below that without going below the calls.
fn guarantee_by_limit(table: &mut Table, random: &mut Random) -> bool {
    let Some(customer) = some_customer(table, random) else {
        return false;
    };
    let one = table.customers[customer];
    let fits = one.guarantee > 1 && tables::count(table, one.address) < one.guarantee as usize;
    if fits {
        table.customers[customer].limit = one.guarantee - 1;
    }
    fits
}

fn guarantee_raised(table: &mut Table, random: &mut Random) -> bool {
    let more = *random.pick(&[1, 1, 2, 60]);
    with_customer(table, random, |one| one.guarantee = one.limit + more)
}

/// The second of the two has no calls, sometimes the first neither, so that only the address is at odds.
fn address_twice(table: &mut Table, random: &mut Random) -> bool {
    let Some((one, other)) = two_customers(table, random) else {
        return false;
    };
    let (stays, gone) = (table.customers[one].address, table.customers[other].address);
    let bare = random.chance(1, 2);
    keep_calls(table, |_, call| call.sender != gone && !(bare && call.sender == stays));
    table.customers[other].address = table.customers[one].address;
    drop_standalone_of(table, other);
    true
}

/// With no calls at all, so that S is the sum of guarantees.
fn guarantees_next(table: &mut Table, random: &mut Random) -> bool {
    let Some((one, _)) = two_customers(table, random) else {
        return false;
    };
    keep_calls(table, |_, _| false);
    let total = tables::total(table);
    raise_taken(table, one, total + 1);
    table.customers[one].limit as usize <= total
}

fn guarantees_above(table: &mut Table, _: &mut Random) -> bool {
    let (listed, total) = (table.listed as usize, tables::total(table) as u32);
    for customer in &mut table.customers[..listed] {
        (customer.guarantee, customer.limit) = (total, total);
    }
    listed > 1
}

/// A customer with a call above its guarantee, and another one with room to guarantee more.
fn above_its_guarantee(table: &mut Table, random: &mut Random) -> Option<(usize, usize)> {
    let (one, count) = customer_with(table, 1, random)?;
    let guarantee = &mut table.customers[one].guarantee;
    *guarantee = (*guarantee).min(count as u32 - 1);
    let others: Vec<usize> = (0..table.listed as usize).filter(|&other| other != one).collect();
    (!others.is_empty()).then(|| (one, *random.pick(&others)))
}

/// The guarantees still add up to the total at most.
fn taken_by_guarantee(table: &mut Table, random: &mut Random) -> bool {
    let Some((_, other)) = above_its_guarantee(table, random) else {
        return false;
    };
    let total = tables::total(table);
    raise_taken(table, other, total + 1);
    table.customers[other].limit as usize <= total
}

/// One call more where S is the total.
fn taken_by_call(table: &mut Table, random: &mut Random) -> bool {
    let Some((one, other)) = above_its_guarantee(table, random) else {
        return false;
    };
    let total = tables::total(table);
    raise_taken(table, other, total);
    table.customers[one].limit = total as u32;
    add_call(table, one, random)
}

fn calls_by_limit(table: &mut Table, random: &mut Random) -> bool {
    let Some((customer, count)) = customer_with(table, 2, random) else {
        return false;
    };
    let one = &mut table.customers[customer];
    one.limit = random.between(1, count - 1) as u32;
    one.guarantee = one.guarantee.min(one.limit);
    true
}

/// One call more at the limit, where S has room for it.
fn calls_by_call(table: &mut Table, random: &mut Random) -> bool {
    let Some((customer, count)) = customer_with(table, 1, random) else {
        return false;
    };
    let one = &mut table.customers[customer];
    one.limit = count as u32;
    one.guarantee = one.guarantee.min(one.limit);
    tables::taken(table) < tables::total(table) && add_call(table, customer, random)
}
