//! A8: what is kept of a customer's Notifies. A mark is 0 or 1, zeros where none is kept and in unused records, an
//! epoch has 24 bits.

use super::tools::*;
use super::Break;
use crate::late::set_kept;
use crate::random::Random;
use second::table::{Customer, Table};

pub const BREAKS: &[(&str, Break)] = &[
    ("epoch where none is kept", |t, r| {
        listed(t, r, |one, bit| {
            set_kept(one, None);
            one.epoch = bit;
        })
    }),
    ("identifier where none is kept", |t, r| {
        listed(t, r, |one, bit| {
            set_kept(one, None);
            one.identifier = bit;
        })
    }),
    ("kept mark cleared over numbers", |t, r| {
        listed(t, r, |one, bit| (one.kept, one.identifier) = (0, bit))
    }),
    ("kept mark above 1", mark_above),
    ("kept mark above 1, numbers zero", mark_above_zeros),
    ("kept epoch above 24 bits", epoch_above),
    ("unused record's kept mark", |t, r| unused(t, r, |one, _| one.kept = 1)),
    ("unused record's kept mark above 1", |t, r| {
        unused(t, r, |one, bit| one.kept = bit | 2)
    }),
    ("unused record's epoch", |t, r| unused(t, r, |one, bit| one.epoch = bit)),
    ("unused record's identifier", |t, r| {
        unused(t, r, |one, bit| one.identifier = bit)
    }),
    ("unused record with a MESSAGE_ID kept", |t, r| {
        unused(t, r, |one, bit| set_kept(one, Some((bit >> 8, bit))))
    }),
];

/// A listed customer's record, and any one bit.
fn listed(table: &mut Table, random: &mut Random, change: fn(&mut Customer, u32)) -> bool {
    let Some(customer) = some_customer(table, random) else {
        return false;
    };
    change(&mut table.customers[customer], 1 << random.below(32));
    true
}

/// An unused record, the first of them or the last, and any one bit.
fn unused(table: &mut Table, random: &mut Random, change: fn(&mut Customer, u32)) -> bool {
    let unused = &mut table.customers[table.listed as usize..];
    if unused.is_empty() {
        return false;
    }
    let last = unused.len() - 1;
    let record = *random.pick(&[0, last]);
    change(&mut unused[record], 1 << random.below(32));
    true
}

/// The right one with a bit above it, too, which a test of its lowest bit would not see.
fn some_mark(random: &mut Random) -> u32 {
    let far = 1 << random.between(1, 31);
    *random.pick(&[2, 3, 255, 256, u32::MAX, far, far | 1])
}

fn mark_above(table: &mut Table, random: &mut Random) -> bool {
    let Some(customer) = some_customer(table, random) else {
        return false;
    };
    set_kept(&mut table.customers[customer], Some(some_numbers(random)));
    table.customers[customer].kept = some_mark(random);
    true
}

fn mark_above_zeros(table: &mut Table, random: &mut Random) -> bool {
    let Some(customer) = some_customer(table, random) else {
        return false;
    };
    set_kept(&mut table.customers[customer], None);
    table.customers[customer].kept = some_mark(random);
    true
}

fn epoch_above(table: &mut Table, random: &mut Random) -> bool {
    let Some(customer) = some_customer(table, random) else {
        return false;
    };
    let (low, bit) = (random.word() >> 8, 1 << random.between(24, 31));
    let epoch = *random.pick(&[1 << 24, bit, bit | low, u32::MAX]);
    set_kept(&mut table.customers[customer], Some((epoch, random.word())));
    true
}
