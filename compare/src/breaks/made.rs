//! A6: "unmarked calls hold zeros there; no two marked calls of a pair share both"; a mark is 0 or 1, an epoch has 24
//! bits.

use super::calls::with_call;
use super::tools::*;
use super::Break;
use crate::random::Random;
use crate::tables;
use second::table::{Call, Table};

pub const BREAKS: &[(&str, Break)] = &[
    ("request epoch without the mark", |t, r| {
        unmarked(t, r, |call, bit| call.epoch = bit)
    }),
    ("request identifier without the mark", |t, r| {
        unmarked(t, r, |call, bit| call.identifier = bit)
    }),
    ("made call's mark cleared", mark_cleared),
    ("made mark above 1", mark_above),
    ("made mark above 1, numbers zero", mark_above_zeros),
    ("request epoch above 24 bits", epoch_above),
    ("both request numbers twice in a pair", numbers_twice),
    ("request numbers 0 and 0 twice in a pair", zeros_twice),
    ("both request numbers in all calls of a pair", numbers_in_all),
];

/// A call without a mark, one bit of its numbers set.
fn unmarked(table: &mut Table, random: &mut Random, change: fn(&mut Call, u32)) -> bool {
    let bit = 1 << random.below(32);
    with_call(table, random, |call| {
        set_request(call, None);
        change(call, bit);
    })
}

/// The numbers stay, or one of them does.
fn mark_cleared(table: &mut Table, random: &mut Random) -> bool {
    let numbers = *random.pick(&[(1, 0), (0, 1), (9, 77), (0x00ff_ffff, u32::MAX)]);
    with_call(table, random, |call| {
        set_request(call, Some(numbers));
        call.made = 0;
    })
}

/// The right one with a bit above it, too, which a test of its lowest bit would not see.
fn some_mark(random: &mut Random) -> u32 {
    let far = 1 << random.between(1, 31);
    *random.pick(&[2, 3, 255, 256, u32::MAX, far, far | 1])
}

fn mark_above(table: &mut Table, random: &mut Random) -> bool {
    let mark = some_mark(random);
    let numbers = some_numbers(random);
    with_call(table, random, |call| {
        set_request(call, Some(numbers));
        call.made = mark;
    })
}

fn mark_above_zeros(table: &mut Table, random: &mut Random) -> bool {
    let mark = some_mark(random);
    with_call(table, random, |call| {
        set_request(call, None);
        call.made = mark;
    })
}

fn epoch_above(table: &mut Table, random: &mut Random) -> bool {
    let (low, bit) = (random.word() >> 8, 1 << random.between(24, 31));
    let epoch = *random.pick(&[1 << 24, bit, bit | low, u32::MAX]);
    let identifier = random.word();
    with_call(table, random, |call| set_request(call, Some((epoch, identifier))))
}

fn numbers_twice(table: &mut Table, random: &mut Random) -> bool {
    let numbers = some_numbers(random);
    twice(table, numbers, random)
}

fn zeros_twice(table: &mut Table, random: &mut Random) -> bool {
    twice(table, (0, 0), random)
}

/// Two made calls of one pair, with nothing else in common.
fn twice(table: &mut Table, numbers: (u32, u32), random: &mut Random) -> bool {
    let Some((one, other)) = two_of_a_pair(table, random) else {
        return false;
    };
    set_request(&mut table.calls[one], Some(numbers));
    set_request(&mut table.calls[other], Some(numbers));
    true
}

/// The same in as many calls as the pair has.
fn numbers_in_all(table: &mut Table, random: &mut Random) -> bool {
    let Some((one, _)) = two_of_a_pair(table, random) else {
        return false;
    };
    let numbers = some_numbers(random);
    let pair = (table.calls[one].endpoint, table.calls[one].sender);
    for slot in tables::used(table) {
        let call = &mut table.calls[slot];
        if (call.endpoint, call.sender) == pair {
            set_request(call, Some(numbers));
        }
    }
    true
}
