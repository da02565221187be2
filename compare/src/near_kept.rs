//! Near misses of A8: kept MESSAGE_IDs that look wrong and break no rule.

use crate::breaks::tools::{some_customer, two_customers};
use crate::breaks::Break;
use crate::late::{set_kept, Numbers};
use crate::random::Random;
use second::table::Table;

pub const NEAR_MISSES: &[(&str, Break)] = &[
    ("kept epoch and identifier 0", |t, r| keep(t, r, Some((0, 0)))),
    ("kept epoch and identifier at their largest", |t, r| {
        keep(t, r, Some((0x00ff_ffff, u32::MAX)))
    }),
    ("kept epoch 0, any identifier", |t, r| {
        let identifier = r.word();
        keep(t, r, Some((0, identifier)))
    }),
    ("kept identifier 0, any epoch", |t, r| {
        let epoch = r.word() >> 8;
        keep(t, r, Some((epoch, 0)))
    }),
    ("none kept", |t, r| keep(t, r, None)),
    ("none kept of any customer", |t, _| {
        t.customers.iter_mut().for_each(|one| set_kept(one, None));
        true
    }),
    ("the same kept of two customers", same),
    ("kept the node's own epoch and next identifier", |t, r| {
        keep(t, r, Some((t.epoch, t.next)))
    }),
];

fn keep(table: &mut Table, random: &mut Random, numbers: Option<Numbers>) -> bool {
    let Some(customer) = some_customer(table, random) else {
        return false;
    };
    set_kept(&mut table.customers[customer], numbers);
    true
}

fn same(table: &mut Table, random: &mut Random) -> bool {
    let Some((one, other)) = two_customers(table, random) else {
        return false;
    };
    let numbers = Some((random.word() >> 8, random.word()));
    set_kept(&mut table.customers[one], numbers);
    set_kept(&mut table.customers[other], numbers);
    true
}
