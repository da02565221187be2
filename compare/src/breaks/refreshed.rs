//! A7: "no refresh lies after it", the node's time. What is free holds zeros, whatever the time is.

use super::calls::with_call;
use super::Break;
use crate::random::Random;
use crate::tables::{self, is_taken};
use second::table::Table;

pub const BREAKS: &[(&str, Break)] = &[
    ("refresh a second after the time", |t, r| {
        refreshed(t, r, |time, _| time + 1)
    }),
    ("refresh far after the time", |t, r| refreshed(t, r, far)),
    ("refresh of the largest number after the time", |t, r| {
        refreshed(t, r, |_, _| u32::MAX)
    }),
    ("refresh after the time, under connections", under_connections),
    ("time a second before the latest refresh", time_before),
    ("time 0 and a refresh", time_none),
    ("free slot's refresh, not after the time", free_slot),
];

/// A call's refresh, from the time, which is not the largest.
fn refreshed(table: &mut Table, random: &mut Random, value: fn(u32, &mut Random) -> u32) -> bool {
    make_room(table);
    let value = value(table.time, random);
    with_call(table, random, |call| call.refreshed = value)
}

/// There is a number after the time, and no refresh is there.
fn make_room(table: &mut Table) {
    if table.time == u32::MAX {
        table.time -= 1;
        for call in &mut table.calls {
            call.refreshed = call.refreshed.min(table.time);
        }
    }
}

fn far(time: u32, random: &mut Random) -> u32 {
    time + random.between(1, (u32::MAX - time) as usize) as u32
}

fn under_connections(table: &mut Table, random: &mut Random) -> bool {
    make_room(table);
    let is_lit = |&slot: &usize| table.calls[slot].places.iter().any(is_taken);
    let lit: Vec<usize> = tables::used(table).into_iter().filter(is_lit).collect();
    if lit.is_empty() {
        return false;
    }
    table.calls[*random.pick(&lit)].refreshed = table.time + 1;
    true
}

fn time_before(table: &mut Table, _: &mut Random) -> bool {
    let latest = table.calls.iter().map(|call| call.refreshed).max().unwrap_or(0);
    table.time = latest.saturating_sub(1);
    latest > 0
}

fn time_none(table: &mut Table, random: &mut Random) -> bool {
    table.time = 0;
    let refreshed = 1 << random.below(32);
    with_call(table, random, |call| call.refreshed = call.refreshed.max(refreshed))
}

/// The time is late enough for it.
fn free_slot(table: &mut Table, random: &mut Random) -> bool {
    let free = tables::free(table);
    if free.is_empty() {
        return false;
    }
    table.time = table.time.max(1);
    let some = 1 + random.below(table.time as usize) as u32;
    let slot = *random.pick(&free);
    table.calls[slot].refreshed = *random.pick(&[1, table.time, some]);
    true
}
