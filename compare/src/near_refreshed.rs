//! Near misses of A7: refreshes and times that look wrong and break no rule.

use crate::breaks::Break;
use crate::random::Random;
use crate::tables::{self, EMPTY};
use second::table::Table;

pub const NEAR_MISSES: &[(&str, Break)] = &[
    ("refresh equal to the time", equal),
    ("all refreshes equal to the time", all_equal),
    ("refreshes 0, any time", zeros),
    ("time and refreshes 0", |t, r| zeros(t, r) && time_to(t, 0)),
    ("time at the latest refresh", time_at_latest),
    ("time at its largest", |t, _| time_to(t, u32::MAX)),
    ("time and a refresh at their largest", |t, r| {
        time_to(t, u32::MAX) && equal(t, r)
    }),
    ("empty table, any time", empty),
];

fn time_to(table: &mut Table, time: u32) -> bool {
    table.time = time;
    true
}

fn equal(table: &mut Table, random: &mut Random) -> bool {
    let Some(slot) = tables::some_used(table, random) else {
        return false;
    };
    table.calls[slot].refreshed = table.time;
    true
}

fn all_equal(table: &mut Table, _: &mut Random) -> bool {
    for slot in tables::used(table) {
        table.calls[slot].refreshed = table.time;
    }
    true
}

fn zeros(table: &mut Table, _: &mut Random) -> bool {
    table.calls.iter_mut().for_each(|call| call.refreshed = 0);
    true
}

fn time_at_latest(table: &mut Table, _: &mut Random) -> bool {
    let latest = table.calls.iter().map(|call| call.refreshed).max();
    time_to(table, latest.unwrap_or(0))
}

fn empty(table: &mut Table, random: &mut Random) -> bool {
    *table = EMPTY;
    let any = random.word();
    time_to(table, *random.pick(&[1, any, u32::MAX]))
}
