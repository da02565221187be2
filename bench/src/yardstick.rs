//! bench peer: the proved program beside the yardstick, the tuned and unproved peer, which does the same job with the
//! same table by pointer. A row for each input; then the worst ratio, the slowest row of a table that was chosen to be
//! slow, and the deepest stack.

use crate::chosen::Chosen;
use crate::clock::SHORT;
use crate::expiry;
use crate::inputs::{calls, chosen, wide, Calls, Pairs};
use crate::messages::{self, Row};
use crate::output;
use crate::parts;
use crate::sizes::stack_of;
use compare::first::NO_CLOSINGS;
use compare::layout::{words, words_mut, SLOTS};
use second::Clock;
use std::hint::black_box;

const TABLES: [Calls; 19] = [
    calls(0, Pairs::Own),
    calls(16, Pairs::Own),
    calls(16, Pairs::Eight),
    calls(16, Pairs::One),
    calls(32, Pairs::Own),
    calls(32, Pairs::Eight),
    calls(32, Pairs::One),
    calls(64, Pairs::Own),
    calls(64, Pairs::Eight),
    calls(64, Pairs::One),
    chosen(calls(64, Pairs::One), Chosen::Spread),
    wide(0, Pairs::Own),
    wide(100, Pairs::Own),
    wide(100, Pairs::Eight),
    wide(100, Pairs::One),
    wide(200, Pairs::Own),
    wide(200, Pairs::Eight),
    wide(200, Pairs::One),
    chosen(wide(200, Pairs::One), Chosen::Spread),
];

/// Tables whose keys all meet: for each program there are some, and they are not the same, so that a ratio says little.
const SLOW: [Calls; 3] = [
    chosen(wide(200, Pairs::One), Chosen::Chains),
    chosen(calls(64, Pairs::One), Chosen::Chains),
    chosen(calls(64, Pairs::One), Chosen::Marks),
];

pub fn print() {
    output::head_of_ratios();
    let (mut worst, mut slowest, mut deepest) = (0f64, 0f64, 0);
    for calls in TABLES {
        let (times, stack) = table(calls);
        worst = times.iter().fold(worst, |worst, times| worst.max(times.0 / times.1));
        deepest = deepest.max(stack);
    }
    for row in expiry::TABLES.into_iter().flat_map(expiry::rows) {
        let times = handling(&row.row);
        output::ratio(&row.input(), (row.calls.count, row.calls.pairs()), times);
        worst = worst.max(times.0 / times.1);
        deepest = deepest.max(stack_of(&row.row));
    }
    for calls in SLOW {
        let (times, stack) = table(calls);
        slowest = times.iter().fold(slowest, |slowest, times| slowest.max(times.0));
        deepest = deepest.max(stack);
    }
    for (name, message) in parts::messages() {
        output::reading(name, reading(&message));
    }
    println!("worst ratio {worst:.2}");
    println!("slowest chosen {slowest:.0} ns");
    println!("stack {deepest}");
}

/// Prints a row for each kind of message at a table, and one for the rule check: their times, and the deepest stack.
fn table(calls: Calls) -> (Vec<(f64, f64)>, usize) {
    let (mut all, mut deepest) = (Vec::new(), 0);
    let mut note = |what: &str, times: (f64, f64)| {
        let input = format!("{what}{}{}", calls.chosen.row_name(), calls.form_name());
        output::ratio(&input, (calls.count, calls.pairs()), times);
        all.push(times);
    };
    for row in messages::rows(calls) {
        note(row.what, handling(&row));
        deepest = deepest.max(stack_of(&row));
    }
    note("rule check alone", rules(calls));
    (all, deepest)
}

/// Nanoseconds of both for reading a message to its end.
fn reading(message: &[u8]) -> (f64, f64) {
    let mut proved = || u64::from(parts::read(black_box(message)));
    let mut peer = || u64::from(peer::read_number(black_box(message)));
    assert_eq!((proved(), peer()), (0, 0));
    SHORT.in_turns(&mut proved, &mut peer)
}

/// Nanoseconds per message of both.
fn handling(row: &Row) -> (f64, f64) {
    let count = row.messages.len() as f64;
    let (mut one, mut two) = (row.table, row.table);
    let (mut reply, mut other) = ([0; 128], [0; 128]);
    let (mut closings, mut others) = (NO_CLOSINGS, [[0; 2]; SLOTS]);
    let Clock { time, period } = row.clock;
    let mut proved = || row.turn(&mut one, &mut reply, &mut closings);
    let mut peer = || {
        if row.anew {
            two = row.table;
        }
        for (message, due) in &row.messages {
            let table = words_mut(black_box(&mut two));
            let done = peer::handle(table, message, &mut other, time, period, &mut others);
            assert_eq!(done.answer, *due);
        }
        u64::from(two.next)
    };
    let times = SHORT.in_turns(&mut proved, &mut peer);
    (times.0 / count, times.1 / count)
}

/// Nanoseconds of both for the rule check of a table.
fn rules(calls: Calls) -> (f64, f64) {
    let table = calls.table();
    let mut proved = || u64::from(parts::rules_hold(black_box(&table)));
    let mut peer = || u64::from(peer::rules_hold(words(black_box(&table))));
    assert_eq!((proved(), peer()), (1, 1));
    SHORT.in_turns(&mut proved, &mut peer)
}
