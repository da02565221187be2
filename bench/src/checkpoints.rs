//! Writing and reading checkpoints of tables, and reading those of the largest counts that the format allows.

use crate::chosen_checkpoints;
use crate::clock::{best_of_three, LONG};
use crate::inputs::{calls, wide, Calls, Pairs};
use crate::largest;
use crate::output::{self, thousands};
use crate::tried_checkpoints;
use compare::first;
use second::table::Table;

/// The most bytes of a table's checkpoint: 200 calls, 832 connections.
pub const MOST: usize = 4 + 55 * 200 + 18 * 832;

/// Writes a table's checkpoint and reads it, plain and with salvage. Both programs have to write the same bytes.
pub fn measure(calls: Calls) {
    let table = calls.table();
    let roster = calls.roster();
    let mut buffer = vec![0; MOST];
    let (answer, length) = first::write_checkpoint(&table, &mut buffer);
    assert_eq!(answer, 0);
    let (mut checkpoint, mut other) = (vec![0; length], vec![0; length]);
    let mut one = || first::write_checkpoint(&table, &mut checkpoint).1 as u64;
    let mut two = || second::write_checkpoint(&table, &mut other).1 as u64;
    assert_eq!((one(), two()), (length as u64, length as u64));
    let times = LONG.in_turns(&mut one, &mut two);
    assert_eq!(checkpoint, other);
    let what = format!("{}, {} bytes", calls.name("0 calls"), thousands(length as u64));
    output::times(&format!("(g) writing a checkpoint, {what}"), times, None);
    for (salvages, mode) in [(false, "plain"), (true, "salvage")] {
        let mut read = Table::EMPTY;
        let mut one = || u64::from(first::read_checkpoint(&mut read, salvages, &roster, &checkpoint).0);
        let mut two = || u64::from(second::read_checkpoint(salvages, &roster, &checkpoint).0);
        assert_eq!((one(), two()), (0, 0));
        let times = LONG.in_turns(&mut one, &mut two);
        output::times(&format!("(g) reading a checkpoint, {mode}, {what}"), times, None);
    }
}

/// Reads checkpoints of the largest counts, with salvage: the best of three readings of each.
pub fn measure_large() {
    let chosen = chosen_checkpoints::all().into_iter().chain(tried_checkpoints::all());
    for (what, checkpoint) in largest::plain().into_iter().chain(chosen) {
        for full in [wide(200, Pairs::One), calls(64, Pairs::One)] {
            measure_few(what, full, &checkpoint);
        }
    }
}

fn measure_few(what: &str, full: Calls, checkpoint: &[u8]) {
    let roster = full.roster();
    let mut table = Table::EMPTY;
    let (answer, calls, connections) = first::read_checkpoint(&mut table, true, &roster, checkpoint);
    let second = second::read_checkpoint(true, &roster, checkpoint);
    assert!((answer, table, calls, connections) == second, "the two programs differ");
    let mut one = || u64::from(first::read_checkpoint(&mut table, true, &roster, checkpoint).0);
    let mut two = || u64::from(second::read_checkpoint(true, &roster, checkpoint).0);
    let times = best_of_three(&mut one, &mut two);
    let length = thousands(checkpoint.len() as u64);
    let form = full.form_name();
    let name = format!("(g) reading the largest checkpoint, {what}, salvage, {length} bytes{form}, best of 3");
    output::times(&name, times, None);
}
