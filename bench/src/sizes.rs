//! The size of the table, and the stack that the proved program's functions use at a full one.

use crate::checkpoints;
use crate::inputs::{calls, wide, Calls, Pairs};
use crate::messages::{self, Row};
use crate::output;
use crate::stack;
use compare::first::{self, NO_CLOSINGS};
use second::table::Table;
use std::hint::black_box;

pub fn print() {
    output::head_of_sizes();
    output::size("the table", size_of::<Table>());
    print_stack(wide(200, Pairs::One));
    print_stack(calls(64, Pairs::One));
}

/// The stack of every function at a full table.
fn print_stack(full: Calls) {
    for row in messages::rows(full) {
        output::size(&format!("stack, {}", row.name), stack_of(&row));
    }
    let (roster, mut table) = (full.roster(), full.table());
    let used = stack::used(|| {
        black_box(first::read_roster(&mut table, &roster));
    });
    output::size(&format!("stack, reading a roster{}", full.form_name()), used);
    let mut table = full.table();
    let (mut checkpoint, mut length) = (vec![0; checkpoints::MOST], 0);
    let used = stack::used(|| length = first::write_checkpoint(&table, &mut checkpoint).1);
    let name = full.name("");
    output::size(&format!("stack, writing a checkpoint, {name}"), used);
    let used = stack::used(|| {
        black_box(first::read_checkpoint(&mut table, true, &roster, &checkpoint[..length]));
    });
    output::size(&format!("stack, reading a checkpoint, salvage, {name}"), used);
}

/// The most that one of the row's messages uses.
pub fn stack_of(row: &Row) -> usize {
    let (mut table, mut most) = (row.table, 0);
    let mut closings = NO_CLOSINGS;
    for (message, due) in &row.messages {
        let (mut reply, mut answer) = ([0; 128], 0);
        let used =
            stack::used(|| answer = first::handle(&mut table, message, &mut reply, row.clock, &mut closings).answer);
        assert_eq!(answer, *due);
        most = most.max(used);
    }
    most
}
