//! A7 and A13: the table rule of refreshes, and refreshes in checkpoints.

use super::build::*;
use super::checkpoint_bytes::*;
use crate::table::Table;
use crate::{handle, read_checkpoint, read_roster, write_checkpoint, Node};

/// Calls refreshed at 10 and 20, a connection under the second; the time is 30.
fn sound() -> Table {
    let mut tested = TestNode::new(ROOMY);
    assert_eq!(tested.ask_at(at(10, 0), &open(X, 5, b"a")), 20);
    assert_eq!(tested.ask_at(at(20, 0), &open(X, 6, b"b")), 20);
    assert_eq!(tested.ask_at(at(30, 0), &path(X, 6, 1)), 23);
    tested.table
}

fn breaks(change: impl FnOnce(&mut Table)) -> bool {
    let mut table = sound();
    change(&mut table);
    let (answered, after) = handle(&table, at(u32::MAX, 1), &[], &mut [OLD; 128]);
    let broken = answered.answer == 1;
    assert_eq!(broken, Node::from_table(&table).is_none());
    assert!(!broken || after == table && answered.closings.is_empty());
    broken
}

#[test]
fn no_refresh_lies_after_the_time() {
    assert!(!breaks(|_| ()));
    for slot in [0, 1] {
        assert!(!breaks(|t| t.calls[slot].refreshed = 0));
        assert!(!breaks(|t| t.calls[slot].refreshed = 30));
        for value in [31, 32, 1 << 16, 1 << 31, u32::MAX] {
            assert!(breaks(|t| t.calls[slot].refreshed = value));
        }
    }
    // No rule is on the time itself.
    assert!(!breaks(|t| t.time = 20));
    assert!(!breaks(|t| t.time = u32::MAX));
    assert!(breaks(|t| t.time = 19));
    assert!(breaks(|t| t.time = 0));
    assert!(!breaks(|t| {
        t.time = u32::MAX;
        t.calls[1].refreshed = u32::MAX;
    }));
}

#[test]
fn free_slots_have_no_refresh() {
    for slot in [2, 63, 64, 199] {
        for value in [1, 29, 30, 31, u32::MAX] {
            assert!(breaks(|t| t.calls[slot].refreshed = value));
        }
    }
}

/// A call's record with this refresh.
fn refreshed(mut record: Vec<u8>, time: u32) -> Vec<u8> {
    record[44..48].copy_from_slice(&time.to_be_bytes());
    record
}

#[test]
fn refreshes_are_written_and_read() {
    let mut buffer = [OLD; 300];
    let (answer, length) = write_checkpoint(&sound(), &mut buffer);
    assert_eq!(answer, 0);
    let calls = [refreshed(call(0, 5, X, b"a"), 10), refreshed(call(1, 6, X, b"b"), 20)];
    assert_eq!(buffer[..length], checkpoint(&calls, &[under(6, X, 1)]));
    let read = salvage(ROOMY, &buffer[..length]);
    // The time is the latest refresh, not the time of writing.
    let due = Table {
        time: 20,
        ..read_back(&sound())
    };
    assert_eq!((read.dropped, read.table), ((0, 0), due));
}

#[test]
fn no_refresh_is_dropped() {
    for value in [0, 1, 255, 1 << 16, 1 << 31, u32::MAX] {
        let calls = [refreshed(call(3, 5, X, b"a"), value), call(1, 6, X, b"b")];
        let read = salvage(ROOMY, &checkpoint(&calls, &[]));
        assert_eq!(read.dropped, (0, 0));
        assert_eq!((read.table.calls[3].refreshed, read.table.time), (value, value));
        assert_eq!(read.table.calls[1].refreshed, 0);
    }
}

/// Only calls that are kept raise the time: not one alone, not a duplicate, not one beside others.
#[test]
fn calls_that_are_dropped_leave_the_time() {
    let dropped = [
        call(0, 0, X, b"no ID"),
        call(0, 7, UNLISTED, b"whose"),
        call(5, 7, X, b"a"),
        call(3, 7, X, b"slot taken"),
        call(5, 5, X, b"short ID twice"),
    ];
    for record in dropped {
        let calls = [refreshed(call(3, 5, X, b"a"), 40), refreshed(record, 90)];
        let read = salvage(ROOMY, &checkpoint(&calls, &[]));
        assert_eq!((read.dropped, read.table.time), ((1, 0), 40));
    }
    let alone = [refreshed(call(200, 5, X, b"a"), 90)];
    assert_eq!(salvage(ROOMY, &checkpoint(&alone, &[])).table.time, 0);
    // A refusal gives the fresh table.
    let fresh = read_roster(&roster(ROOMY)).1;
    let two = [refreshed(call(3, 5, X, b"a"), 40), alone[0].clone()];
    let refused = read_checkpoint(false, &roster(ROOMY), &checkpoint(&two, &[]));
    assert_eq!(refused, (72, fresh, 0, 0));
    assert_eq!(fresh.time, 0);
}

/// Records from before the request hold 0: five periods from time 0 they are due.
#[test]
fn old_copies() {
    let table = salvage(ROOMY, &checkpoint(&[call(3, 5, X, b"a")], &[])).table;
    let mut tested = TestNode::with(table);
    assert_eq!(tested.ask_at(at(49, 10), &[]), 3);
    assert_eq!(tested.closings, []);
    assert_eq!(tested.ask_at(at(50, 10), &[]), 3);
    assert_eq!(tested.closings.len(), 1);
}
