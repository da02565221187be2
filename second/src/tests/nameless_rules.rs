//! A6: the table rules of made calls, and their records in checkpoints.

use super::build::*;
use super::checkpoint_bytes::*;
use crate::table::{Call, Table};
use crate::{read_checkpoint, write_checkpoint, Node};

/// Two calls of X that requests 3, 4 and 3, 5 made, between them one of another pair of X's that 3, 4 made, and a named
/// one of Y.
fn sound() -> Table {
    let mut tested = TestNode::new(ROOMY);
    for message in [
        nameless(X, 3, 4),
        nameless_at(X, X, 3, 4),
        nameless(X, 3, 5),
        open(Y, 7, b"y"),
    ] {
        assert_eq!(tested.ask(&message), 20);
    }
    tested.table
}

/// Whether the sound table breaks a rule once a call is changed.
fn breaks(slot: usize, change: impl FnOnce(&mut Call)) -> bool {
    let mut table = sound();
    change(&mut table.calls[slot]);
    let (answer, ..) = handle_at_0(&table, &[], &mut [OLD; 128]);
    assert_eq!(answer == 1, Node::from_table(&table).is_none());
    answer == 1
}

#[test]
fn a_mark_is_0_or_1() {
    assert!(!breaks(0, |_| ()));
    for mark in [2, 3, 0x100, 1 << 31, u32::MAX] {
        assert!(breaks(0, |call| call.made = mark));
        assert!(breaks(3, |call| call.made = mark));
        assert!(breaks(10, |call| call.made = mark));
    }
    // With the mark the numbers may be any, zeros too; a free slot has none.
    assert!(!breaks(3, |call| call.made = 1));
    assert!(breaks(10, |call| call.made = 1));
}

#[test]
fn an_unmarked_call_holds_zeros() {
    for bit in 0..32 {
        assert!(breaks(3, |call| call.epoch = 1 << bit));
        assert!(breaks(3, |call| call.identifier = 1 << bit));
        assert!(breaks(10, |call| call.epoch = 1 << bit));
        assert!(breaks(10, |call| call.identifier = 1 << bit));
    }
    assert!(breaks(0, |call| call.made = 0));
    assert!(breaks(0, |call| (call.made, call.epoch) = (0, 0)));
    assert!(breaks(0, |call| (call.made, call.identifier) = (0, 0)));
    assert!(!breaks(0, |call| (call.made, call.epoch, call.identifier) = (0, 0, 0)));
}

#[test]
fn an_epoch_has_24_bits() {
    assert!(!breaks(0, |call| call.epoch = 0x00ff_ffff));
    assert!(!breaks(0, |call| (call.epoch, call.identifier) = (0, u32::MAX)));
    for epoch in [1 << 24, 0x0100_0003, u32::MAX] {
        assert!(breaks(0, |call| call.epoch = epoch));
    }
}

#[test]
fn no_two_marked_calls_of_a_pair_share_both_numbers() {
    assert!(breaks(0, |call| call.identifier = 5));
    assert!(!breaks(0, |call| call.identifier = 6));
    assert!(!breaks(0, |call| (call.epoch, call.identifier) = (4, 5)));
    // The call at the other end point has the first one's numbers; moved to its pair it shares them.
    assert!(breaks(1, |call| (call.endpoint, call.id, call.name[0]) = (END, 99, b'n')));
    let other = |numbers| {
        breaks(1, |call| {
            (call.endpoint, call.id, call.name[0]) = (END, 99, b'n');
            (call.made, call.epoch, call.identifier) = numbers;
        })
    };
    assert!(other((1, 3, 5)));
    assert!(!other((1, 0, 0)));
    assert!(!other((0, 0, 0)));
}

#[test]
fn zeros_in_a_marked_call_and_in_unmarked_ones() {
    let mut table = sound();
    for (slot, mark) in [(0, 1), (2, 0)] {
        let call = &mut table.calls[slot];
        (call.made, call.epoch, call.identifier) = (mark, 0, 0);
    }
    assert!(Node::from_table(&table).is_some());
    table.calls[2].made = 1;
    assert!(Node::from_table(&table).is_none());
}

/// A record of X at END with a mark and two numbers.
fn made(slot: u8, id: u16, name: &[u8], epoch: u32, identifier: u32) -> Vec<u8> {
    let mut record = call(slot, id, X, name);
    record[11] |= 0x80;
    record[48..51].copy_from_slice(&epoch.to_be_bytes()[1..]);
    record[51..].copy_from_slice(&identifier.to_be_bytes());
    record
}

#[test]
fn the_bytes_of_a_made_call() {
    let mut tested = TestNode::new(ROOMY);
    assert_eq!(tested.ask(&nameless(X, 0x00ab_cdef, 0x1234_5678)), 20);
    let mut expected = hex("1001 0000 00 0001 0a000002 0a000001 94");
    expected.extend(b"0a0000010a0000020001");
    expected.extend([0; 12]);
    expected.extend(hex("00000000 abcdef 12345678"));
    let mut buffer = [OLD; 100];
    assert_eq!(write_checkpoint(&tested.table, &mut buffer), (0, 59));
    assert_eq!(buffer[..59], expected);
    let read = salvage(ROOMY, &expected);
    assert_eq!(read.table, read_back(&tested.table));
    // The retry finds it after the restart.
    let mut restarted = TestNode::with(read.table);
    assert_eq!(restarted.ask(&nameless(X, 0x00ab_cdef, 0x1234_5678)), 21);
    assert_eq!(restarted.ask(&nameless(X, 0x00ab_cdef, 0x1234_5679)), 20);
    assert_eq!(restarted.table.calls[1].id, 2);
}

#[test]
fn made_calls_are_written_and_read_back() {
    let table = sound();
    let mut buffer = [OLD; 300];
    let (answer, length) = write_checkpoint(&table, &mut buffer);
    assert_eq!((answer, length), (0, 4 + 4 * 55));
    for salvages in [false, true] {
        let read = read_checkpoint(salvages, &roster(ROOMY), &buffer[..length]);
        assert_eq!(read, (0, read_back(&table), 0, 0));
    }
}

#[test]
fn salvage_tests_the_two_numbers_beside_those_kept() {
    let calls = [
        made(0, 5, b"a", 3, 4),
        made(1, 6, b"b", 3, 4),
        made(2, 7, b"c", 4, 3),
        call(3, 8, X, b"d"),
    ];
    // The first record stays, though the second has the connections.
    let read = salvage(ROOMY, &checkpoint(&calls, &[under(6, X, 1), under(7, X, 2)]));
    assert_eq!(read.calls, [(0, 5), (2, 7), (3, 8)]);
    assert_eq!(read.dropped, (1, 1));
    assert_eq!(read.lsps(2), [2]);
    assert_eq!((read.table.calls[0].made, read.table.calls[3].made), (1, 0));
}

#[test]
fn step_2_goes_by_names_before_numbers_are_compared() {
    // 6 wins the name `a` by its connection; then its numbers are nobody's, for 5 is gone.
    let calls = [made(0, 5, b"a", 3, 4), made(1, 6, b"a", 3, 4), made(2, 7, b"b", 3, 4)];
    let read = salvage(ROOMY, &checkpoint(&calls, &[under(6, X, 1)]));
    assert_eq!(read.calls, [(1, 6)]);
    assert_eq!(read.dropped, (2, 0));
}

#[test]
fn a_record_dropped_beside_others_keeps_no_numbers() {
    // The second record's slot is taken: its numbers are free for the third.
    let calls = [call(0, 5, X, b"a"), made(0, 6, b"b", 3, 4), made(1, 7, b"c", 3, 4)];
    let read = salvage(ROOMY, &checkpoint(&calls, &[]));
    assert_eq!(read.calls, [(0, 5), (1, 7)]);
    assert_eq!(read.dropped, (1, 0));
}
