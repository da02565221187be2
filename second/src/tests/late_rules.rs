//! A8 and A13: the table rules of what is kept, and copies, which hold none of it.

use super::build::*;
use crate::table::{Customer, Table};
use crate::{read_checkpoint, write_checkpoint, Node};

/// X has a call, and its MESSAGE_ID 9, 42 is kept; of Y none is.
fn sound() -> Table {
    let mut tested = TestNode::two();
    assert_eq!(tested.ask(&open(X, 5, b"a")), 20);
    tested.table
}

fn breaks(customer: usize, change: impl FnOnce(&mut Customer)) -> bool {
    let mut table = sound();
    change(&mut table.customers[customer]);
    let (answer, length, after) = handle_at_0(&table, &open(X, 5, b"a"), &mut [OLD; 128]);
    let broken = answer == 1;
    assert_eq!(broken, Node::from_table(&table).is_none());
    assert!(!broken || (length, after) == (0, table));
    assert_eq!(write_checkpoint(&table, &mut [OLD; 200]).0, u8::from(broken));
    broken
}

#[test]
fn kept_is_0_or_1() {
    assert!(!breaks(0, |_| ()));
    for mark in [2, 3, 0x100, 0x101, 1 << 31, u32::MAX] {
        for customer in [0, 1, 2, 7] {
            assert!(breaks(customer, |record| record.kept = mark));
        }
    }
    // With the mark the numbers may be any, zeros too; an unused record has none.
    assert!(!breaks(1, |record| record.kept = 1));
    assert!(breaks(2, |record| record.kept = 1));
    assert!(breaks(7, |record| record.kept = 1));
}

#[test]
fn zeros_where_none_is_kept() {
    for customer in [1, 2, 7] {
        for bit in 0..32 {
            assert!(breaks(customer, |record| record.epoch = 1 << bit));
            assert!(breaks(customer, |record| record.identifier = 1 << bit));
        }
    }
    assert!(breaks(0, |record| record.kept = 0));
    assert!(breaks(0, |record| (record.kept, record.epoch) = (0, 0)));
    assert!(breaks(0, |record| (record.kept, record.identifier) = (0, 0)));
    assert!(!breaks(0, |record| {
        (record.kept, record.epoch, record.identifier) = (0, 0, 0);
    }));
}

#[test]
fn an_epoch_has_24_bits() {
    assert!(!breaks(0, |record| record.epoch = 0x00ff_ffff));
    assert!(!breaks(0, |record| (record.epoch, record.identifier) = (0, u32::MAX)));
    for epoch in [1 << 24, 0x0100_0009, 1 << 31, u32::MAX] {
        assert!(breaks(0, |record| record.epoch = epoch));
    }
}

/// Two customers may have the same.
#[test]
fn nothing_is_said_of_two_records() {
    let mut tested = TestNode::two();
    assert_eq!(tested.ask(&open(X, 5, b"a")), 20);
    assert_eq!(tested.ask(&open(Y, 5, b"a")), 20);
    assert_eq!(
        tested.table.customers[0].identifier,
        tested.table.customers[1].identifier
    );
}

/// What was late is taken after a restart.
#[test]
fn a_copy_holds_none() {
    let mut tested = TestNode::with(sound());
    let close = with_numbers(X, 5, b"a", CLOSE, (9, 41));
    assert_eq!(tested.ask(&close), 16);
    let roster = roster(&[(X, 1, 2), (Y, 62, 64)]);
    let mut copy = [OLD; 200];
    let (answer, length) = write_checkpoint(&tested.table, &mut copy);
    assert_eq!((answer, length), (0, 4 + 55));
    for salvages in [false, true] {
        let read = read_checkpoint(salvages, &roster, &copy[..length]);
        assert_eq!(read, (0, read_back(&tested.table), 0, 0));
        let mut restarted = TestNode::with(read.1);
        assert!(read.1.customers.iter().all(|record| record.kept == 0));
        assert_eq!(restarted.ask(&close), 22);
    }
}
