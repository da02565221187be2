//! 01, "Table rules".

use super::build::*;
use crate::table::{Call, Customer, Place, Table};
use crate::Node;

/// Two calls of X, one of Y; connections under X's first and with both customers.
fn sound() -> Table {
    let mut tested = TestNode::two();
    tested.open_many(X, 2);
    tested.open_many(Y, 1);
    for message in [path(X, 1, 1), path(X, 1, 2), path(X, 0, 3), path(Y, 0, 4)] {
        assert_eq!(tested.ask(&message), 23);
    }
    tested.table
}

/// Whether the sound table breaks a rule once changed.
fn breaks(change: impl FnOnce(&mut Table)) -> bool {
    let mut table = sound();
    change(&mut table);
    let mut reply = [OLD; 128];
    let (answer, length, after) = handle_at_0(&table, &[], &mut reply);
    assert_eq!(after, table);
    assert_eq!(length, 0);
    assert_eq!(reply, [OLD; 128]);
    assert_eq!(answer == 1, Node::from_table(&table).is_none());
    answer == 1
}

#[test]
fn the_layout_is_that_of_the_header() {
    use std::mem::{align_of, offset_of, size_of};
    /// The words from the struct's first to the field's.
    macro_rules! words {
        ($($type:ident $field:ident)*) => { [$(offset_of!($type, $field) / 4),*] };
    }
    let place = words!(Place taken Place tunnel Place extended Place lsp);
    assert_eq!(place, [0, 1, 2, 3]);
    let call = words!(Call endpoint Call sender Call refreshed Call epoch Call identifier Call id Call made Call size
        Call name Call places);
    assert_eq!(call, [0, 1, 2, 3, 4, 5, 6, 7, 8, 16]);
    let customer = words!(Customer address Customer guarantee Customer limit Customer kept Customer epoch
        Customer identifier Customer endpoints Customer places);
    assert_eq!(customer, [0, 1, 2, 3, 4, 5, 6, 10]);
    let table = words!(Table address Table epoch Table next Table time Table listed Table form Table occupied
        Table customers Table calls);
    assert_eq!(table, [0, 1, 2, 3, 4, 5, 6, 14, 222]);
    let bytes = [size_of::<Place>(), size_of::<Call>(), size_of::<Customer>()];
    assert_eq!(bytes, [16, 128, 104]);
    assert_eq!((size_of::<Table>(), align_of::<Table>()), (4 * 6622, 4));
}

#[test]
fn what_no_rule_looks_at() {
    assert!(!breaks(|_| ()));
    assert!(!breaks(|t| t.next = 0));
    assert!(!breaks(|t| t.next = u32::MAX));
    assert!(!breaks(|t| t.address = 0));
    assert!(!breaks(|t| t.epoch = 0x00ff_ffff));
    assert!(breaks(|t| t.epoch = 0x0100_0000));
}

#[test]
fn the_empty_table() {
    let empty = |change: fn(&mut Table)| {
        breaks(|t| {
            *t = Table::EMPTY;
            change(t);
        })
    };
    assert!(!empty(|_| ()));
    assert!(!empty(|t| t.next = 9));
    assert!(empty(|t| t.address = 1));
    assert!(empty(|t| t.epoch = 1));
    for form in [1, 2, 3, u32::MAX] {
        assert!(breaks(|t| *t = Table { form, ..Table::EMPTY }));
    }
    for bit in 0..256 {
        assert!(breaks(|t| {
            *t = Table::EMPTY;
            t.occupied[bit / 32] = 1 << (bit % 32);
        }));
    }
    assert!(empty(|t| t.customers[0].limit = 1));
    assert!(empty(|t| t.customers[7].address = 1));
    assert!(empty(|t| t.calls[63].id = 1));
    assert!(empty(|t| t.calls[0].made = 1));
    assert!(empty(|t| t.calls[64].id = 1));
    assert!(empty(|t| t.calls[199].identifier = 1));
}

#[test]
fn the_roster_is_acceptable() {
    assert!(breaks(|t| t.listed = 0));
    assert!(breaks(|t| t.listed = 1));
    assert!(breaks(|t| t.listed = 3));
    assert!(breaks(|t| t.listed = 9));
    assert!(breaks(|t| t.listed = 255));
    assert!(breaks(|t| t.customers[1].limit = 65));
    assert!(breaks(|t| t.customers[1].limit = 61));
    assert!(breaks(|t| t.customers[1].address = X));
    assert!(breaks(|t| t.customers[1].guarantee = 64));
    assert!(!breaks(|t| t.customers[1].limit = 62));
    assert!(breaks(|t| t.customers[2].address = 1));
    assert!(breaks(|t| t.customers[2].guarantee = 1));
    assert!(breaks(|t| t.customers[7].limit = 1));
    assert!(breaks(|t| t.customers[2].places[3].lsp = 1));
    assert!(breaks(|t| t.customers[2].places[0].taken = 1));
}

#[test]
fn a_listed_customer_needs_a_limit() {
    let with = |limit| {
        breaks(|t| {
            t.listed = 3;
            t.customers[2].limit = limit;
        })
    };
    assert!(with(0));
    assert!(!with(1));
}

#[test]
fn calls_within_limit_and_share() {
    assert!(breaks(|t| t.customers[0].limit = 1));
    assert!(!breaks(|t| t.customers[0].guarantee = 0));
    assert!(!breaks(|t| t.customers[0].guarantee = 2));
    // Calls 2 and guarantee 63 make S 65, though the guarantees are 64.
    assert!(breaks(|t| t.customers[1].guarantee = 63));
    assert!(breaks(|t| t.calls[0].sender = UNLISTED));
}

#[test]
fn ids_once_in_a_pair() {
    assert!(breaks(|t| t.calls[1].id = 1));
    assert!(breaks(|t| t.calls[1].name = t.calls[0].name));
    assert!(!breaks(|t| {
        t.calls[1].name = t.calls[0].name;
        t.calls[1].name[2] = 1;
        t.calls[1].size = 3;
    }));
    assert!(!breaks(|t| {
        t.calls[1].id = 1;
        t.calls[1].name = t.calls[0].name;
        t.calls[1].endpoint += 1;
    }));
    assert!(breaks(|t| t.calls[1].id = 0));
}

#[test]
fn names() {
    assert!(breaks(|t| t.calls[0].size = 0));
    assert!(breaks(|t| t.calls[0].size = 1));
    assert!(!breaks(|t| {
        t.calls[0].size = 32;
        t.calls[0].name[31] = 1;
    }));
    assert!(breaks(|t| t.calls[0].size = 33));
    assert!(breaks(|t| t.calls[0].size = 255));
    assert!(breaks(|t| t.calls[0].name[31] = 1));
    // The last byte is zero, whatever stands before it; zeros elsewhere may stand.
    for size in 1..=32 {
        let name = |last: u8| {
            move |t: &mut Table| {
                t.calls[0].size = size as u32;
                t.calls[0].name = [0; 32];
                t.calls[0].name[..size].fill(b'n');
                t.calls[0].name[size / 2] = 0;
                t.calls[0].name[size - 1] = last;
            }
        };
        assert!(breaks(name(0)));
        assert!(!breaks(name(1)));
        assert!(!breaks(name(0x80)));
        assert!(breaks(|t| {
            t.calls[0].size = size as u32;
            t.calls[0].name = [0; 32];
        }));
    }
    // No bytes at all, and the name zeros.
    assert!(breaks(|t| {
        t.calls[0].size = 0;
        t.calls[0].name = [0; 32];
    }));
}

#[test]
fn zeros_in_unmarked_calls_and_free_slots() {
    // A used slot, the last used one, a free one, the last one.
    for slot in [0, 2, 3, 63, 64, 199] {
        for value in [1, 1 << 23, 1 << 24, 1 << 31, u32::MAX] {
            assert!(breaks(|t| t.calls[slot].epoch = value));
            assert!(breaks(|t| t.calls[slot].identifier = value));
        }
    }
}

#[test]
fn free_slots_are_zeros() {
    assert!(breaks(|t| t.occupied = [0; 8]));
    assert!(breaks(|t| t.occupied[1] |= 1 << 31));
    assert!(breaks(|t| t.calls[3].endpoint = 1));
    assert!(breaks(|t| t.calls[3].sender = 1));
    assert!(breaks(|t| t.calls[3].id = 1));
    assert!(breaks(|t| t.calls[3].size = 1));
    assert!(breaks(|t| t.calls[63].name[31] = 1));
    assert!(breaks(|t| t.calls[63].places[3].taken = 1));
    // A call may stand in any slot.
    assert!(!breaks(|t| {
        t.calls.swap(0, 63);
        (t.occupied[0], t.occupied[1]) = (0b110, 1 << 31);
    }));
}

#[test]
fn free_places_are_zeros() {
    assert!(breaks(|t| t.calls[0].places[0].taken = 0));
    assert!(breaks(|t| t.calls[0].places[3].tunnel = 1));
    assert!(breaks(|t| t.calls[0].places[3].extended = 1));
    assert!(breaks(|t| t.calls[0].places[3].lsp = 1));
    assert!(breaks(|t| t.customers[0].places[0].taken = 0));
    assert!(breaks(|t| t.customers[0].endpoints[3] = 1));
    assert!(breaks(|t| t.customers[0].places[3].tunnel = 1));
    assert!(breaks(|t| t.customers[0].places[3].extended = 1));
    assert!(breaks(|t| t.customers[0].places[3].lsp = 1));
    // Taken and all zeros is a connection like any other.
    assert!(!breaks(|t| t.calls[0].places[3].taken = 1));
    assert!(!breaks(|t| t.customers[0].places[3].taken = 1));
}

#[test]
fn no_connection_twice() {
    // In one call, in two calls of a pair, with one customer, under a call and Call ID 0.
    assert!(breaks(|t| t.calls[0].places[1].lsp = 1));
    assert!(breaks(|t| t.calls[1].places[2] = t.calls[0].places[0]));
    assert!(breaks(|t| {
        t.customers[0].places[1] = t.customers[0].places[0];
        t.customers[0].endpoints[1] = t.customers[0].endpoints[0];
    }));
    assert!(breaks(|t| t.customers[0].places[0].lsp = 1));
    // Another end point or sender makes another connection.
    assert!(!breaks(|t| {
        t.calls[1].endpoint += 1;
        t.calls[1].places[2] = t.calls[0].places[0];
    }));
    assert!(!breaks(|t| t.calls[2].places[2] = t.calls[0].places[0]));
    assert!(!breaks(|t| {
        t.customers[0].places[0].lsp = 1;
        t.customers[0].endpoints[0] += 1;
    }));
}

#[test]
fn a_mark_is_1_or_0() {
    for mark in [2, 3, 7, 255, 256, 257, 1 << 16, 1 << 31, u32::MAX] {
        // Over a connection, over zeros, in a free slot and an unused record.
        assert!(breaks(|t| t.calls[0].places[0].taken = mark));
        assert!(breaks(|t| t.calls[0].places[3].taken = mark));
        assert!(breaks(|t| t.calls[3].places[0].taken = mark));
        assert!(breaks(|t| t.customers[0].places[0].taken = mark));
        assert!(breaks(|t| t.customers[0].places[3].taken = mark));
        assert!(breaks(|t| t.customers[2].places[0].taken = mark));
        for slot in [0, 3] {
            assert!(breaks(|t| t.calls[slot].made = mark));
        }
    }
}

#[test]
fn ids_have_sixteen_bits() {
    assert!(!breaks(|t| t.calls[0].id = 65_535));
    assert!(!breaks(|t| t.calls[0].places[0].tunnel = 65_535));
    assert!(!breaks(|t| t.calls[0].places[0].lsp = 65_535));
    assert!(!breaks(|t| t.customers[0].places[0].tunnel = 65_535));
    assert!(!breaks(|t| t.customers[0].places[0].lsp = 65_535));
    assert!(!breaks(|t| t.calls[0].places[0].extended = u32::MAX));
    assert!(!breaks(|t| t.customers[0].places[0].extended = u32::MAX));
    assert!(!breaks(|t| t.customers[0].endpoints[0] = u32::MAX));
    // The old number with a bit above it, and others.
    for above in [1 << 16, 1 << 17, 70_000, 1 << 24, 1 << 31, u32::MAX] {
        assert!(breaks(|t| t.calls[0].id |= above));
        assert!(breaks(|t| t.calls[0].id = above));
        for place in [0, 3] {
            assert!(breaks(|t| t.calls[0].places[place].tunnel |= above));
            assert!(breaks(|t| t.calls[0].places[place].lsp |= above));
            assert!(breaks(|t| t.customers[0].places[place].tunnel |= above));
            assert!(breaks(|t| t.customers[0].places[place].lsp |= above));
        }
    }
}

#[test]
fn numbers_whose_low_byte_would_do() {
    for above in [1 << 8, 1 << 16, 1 << 24, 1 << 31] {
        assert!(breaks(|t| t.listed |= above));
        assert!(breaks(|t| t.customers[0].guarantee |= above));
        assert!(breaks(|t| t.customers[0].limit |= above));
        assert!(breaks(|t| t.calls[0].size |= above));
    }
    for value in [33, 40, 64, 255, 1 << 31, u32::MAX] {
        assert!(breaks(|t| t.calls[0].size = value));
        assert!(breaks(|t| t.listed = value));
    }
    assert!(breaks(|t| t.customers[2].endpoints[0] = 1));
}
