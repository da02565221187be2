//! 01, "Two customers, one table", and the rest of "Every answer" and "Share".

use super::build::*;
use crate::table::Table;

/// The occupied bits of a full table of form 1.
const ALL_64: [u32; 8] = [u32::MAX, u32::MAX, 0, 0, 0, 0, 0, 0];

#[test]
fn x_up_to_its_limit() {
    let mut tested = TestNode::two();
    assert_eq!(tested.s(), 63);
    assert_eq!(tested.ask(&open(X, 1, b"one")), 20);
    assert_eq!(tested.s(), 63);
    assert_eq!(tested.ask(&open(X, 1, b"one")), 21);
    assert_eq!(tested.ask(&open(X, 2, b"two")), 20);
    assert_eq!(tested.s(), 64);
    assert_eq!(tested.ask(&open(X, 3, b"three")), 34);
}

#[test]
fn y_waits_for_x() {
    let mut tested = TestNode::two();
    tested.open_many(X, 2);
    tested.open_many(Y, 62);
    assert_eq!(tested.s(), 64);
    assert_eq!(tested.ask(&open(Y, 63, b"more")), 34);
    assert_eq!(tested.ask(&close(X, 1, &[0, 1])), 22);
    assert_eq!(tested.ask(&open(Y, 63, b"more")), 20);
    // X is at its guarantee, S is 64: no second call now.
    assert_eq!(tested.s(), 64);
    assert_eq!(tested.ask(&open(X, 3, b"back")), 34);
}

#[test]
fn a_guarantee_stays_open_to_its_customer() {
    let mut tested = TestNode::two();
    tested.open_many(Y, 63);
    assert_eq!(tested.s(), 64);
    assert_eq!(tested.ask(&open(Y, 64, b"y")), 34);
    assert_eq!(tested.ask(&open(X, 1, b"x")), 20);
    assert_eq!(tested.table.occupied, ALL_64);
    assert_eq!(tested.ask(&open(X, 2, b"x2")), 34);
    // 21, 31 and 30 come before 34, at the limit too.
    assert_eq!(tested.ask(&open(X, 1, b"x")), 21);
    assert_eq!(tested.ask(&open(X, 2, b"x")), 31);
    assert_eq!(tested.ask(&open(X, 1, b"y")), 30);
}

#[test]
fn close_under_a_connection() {
    let mut tested = TestNode::two();
    assert_eq!(tested.ask(&open(X, 5, b"ab")), 20);
    assert_eq!(tested.ask(&path(X, 5, 1)), 23);
    assert_eq!(tested.ask(&close(X, 5, b"ab")), 32);
    assert_eq!(tested.ask(&tear(X, 9, 1)), 25);
    assert_eq!(tested.ask(&close(X, 5, b"ab")), 22);
    assert_eq!(tested.ask(&close(X, 5, b"ab")), 33);
}

#[test]
fn ids_of_two_calls() {
    let mut tested = TestNode::two();
    assert_eq!(tested.ask(&open(X, 1, b"one")), 20);
    assert_eq!(tested.ask(&open(X, 2, b"two")), 20);
    assert_eq!(tested.ask(&open(X, 2, b"one")), 31);
    assert_eq!(tested.ask(&open(X, 3, b"one")), 31);
    assert_eq!(tested.ask(&open(X, 1, b"three")), 30);
    assert_eq!(tested.ask(&close(X, 2, b"one")), 33);
    assert_eq!(tested.ask(&close(X, 1, b"three")), 33);
    assert_eq!(tested.ask(&close(X, 3, b"one")), 33);
    // The IDs belong to the pair, not to the node.
    assert_eq!(tested.ask(&open(Y, 1, b"one")), 20);
    assert_eq!(tested.ask(&close(Y, 2, b"two")), 33);
}

#[test]
fn another_end_point_is_another_pair() {
    let mut tested = TestNode::two();
    let at = |endpoint, status| {
        let mut objects = six(X, 1, b"one", status);
        objects[0] = session(endpoint, 1, 1, X);
        message(NOTIFY, &objects)
    };
    assert_eq!(tested.ask(&at(END, SETUP)), 20);
    assert_eq!(tested.ask(&at(END + 1, CLOSE)), 33);
    assert_eq!(tested.ask(&at(END + 1, SETUP)), 20);
    assert_eq!(tested.ask(&at(END, CLOSE)), 22);
    assert_eq!(tested.ask(&at(END + 1, SETUP)), 21);
}

#[test]
fn tunnel_and_lsp_ids_are_no_part_of_a_call() {
    let mut tested = TestNode::two();
    assert_eq!(tested.ask(&open(X, 1, b"one")), 20);
    let mut objects = six(X, 1, b"one", CLOSE);
    objects[0] = session(END, 1, 77, 78);
    objects[2] = template(X, 79);
    assert_eq!(tested.ask(&message(NOTIFY, &objects)), 22);
}

#[test]
fn zeros_at_the_end_are_no_part_of_a_name() {
    for size in 1..=32 {
        let mut padded = vec![0; size];
        padded[0] = b'a';
        // Opened with the padding and without it, the table is the same.
        let (mut bare, mut tested) = (TestNode::two(), TestNode::two());
        assert_eq!(bare.ask(&open(X, 1, b"a")), 20);
        assert_eq!(tested.ask(&open(X, 1, &padded)), 20);
        assert_eq!(tested.table, bare.table);
        for other in 1..=32 {
            let mut name = vec![0; other];
            name[0] = b'a';
            assert_eq!(tested.ask(&open(X, 1, &name)), 21);
            assert_eq!(tested.ask(&open(X, 2, &name)), 31);
            assert_eq!(tested.ask(&close(X, 2, &name)), 33);
        }
        assert_eq!(tested.ask(&path(X, 1, 1)), 23);
        assert_eq!(tested.ask(&close(X, 1, b"a\0\0\0\0\0")), 32);
        assert_eq!(tested.ask(&tear(X, 1, 1)), 25);
        assert_eq!(tested.ask(&close(X, 1, b"a\0\0\0\0\0")), 22);
        assert_eq!(tested.ask(&close(X, 1, &padded)), 33);
    }
}

#[test]
fn zeros_before_the_end_are_part_of_a_name() {
    let names: [&[u8]; 5] = [b"a", b"a\0b", b"a\0\0b", b"\0a", b"\0\0a"];
    let mut tested = TestNode::new(&[(X, 0, 64)]);
    for (id, name) in (1..).zip(names) {
        assert_eq!(tested.ask(&open(X, 99, name)), 20);
        assert_eq!(tested.ask(&close(X, 99, name)), 22);
        assert_eq!(tested.ask(&open(X, id, name)), 20);
    }
    for (id, name) in (1..).zip(names) {
        for (other, padded) in (1..).zip(names.map(|name| [name, b"\0"].concat())) {
            let same = id == other;
            assert_eq!(tested.ask(&open(X, id, &padded)), if same { 21 } else { 31 });
            assert_eq!(tested.ask(&close(X, id, &padded)), if same { 22 } else { 33 });
            if same {
                assert_eq!(tested.ask(&open(X, id, name)), 20);
            }
        }
        assert_eq!(tested.ask(&open(X, id, b"a\0c")), 30);
    }
}

#[test]
fn the_lowest_free_slot() {
    let mut tested = TestNode::new(&[(X, 0, 64)]);
    tested.open_many(X, 64);
    assert_eq!(tested.ask(&open(X, 65, b"full")), 34);
    for id in [41u16, 8, 20] {
        assert_eq!(tested.ask(&close(X, id, &id.to_be_bytes())), 22);
    }
    for (slot, id) in [(7, 101), (19, 102), (40, 103)] {
        assert_eq!(tested.ask(&open(X, id, &id.to_be_bytes())), 20);
        assert_eq!(tested.table.calls[slot].id, id.into());
    }
    assert_eq!(tested.table.occupied, ALL_64);
}

#[test]
fn the_slot_holds_the_call() {
    let mut tested = TestNode::two();
    let fresh = tested.table;
    assert_eq!(tested.ask(&open(X, 5, b"ab")), 20);
    let mut expected = fresh;
    expected.next = 2;
    expected.occupied[0] = 1;
    (
        expected.customers[0].kept,
        expected.customers[0].epoch,
        expected.customers[0].identifier,
    ) = (1, 9, 42);
    expected.calls[0].endpoint = END;
    expected.calls[0].sender = X;
    expected.calls[0].id = 5;
    expected.calls[0].size = 2;
    expected.calls[0].name[..2].copy_from_slice(b"ab");
    assert_eq!(tested.table, expected);
    assert_eq!(tested.ask(&close(X, 5, b"ab")), 22);
    expected = Table {
        next: 3,
        customers: expected.customers,
        ..fresh
    };
    assert_eq!(tested.table, expected);
}
