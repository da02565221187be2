//! A8: late messages.

use super::build::*;
use crate::{handle, Table};

/// 2^31.
const HALF: u32 = 1 << 31;

/// The call `a` of X with short ID 5.
fn opening(numbers: (u32, u32)) -> Vec<u8> {
    with_numbers(X, 5, b"a", SETUP, numbers)
}

fn closing(numbers: (u32, u32)) -> Vec<u8> {
    with_numbers(X, 5, b"a", CLOSE, numbers)
}

/// X and Y, with enough for all.
fn roomy() -> TestNode {
    TestNode::of(&roster_2(&[(X, 0, 200), (Y, 0, 200)]))
}

/// The kept MESSAGE_ID of a customer.
fn last(table: &Table, customer: usize) -> Option<(u32, u32)> {
    let record = &table.customers[customer];
    (record.kept == 1).then_some((record.epoch, record.identifier))
}

/// Asks for what is late: 16, and the table as it was.
fn is_late(tested: &mut TestNode, message: &[u8]) {
    let before = tested.table;
    assert_eq!(tested.ask(message), 16);
    assert_eq!(tested.table, before);
    assert_eq!(tested.reply, []);
}

/// The rows of the request.
#[test]
fn an_overtaken_close_and_a_counter_that_goes_round() {
    let mut tested = roomy();
    assert_eq!(tested.ask(&opening((1, 7))), 20);
    is_late(&mut tested, &closing((1, 6)));
    assert_eq!(tested.table.occupied[0], 1);
    assert_eq!(tested.ask(&with_numbers(X, 0, b"a", CLOSE, (1, 6))), 13);
    assert_eq!(tested.ask(&opening((1, 7))), 21);
    // 2^31 is neither ahead nor behind.
    assert_eq!(tested.ask(&with_numbers(X, 5, b"b", SETUP, (1, 7 + HALF))), 30);
    assert_eq!(tested.ask(&opening((1, 7))), 21);
    assert_eq!(tested.ask(&with_numbers(X, 9, b"c", CLOSE, (2, 1))), 33);
    is_late(&mut tested, &closing((2, 0)));
    is_late(&mut tested, &closing((2, u32::MAX)));
    assert_eq!(tested.ask(&closing((1, 0))), 22);
    assert_eq!(last(&tested.table, 0), Some((1, 0)));
}

/// Which differences of the old identifier less the new are late, wherever the old one stands.
#[test]
fn the_difference_is_read_as_a_signed_number() {
    for old in [0, 1, 7, HALF - 1, HALF, HALF + 1, u32::MAX - 1, u32::MAX] {
        for (less, late) in [
            (0, false),
            (1, true),
            (2, true),
            (1 << 16, true),
            (HALF - 2, true),
            (HALF - 1, true),
            (HALF, false),
            (HALF + 1, false),
            (u32::MAX, false),
        ] {
            let mut tested = roomy();
            assert_eq!(tested.ask(&opening((3, old))), 20);
            let answer = tested.ask(&closing((3, old.wrapping_sub(less))));
            assert_eq!(answer, if late { 16 } else { 22 }, "{old} less {less}");
        }
    }
}

/// Another epoch, higher or lower, starts afresh and is kept; all 24 bits tell epochs apart, the flags none.
#[test]
fn another_epoch_starts_afresh() {
    for bit in 0..24 {
        for (old, new) in [(0, 1 << bit), (1 << bit, 0), (0x00ff_ffff, 0x00ff_ffff ^ 1 << bit)] {
            let mut tested = roomy();
            assert_eq!(tested.ask(&opening((old, 7))), 20);
            assert_eq!(tested.ask(&opening((new, 6))), 21);
            assert_eq!(last(&tested.table, 0), Some((new, 6)));
            is_late(&mut tested, &closing((new, 5)));
            // Back in the first one, which is not remembered.
            assert_eq!(tested.ask(&closing((old, 0))), 22);
        }
    }
    let mut tested = roomy();
    assert_eq!(tested.ask(&opening((9, 7))), 20);
    is_late(&mut tested, &closing((0xff00_0009, 6)));
    assert_eq!(tested.ask(&opening((0x0100_0009, 7))), 21);
    assert_eq!(last(&tested.table, 0), Some((9, 7)));
}

/// What leads to an answer, the IDs and status of the message that gets it, and the answer.
type Row<'a> = (&'a [&'a [u8]], (u16, &'a [u8], u32), u8);

/// 20 to 34 keep one, whatever they say. What leads to them is of another epoch.
#[test]
fn what_keeps_one() {
    let opened = &with_numbers(X, 5, b"a", SETUP, (1, 1))[..];
    let (second, lit) = (&with_numbers(X, 6, b"b", SETUP, (1, 1))[..], &path(X, 5, 1)[..]);
    let rows: [Row; 8] = [
        (&[], (5, b"a", SETUP), 20),
        (&[opened], (5, b"a", SETUP), 21),
        (&[opened], (5, b"a", CLOSE), 22),
        (&[opened], (5, b"b", SETUP), 30),
        (&[opened], (6, b"a", SETUP), 31),
        (&[opened, lit], (5, b"a", CLOSE), 32),
        (&[], (5, b"a", CLOSE), 33),
        (&[opened, second], (7, b"c", SETUP), 34),
    ];
    for (before, (id, name, status), answer) in rows {
        let mut tested = TestNode::two();
        for message in before {
            assert!([20, 23].contains(&tested.ask(message)));
        }
        let message = |identifier| with_numbers(X, id, name, status, (9, identifier));
        assert_eq!(tested.ask(&message(42)), answer);
        assert_eq!(last(&tested.table, 0), Some((9, 42)));
        is_late(&mut tested, &message(41));
        is_late(&mut tested, &with_numbers(X, 5, b"a", CLOSE, (9, 41)));
        is_late(&mut tested, &nameless(X, 9, 41));
    }
}

/// Faults of form keep none, and a Path's MESSAGE_ID is neither compared nor kept.
#[test]
fn what_keeps_none() {
    let mut tested = TestNode::two();
    let mut failed = six(X, 5, b"a", SETUP);
    (failed[1], failed[3]) = (error_spec(32, 1), numbered(9, 50));
    let numbered_path = |kind: u8, identifier: u32| {
        let objects = [session(END, 5, 1, X), template(X, 1), numbered(9, identifier)];
        message(kind, &objects)
    };
    let none_kept = [
        (message(NOTIFY, &failed), 12),
        (with_numbers(X, 0, b"a", SETUP, (9, 50)), 13),
        (with_numbers(UNLISTED, 5, b"a", SETUP, (9, 50)), 11),
        (numbered_path(PATH, 50), 35),
        (numbered_path(PATH_TEAR, 50), 15),
    ];
    for (message, answer) in &none_kept {
        assert_eq!(tested.ask(message), *answer);
        assert_eq!(last(&tested.table, 0), None);
    }
    assert_eq!(tested.ask(&opening((9, 42))), 20);
    for (message, answer) in [
        (numbered_path(PATH, 1), 23),
        (numbered_path(PATH, 50), 24),
        (numbered_path(PATH_TEAR, 0), 25),
    ] {
        assert_eq!(tested.ask(&message), answer);
        assert_eq!(last(&tested.table, 0), Some((9, 42)));
    }
    for (message, answer) in &none_kept[..3] {
        assert_eq!(tested.ask(message), *answer);
        assert_eq!(last(&tested.table, 0), Some((9, 42)));
    }
    is_late(&mut tested, &closing((9, 41)));
}

/// 11, 12 and 13 stand before it, all else behind it.
#[test]
fn the_order_of_the_tests() {
    let mut tested = TestNode::two();
    assert_eq!(tested.ask(&opening((9, 42))), 20);
    let late = (9, 41);
    let mut failed = six(X, 5, b"a", SETUP);
    (failed[1], failed[3]) = (error_spec(32, 1), numbered(late.0, late.1));
    assert_eq!(tested.ask(&message(NOTIFY, &failed)), 12);
    assert_eq!(tested.ask(&with_numbers(X, 5, &[b'n'; 33], SETUP, late)), 13);
    assert_eq!(tested.ask(&with_numbers(X, 0, b"a", CLOSE, late)), 13);
    assert_eq!(tested.ask(&with_numbers(UNLISTED, 5, b"a", CLOSE, late)), 11);
    // In place of 21, 22, 30, 31, 33 and 20.
    for (id, name, status) in [
        (5, &b"a"[..], SETUP),
        (5, b"a", CLOSE),
        (5, b"b", SETUP),
        (6, b"a", SETUP),
        (6, b"b", CLOSE),
        (6, b"b", SETUP),
    ] {
        is_late(&mut tested, &with_numbers(X, id, name, status, late));
    }
    // In place of 34, nameless 20 and 32.
    is_late(&mut tested, &nameless(X, 9, 41));
    assert_eq!(tested.ask(&with_numbers(X, 6, b"b", SETUP, (9, 43))), 20);
    assert_eq!(tested.ask(&path(X, 5, 1)), 23);
    for message in [with_numbers(X, 7, b"c", SETUP, late), nameless(X, 9, 41), closing(late)] {
        is_late(&mut tested, &message);
    }
}

/// Per customer, not per pair and not per call; what one sends is no matter of another's.
#[test]
fn each_customer_has_its_own() {
    let mut tested = roomy();
    assert_eq!(tested.ask(&with_numbers(Y, 1, b"y", SETUP, (9, 1000))), 20);
    assert_eq!(tested.ask(&opening((9, 42))), 20);
    assert_eq!(
        (last(&tested.table, 0), last(&tested.table, 1)),
        (Some((9, 42)), Some((9, 1000)))
    );
    is_late(&mut tested, &with_numbers(Y, 1, b"y", CLOSE, (9, 999)));
    is_late(&mut tested, &nameless_at(X, X, 9, 41));
    assert_eq!(tested.ask(&nameless_at(X, X, 9, 43)), 20);
    is_late(&mut tested, &opening((9, 42)));
    assert_eq!(tested.ask(&with_numbers(Y, 1, b"y", CLOSE, (9, 1000))), 22);
    // The close of all calls leaves it.
    is_late(&mut tested, &with_numbers(Y, 1, b"y", SETUP, (9, 999)));
}

/// Like any message that is not refused 1 or 2, a late one has raised the time and closed calls before; it refreshes
/// none. Their closing leaves what is kept.
#[test]
fn time_and_closings_come_first() {
    let mut tested = roomy();
    assert_eq!(tested.ask_at(at(10, 0), &opening((9, 42))), 20);
    assert_eq!(tested.ask_at(at(20, 0), &opening((9, 41))), 16);
    assert_eq!((tested.table.time, tested.table.calls[0].refreshed), (20, 10));
    assert_eq!(tested.ask_at(at(60, 10), &opening((9, 41))), 16);
    assert_eq!((tested.closings.len(), tested.table.occupied[0]), (1, 0));
    assert_eq!(last(&tested.table, 0), Some((9, 42)));
    is_late(&mut tested, &opening((9, 41)));
    assert_eq!(tested.ask(&opening((9, 42))), 20);
    let (refused, after) = handle(&tested.table, at(99, 1), &opening((9, 41)), &mut [OLD; 127]);
    assert_eq!((refused.answer, after), (2, tested.table));
}
