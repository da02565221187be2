//! 01, "Every answer": connections.

use super::build::*;
use crate::table::Place;

fn with_call_5() -> TestNode {
    let mut tested = TestNode::two();
    assert_eq!(tested.ask(&open(X, 5, b"ab")), 20);
    tested
}

#[test]
fn four_under_a_call() {
    let mut tested = with_call_5();
    for lsp in 1..=4 {
        assert_eq!(tested.ask(&path(X, 5, lsp)), 23);
        // A repeated Path does not raise the count of four.
        assert_eq!(tested.ask(&path(X, 5, lsp)), 24);
    }
    assert_eq!(tested.ask(&path(X, 5, 5)), 37);
    assert_eq!(tested.ask(&path(X, 5, 4)), 24);
    assert_eq!(tested.ask(&path(X, 0, 5)), 23);
}

#[test]
fn four_of_call_id_0_per_customer() {
    let mut tested = with_call_5();
    let to = |endpoint, lsp| message(PATH, &[session(endpoint, 0, 1, X), template(X, lsp)]);
    for endpoint in 1..=4 {
        assert_eq!(tested.ask(&to(endpoint, 1)), 23);
    }
    assert_eq!(tested.ask(&to(5, 1)), 37);
    assert_eq!(tested.ask(&path(Y, 0, 1)), 23);
    assert_eq!(tested.ask(&path(X, 5, 9)), 23);
    // They never cause a 32.
    assert_eq!(tested.ask(&tear(X, 5, 9)), 25);
    assert_eq!(tested.ask(&close(X, 5, b"ab")), 22);
}

#[test]
fn another_call_id_is_14_both_ways() {
    let mut tested = with_call_5();
    assert_eq!(tested.ask(&open(X, 6, b"six")), 20);
    assert_eq!(tested.ask(&path(X, 5, 1)), 23);
    assert_eq!(tested.ask(&path(X, 0, 2)), 23);
    assert_eq!(tested.ask(&path(X, 0, 1)), 14);
    assert_eq!(tested.ask(&path(X, 6, 1)), 14);
    assert_eq!(tested.ask(&path(X, 5, 2)), 14);
    // Before 35.
    assert_eq!(tested.ask(&path(X, 7, 1)), 14);
    assert_eq!(tested.ask(&path(X, 7, 3)), 35);
}

#[test]
fn a_call_of_another_pair_is_35() {
    let mut tested = with_call_5();
    assert_eq!(tested.ask(&path(Y, 5, 1)), 35);
    let elsewhere = message(PATH, &[session(END + 1, 5, 1, X), template(X, 1)]);
    assert_eq!(tested.ask(&elsewhere), 35);
}

#[test]
fn each_of_the_five_fields_counts() {
    let mut tested = with_call_5();
    let one = |kind, endpoint, tunnel, extended, sender, lsp| {
        message(kind, &[session(endpoint, 0, tunnel, extended), template(sender, lsp)])
    };
    assert_eq!(tested.ask(&one(PATH, END, 1, X, X, 1)), 23);
    for other in [
        (END + 1, 1, X, X, 1),
        (END, 2, X, X, 1),
        (END, 1, Y, X, 1),
        (END, 1, X, Y, 1),
        (END, 1, X, X, 2),
    ] {
        let (endpoint, tunnel, extended, sender, lsp) = other;
        let tear = one(PATH_TEAR, endpoint, tunnel, extended, sender, lsp);
        assert_eq!(tested.ask(&tear), 15);
        let path = one(PATH, endpoint, tunnel, extended, sender, lsp);
        assert_eq!(tested.ask(&path), 23);
        assert_eq!(tested.ask(&tear), 25);
    }
}

#[test]
fn the_lowest_free_place_and_no_closing_up() {
    let mut tested = with_call_5();
    for call in [5, 0] {
        for lsp in 1..=4 {
            assert_eq!(tested.ask(&path(X, call, 10 * call + lsp)), 23);
        }
        for lsp in [3, 1] {
            assert_eq!(tested.ask(&tear(X, 99, 10 * call + lsp)), 25);
        }
    }
    let call = &tested.table.calls[0];
    assert_eq!(call.places.map(|place| place.lsp), [0, 52, 0, 54]);
    assert_eq!((call.places[0], call.places[2]), (Place::FREE, Place::FREE));
    let standalone = &tested.table.customers[0];
    assert_eq!(standalone.places.map(|place| place.lsp), [0, 2, 0, 4]);
    assert_eq!((standalone.places[0], standalone.places[2]), (Place::FREE, Place::FREE));
    assert_eq!(standalone.endpoints, [0, END, 0, END]);
    assert_eq!(tested.ask(&path(X, 5, 60)), 23);
    assert_eq!(tested.ask(&path(X, 0, 61)), 23);
    assert_eq!(tested.table.calls[0].places[0].lsp, 60);
    assert_eq!(tested.table.customers[0].places[0].lsp, 61);
}

#[test]
fn a_tear_of_what_is_not_held_is_15() {
    let mut tested = with_call_5();
    assert_eq!(tested.ask(&tear(X, 5, 1)), 15);
    assert_eq!(tested.ask(&path(X, 5, 1)), 23);
    assert_eq!(tested.ask(&tear(X, 0, 1)), 25);
    assert_eq!(tested.ask(&tear(X, 5, 1)), 15);
}

#[test]
fn a_connection_of_all_zeros() {
    let mut tested = TestNode::new(&[(0, 1, 2)]);
    let zeros = [session(0, 0, 0, 0), template(0, 0)];
    assert_eq!(tested.ask(&message(PATH_TEAR, &zeros)), 15);
    assert_eq!(tested.ask(&message(PATH, &zeros)), 23);
    assert_eq!(tested.table.customers[0].places[0].taken, 1);
    assert_eq!(tested.ask(&message(PATH, &zeros)), 24);
    assert_eq!(tested.ask(&message(PATH_TEAR, &zeros)), 25);
    assert_eq!(tested.ask(&message(PATH_TEAR, &zeros)), 15);
}
