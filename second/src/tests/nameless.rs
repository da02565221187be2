//! A6: calls that arrive without names.

use super::build::*;
use crate::read_message;
use crate::table::{Customer, Table};

/// The name made of a short ID, at END: sender 8, end point 8, short ID 4 digits.
const MADE_OF_1: &[u8] = b"0a0000010a0000020001";
const MADE_OF_2: &[u8] = b"0a0000010a0000020002";

/// X alone, with as many calls as form 2 has.
fn alone() -> TestNode {
    TestNode::of(&roster_2(&[(X, 0, 200)]))
}

/// Asks, and gives the short ID and the name that the reply carries.
fn made(tested: &mut TestNode, message: &[u8], answer: u8) -> (u16, Vec<u8>) {
    assert_eq!(tested.ask(message), answer);
    let reply = &tested.reply;
    let size = usize::from(reply[75]);
    assert_eq!(reply.len(), 76 + size.next_multiple_of(4) + 12);
    (
        u16::from_be_bytes([reply[52], reply[53]]),
        reply[76..76 + size].to_vec(),
    )
}

/// The record with the MESSAGE_ID 9, 42 kept (A8).
fn kept(record: Customer) -> Customer {
    Customer {
        kept: 1,
        epoch: 9,
        identifier: 42,
        ..record
    }
}

#[test]
fn a_nameless_request_and_its_retry() {
    let mut tested = TestNode::two();
    let fresh = tested.table;
    assert_eq!(tested.ask(&nameless(X, 9, 42)), 20);
    let opened = hex(
        "1015 1057 ff00 006c 000c1801 00000009 0000002a 000c1701 01000007 00000001
         000c0601 0a000002 00000000 00100107 0a000002 0001 0001 0a000001 0008c401 00000008
         001ccf07 00000014 3061303030303031 3061303030303032 30303031 000c0b07 0a000001 0000 0001",
    );
    assert_eq!(tested.reply, opened);
    assert_eq!(tested.reply.len(), 108);
    let mut expected = fresh;
    (expected.next, expected.occupied[0]) = (2, 1);
    expected.customers[0] = kept(expected.customers[0]);
    let call = &mut expected.calls[0];
    (call.endpoint, call.sender, call.id, call.size) = (END, X, 1, 20);
    call.name[..20].copy_from_slice(MADE_OF_1);
    (call.made, call.epoch, call.identifier) = (1, 9, 42);
    assert_eq!(tested.table, expected);
    assert_eq!(made(&mut tested, &nameless(X, 9, 42), 21), (1, MADE_OF_1.to_vec()));
    assert_eq!(tested.table, Table { next: 3, ..expected });
    // By its IDs it is a call like any other, and keeps its numbers.
    assert_eq!(tested.ask(&open(X, 1, MADE_OF_1)), 21);
    assert_eq!(tested.table, Table { next: 4, ..expected });
    assert_eq!(tested.ask(&close(X, 1, MADE_OF_1)), 22);
    let mut closed = Table { next: 5, ..fresh };
    closed.customers[0] = kept(closed.customers[0]);
    assert_eq!(tested.table, closed);
    assert_eq!(made(&mut tested, &nameless(X, 9, 42), 20), (1, MADE_OF_1.to_vec()));
}

#[test]
fn names_in_the_way() {
    let mut tested = alone();
    assert_eq!(tested.ask(&open(X, 5, &[MADE_OF_1, b"\0\0\0"].concat())), 20);
    assert_eq!(made(&mut tested, &nameless(X, 1, 1), 20), (2, MADE_OF_2.to_vec()));
    assert_eq!(made(&mut tested, &nameless(X, 1, 2), 20).0, 3);
    // 4 is free, and 5 is in use as a short ID.
    assert_eq!(made(&mut tested, &nameless(X, 1, 3), 20).0, 4);
    assert_eq!(made(&mut tested, &nameless(X, 1, 4), 20).0, 6);
    // What is closed is free again, both for the number and for the name.
    assert_eq!(tested.ask(&close(X, 2, MADE_OF_2)), 22);
    assert_eq!(made(&mut tested, &nameless(X, 1, 5), 20).0, 2);
    assert_eq!(tested.ask(&close(X, 5, MADE_OF_1)), 22);
    assert_eq!(made(&mut tested, &nameless(X, 1, 6), 20).0, 1);
}

#[test]
fn digits_are_lower_case_and_sender_comes_first() {
    let sender = 0xfeed_c0de;
    let mut tested = TestNode::of(&roster_2(&[(sender, 0, 200)]));
    for id in 1..=27 {
        let message = nameless_at(0x00ab_000f, sender, 3, id);
        let (short, name) = made(&mut tested, &message, 20);
        assert_eq!(u32::from(short), id);
        assert_eq!(name[..16], *b"feedc0de00ab000f");
    }
    assert_eq!(tested.table.calls[9].name[..20], *b"feedc0de00ab000f000a");
    assert_eq!(tested.table.calls[26].name[..20], *b"feedc0de00ab000f001b");
}

#[test]
fn two_hundred_of_a_pair() {
    let mut tested = alone();
    for id in 1..=200 {
        for answer in [20, 21] {
            assert_eq!(u32::from(made(&mut tested, &nameless(X, 0, id), answer).0), id);
        }
    }
    assert_eq!(tested.ask(&nameless(X, 0, 201)), 34);
    // Those before it are late now (A8), and found after a restart, which forgets that.
    let full = read_back(&tested.table);
    for id in 1..=200 {
        assert_eq!(tested.ask(&nameless(X, 0, id)), 16);
        assert_eq!(
            u32::from(made(&mut TestNode::with(full), &nameless(X, 0, id), 21).0),
            id
        );
    }
}

/// Each call of the pair is in the way of two numbers. With 199 calls that makes 399; no call is opened beside 200.
#[test]
fn the_largest_number() {
    let mut tested = alone();
    for id in 1..=199u16 {
        let name = format!("{X:08x}{END:08x}{:04x}", id + 199);
        assert_eq!(tested.ask(&open(X, id, name.as_bytes())), 20);
    }
    assert_eq!(made(&mut tested, &nameless(X, 0, 0), 20).0, 399);
}

#[test]
fn the_pair_and_both_numbers_tell_requests_apart() {
    let mut tested = TestNode::of(&roster_2(&[(X, 0, 100), (Y, 0, 100)]));
    let requests = [
        (END, X, 7, 8),
        (END, X, 7, 9),
        (END, X, 6, 8),
        (END, X, 8, 7),
        (END, Y, 7, 8),
        (END + 1, X, 7, 8),
        (X, Y, 7, 8),
        (Y, X, 7, 8),
        (END, X, 0x00ff_ffff, u32::MAX),
    ];
    let mut ids = Vec::new();
    for (endpoint, sender, epoch, identifier) in requests {
        let message = nameless_at(endpoint, sender, epoch, identifier);
        ids.push(made(&mut tested, &message, 20).0);
    }
    // The pair END, X has the first four and the last.
    assert_eq!(ids, [1, 2, 3, 4, 1, 1, 1, 1, 5]);
    for ((endpoint, sender, epoch, identifier), id) in requests.into_iter().zip(ids) {
        let message = nameless_at(endpoint, sender, epoch, identifier);
        assert_eq!(made(&mut tested, &message, 21).0, id);
    }
}

#[test]
fn zeros_are_numbers_like_others() {
    let mut tested = alone();
    // Unmarked calls hold zeros there, and are found by no request.
    assert_eq!(tested.ask(&open(X, 1, b"one")), 20);
    assert_eq!(made(&mut tested, &nameless(X, 0, 0), 20).0, 2);
    assert_eq!(made(&mut tested, &nameless(X, 0, 0), 21).0, 2);
    assert_eq!(tested.ask(&open(X, 3, b"three")), 20);
    assert_eq!(made(&mut tested, &nameless(X, 0, 0), 21).0, 2);
}

#[test]
fn the_numbers_of_a_named_request_are_not_kept() {
    let mut tested = alone();
    // `open` sends 9 and 42.
    assert_eq!(tested.ask(&open(X, 7, b"seven")), 20);
    assert_eq!(made(&mut tested, &nameless(X, 9, 42), 20).0, 1);
    // A named setup with a marked call's numbers is judged by its names.
    assert_eq!(tested.ask(&open(X, 8, b"eight")), 20);
    assert_eq!(tested.ask(&open(X, 1, b"nine")), 30);
    assert_eq!(tested.ask(&open(X, 9, MADE_OF_1)), 31);
    assert_eq!(made(&mut tested, &nameless(X, 9, 42), 21).0, 1);
}

#[test]
fn message_id_flags_are_no_part_of_the_numbers() {
    let mut tested = alone();
    let mut objects = six(X, 0, b"", SETUP);
    for (flags, answer) in [(0, 20), (1, 21), (0x80, 21), (0xff, 21)] {
        objects[3] = object(23, 1, &[flags, 0, 0, 9, 0, 0, 0, 42]);
        assert_eq!(made(&mut tested, &message(NOTIFY, &objects), answer).0, 1);
        assert_eq!(tested.reply[8..20], hex("000c1801 00000009 0000002a"));
    }
    assert_eq!((tested.table.calls[0].epoch, tested.table.calls[0].identifier), (9, 42));
}

#[test]
fn priorities_and_flags_go_back_as_they_came() {
    let mut tested = alone();
    let mut objects = six(X, 0, b"", SETUP);
    objects[0] = session(END, 0, 0xbeef, 0x0123_4567);
    objects[2] = hex("000c0b07 0a000001 dead 0003");
    for (answer, received) in [(20, "07030500"), (21, "01ff0000")] {
        objects[5] = object(207, 7, &hex(received));
        assert_eq!(tested.ask(&message(NOTIFY, &objects)), answer);
        assert_eq!(tested.reply[44..60], hex("00100107 0a000002 0001 beef 01234567"));
        assert_eq!(tested.reply[68..72], hex("001ccf07"));
        assert_eq!(tested.reply[72..75], hex(received)[..3]);
        assert_eq!(tested.reply[96..], hex("000c0b07 0a000001 dead 0003"));
    }
}

#[test]
fn share_comes_between_21_and_20() {
    let mut tested = TestNode::two();
    assert_eq!(tested.ask(&nameless(X, 9, 42)), 20);
    assert_eq!(tested.ask(&nameless(X, 9, 43)), 20);
    assert_eq!(tested.ask(&nameless(X, 9, 43)), 21);
    assert_eq!(tested.ask(&nameless(X, 9, 44)), 34);
    // As received: Call ID 0 and Name Length 0.
    let refused = hex(
        "1015 f2d4 ff00 0058 000c1801 00000009 0000002c 000c1701 01000007 00000004
         000c0601 0a000002 00020000 00100107 0a000002 0000 0001 0a000001 0008c401 00000008
         0008cf07 00000000 000c0b07 0a000001 0000 0001",
    );
    assert_eq!(tested.reply, refused);
    assert_eq!(tested.reply.len(), 88);
    // S is 64 without Y's guarantee used up.
    let mut tested = TestNode::two();
    tested.open_many(Y, 63);
    assert_eq!(tested.ask(&nameless(Y, 1, 1)), 34);
    assert_eq!(tested.ask(&nameless(X, 1, 1)), 20);
    assert_eq!(tested.ask(&nameless(X, 1, 2)), 34);
}

#[test]
fn one_of_the_two_empty_is_13() {
    let mut tested = TestNode::two();
    assert_eq!(tested.ask(&close(X, 0, b"")), 13);
    for make in [open, close] {
        assert_eq!(tested.ask(&make(X, 0, b"a")), 13);
        assert_eq!(tested.ask(&make(X, 5, b"")), 13);
        assert_eq!(tested.ask(&make(UNLISTED, 0, b"")), 11);
        // Name Length counts, not what is left of the name: zeros are no empty name.
        for size in 1..=33 {
            assert_eq!(tested.ask(&make(X, 0, &vec![0; size])), 13);
            assert_eq!(tested.ask(&make(X, 5, &vec![0; size])), 13);
        }
        assert_eq!(tested.ask(&make(X, 0, &[b'n'; 33])), 13);
    }
    assert_eq!(tested.ask(&message(NOTIFY, &six(X, 0, b"", 8))), 12);
    assert!(read_message(&nameless(X, 1, 1)).is_ok());
    assert_eq!(read_message(&close(X, 0, b"")), Err(13));
}

#[test]
fn connections_under_a_made_call() {
    let mut tested = alone();
    assert_eq!(tested.ask(&path(X, 1, 1)), 35);
    assert_eq!(tested.ask(&nameless(X, 9, 42)), 20);
    assert_eq!(tested.ask(&path(X, 1, 1)), 23);
    assert_eq!(tested.ask(&nameless(X, 9, 42)), 21);
    assert_eq!(tested.ask(&close(X, 1, MADE_OF_1)), 32);
    assert_eq!(tested.ask(&tear(X, 1, 1)), 25);
    assert_eq!(tested.ask(&close(X, 1, &[MADE_OF_1, b"\0"].concat())), 22);
    assert_eq!(tested.ask(&path(X, 1, 1)), 35);
}

/// No rule says that a marked call's IDs are made ones: 21 sends what the table holds.
#[test]
fn a_marked_call_of_another_name() {
    for size in 1..=32usize {
        let mut table = alone().table;
        table.occupied[0] = 1;
        let call = &mut table.calls[0];
        (call.endpoint, call.sender, call.id, call.size) = (END, X, 500, size as u32);
        call.name[..size].fill(b'n');
        (call.made, call.epoch, call.identifier) = (1, 3, 4);
        let mut tested = TestNode::with(table);
        assert_eq!(made(&mut tested, &nameless(X, 3, 4), 21), (500, vec![b'n'; size]));
        let length = 8 + size.div_ceil(4) * 4;
        assert_eq!(usize::from(tested.reply[69]), length);
        assert_eq!(tested.reply.len(), 80 + length);
        assert!(tested.reply[76 + size..68 + length].iter().all(|&byte| byte == 0));
        assert_eq!(made(&mut tested, &nameless(X, 3, 5), 20).0, 1);
    }
}
