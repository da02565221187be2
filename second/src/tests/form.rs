//! 01, "Every answer": 1 to 6, 10 to 13, and their order.

use super::build::*;
use crate::table::Table;
use crate::{read_message, Message};

/// A right checksum put in, by a sum of its own.
fn with_checksum(mut message: Vec<u8>) -> Vec<u8> {
    let mut sum = 0u32;
    for two in message.chunks(2) {
        sum += u32::from(two[0]) * 256 + u32::from(two[1]);
        if sum > 0xffff {
            sum -= 0xffff;
        }
    }
    let checksum = (0xffff - sum) as u16;
    message[2..4].copy_from_slice(&checksum.to_be_bytes());
    message
}

/// A Notify with a skipped object that makes it this long.
fn padded(length: usize) -> Vec<u8> {
    let mut objects = six(X, 5, b"ab", SETUP);
    let filler = length - 8 - objects.concat().len();
    objects.push(object(0, 0, &vec![0xff; filler - 4]));
    message(NOTIFY, &objects)
}

#[test]
fn a_broken_table_is_1_before_all_else() {
    let broken = Table {
        form: 1,
        occupied: [1, 0, 0, 0, 0, 0, 0, 0],
        ..TestNode::two().table
    };
    let mut reply = [OLD; 5];
    assert_eq!(handle_at_0(&broken, &[], &mut reply), (1, 0, broken));
    assert_eq!(reply, [OLD; 5]);
}

#[test]
fn a_buffer_of_127_is_2_and_128_is_enough() {
    let table = TestNode::two().table;
    let largest = open(X, 5, &[b'n'; 32]);
    for size in [0, 120, 127] {
        let mut reply = vec![OLD; size];
        assert_eq!(handle_at_0(&table, &largest, &mut reply), (2, 0, table));
        assert_eq!(handle_at_0(&table, &[], &mut reply).0, 2);
        assert_eq!(handle_at_0(&table, &tear(X, 0, 1), &mut reply).0, 2);
        assert!(reply.iter().all(|&byte| byte == OLD));
    }
    let mut reply = [OLD; 128];
    let (answer, length, _) = handle_at_0(&table, &largest, &mut reply);
    assert_eq!((answer, length), (20, 120));
    assert_eq!(reply[120..], [OLD; 8]);
}

#[test]
fn message_length() {
    let mut tested = TestNode::two();
    for length in 0..8 {
        assert_eq!(tested.ask(&vec![0x10; length]), 3);
    }
    assert_eq!(tested.ask(&message(PATH, &[])), 10);
    assert_eq!(tested.ask(&padded(1024)), 20);
    assert_eq!(tested.ask(&padded(1028)), 3);
    let mut odd = message(PATH, &[]);
    odd.extend([0, 0]);
    odd[7] = 10;
    assert_eq!(tested.ask(&odd), 3);
    let mut differs = open(X, 5, b"ab");
    differs[7] += 4;
    assert_eq!(tested.ask(&differs), 3);
    // 3 before 4.
    differs[0] = 0x20;
    assert_eq!(tested.ask(&differs), 3);
}

#[test]
fn version_checksum_and_type() {
    let mut tested = TestNode::two();
    for version in [0x00, 0x20, 0xf0] {
        let mut other = open(X, 5, b"ab");
        other[0] = version;
        other[2] = 1;
        assert_eq!(tested.ask(&other), 4);
    }
    let mut wrong = with_checksum(open(X, 5, b"ab"));
    wrong[3] ^= 1;
    assert_eq!(tested.ask(&wrong), 5);
    wrong[1] = 3;
    assert_eq!(tested.ask(&wrong), 5);
    for kind in (0..=255).filter(|kind| ![PATH, PATH_TEAR, NOTIFY].contains(kind)) {
        assert_eq!(tested.ask(&message(kind, &[object(2, 1, &[])])), 6);
    }
    assert_eq!(tested.ask(&with_checksum(open(X, 5, b"ab"))), 20);
}

#[test]
fn header_fields_with_no_test() {
    let mut tested = TestNode::two();
    let mut odd = open(X, 5, b"ab");
    odd[0] |= 0xf;
    odd[4] = 0;
    odd[5] = 0xff;
    assert_eq!(tested.ask(&odd), 20);
    assert_eq!(tested.ask(&with_checksum(odd)), 21);
}

#[test]
fn a_notify_needs_exactly_one_of_each() {
    let mut tested = TestNode::two();
    for status in [SETUP, CLOSE] {
        for which in 0..6 {
            let mut missing = six(X, 5, b"ab", status);
            let one = missing.remove(which);
            assert_eq!(tested.ask(&message(NOTIFY, &missing)), 10);
            let mut repeated = six(X, 5, b"ab", status);
            repeated.push(one);
            assert_eq!(tested.ask(&message(NOTIFY, &repeated)), 10);
            // The repeat stays known behind others.
            repeated.rotate_left(which);
            repeated.push(object(0, 0, &[]));
            assert_eq!(tested.ask(&message(NOTIFY, &repeated)), 10);
        }
    }
    let mut any_order = six(X, 5, b"ab", SETUP);
    any_order.reverse();
    assert_eq!(tested.ask(&message(NOTIFY, &any_order)), 20);
}

#[test]
fn a_path_needs_two_and_may_have_one_of_four() {
    let mut tested = TestNode::two();
    for kind in [PATH, PATH_TEAR] {
        let all = six(X, 0, b"ab", SETUP);
        let answers = tested.ask(&message(kind, &all));
        assert_eq!(answers, if kind == PATH { 23 } else { 25 });
        for which in 0..6 {
            let mut repeated = all.clone();
            repeated.push(all[which].clone());
            assert_eq!(tested.ask(&message(kind, &repeated)), 10);
            let mut without = all.clone();
            without.remove(which);
            let needed = which == 0 || which == 2;
            assert_eq!(tested.ask(&message(kind, &without)) == 10, needed);
            tested.ask(&message(PATH_TEAR, &all));
            tested.ask(&message(PATH, &all));
        }
    }
}

#[test]
fn a_message_of_an_unlisted_sender_is_11() {
    let mut tested = TestNode::two();
    assert_eq!(tested.ask(&open(UNLISTED, 5, b"ab")), 11);
    assert_eq!(tested.ask(&close(UNLISTED, 5, b"ab")), 11);
    assert_eq!(tested.ask(&path(UNLISTED, 5, 1)), 11);
    assert_eq!(tested.ask(&tear(UNLISTED, 5, 1)), 11);
    // Between 10 and 12.
    assert_eq!(tested.ask(&message(NOTIFY, &six(UNLISTED, 0, b"", 0))), 11);
    assert_eq!(tested.ask(&open(UNLISTED, 0, b"ab")), 11);
    assert_eq!(tested.ask(&message(PATH, &[template(UNLISTED, 1)])), 10);
    // The empty table answers well-formed messages by 11.
    assert_eq!(TestNode::with(Table::EMPTY).ask(&open(X, 5, b"ab")), 11);
}

#[test]
fn status_and_error_of_a_notify_are_12() {
    let mut tested = TestNode::two();
    for status in [0, 1, 8, 9, 0x8000_0000, 0x8000_0001] {
        let bare = message(NOTIFY, &six(X, 0, b"", status));
        assert_eq!(tested.ask(&bare), 12);
        assert_eq!(read_message(&bare), Err(12));
    }
    for (code, value) in [(1, 0), (0, 1), (0, 0x100), (32, 3)] {
        for status in [SETUP, CLOSE] {
            let mut objects = six(X, 5, b"ab", status);
            objects[1] = error_spec(code, value);
            assert_eq!(tested.ask(&message(NOTIFY, &objects)), 12);
        }
    }
    // Other bits are ignored.
    assert_eq!(tested.ask(&message(NOTIFY, &six(X, 5, b"ab", 0xffff_fffe))), 20);
    assert_eq!(tested.ask(&message(NOTIFY, &six(X, 5, b"ab", 0xffff_ffff))), 22);
}

#[test]
fn call_id_0_and_name_length_are_13() {
    let mut tested = TestNode::two();
    for make in [open, close] {
        assert_eq!(tested.ask(&make(X, 0, b"ab")), 13);
        assert_eq!(tested.ask(&make(X, 5, b"")), 13);
        assert_eq!(tested.ask(&make(X, 5, &[b'n'; 33])), 13);
        assert_eq!(tested.ask(&make(X, 5, &[b'n'; 255])), 13);
    }
    assert_eq!(tested.ask(&open(X, 5, &[b'n'; 32])), 20);
}

#[test]
fn a_name_of_zeros_only_is_13() {
    let mut tested = TestNode::two();
    for size in 1..=33 {
        for make in [open, close] {
            assert_eq!(tested.ask(&make(X, 5, &vec![0; size])), 13);
            // 11 and 12 come first.
            assert_eq!(tested.ask(&make(UNLISTED, 5, &vec![0; size])), 11);
        }
        assert_eq!(tested.ask(&message(NOTIFY, &six(X, 5, &vec![0; size], 0))), 12);
    }
    // The 32 is on the length as received, whatever part of it is padding.
    let mut padded = vec![0; 33];
    padded[..2].copy_from_slice(b"ab");
    for make in [open, close] {
        assert_eq!(tested.ask(&make(X, 5, &padded)), 13);
    }
    assert_eq!(tested.ask(&open(X, 5, &padded[..32])), 20);
    assert_eq!(tested.ask(&close(X, 5, &padded[..2])), 22);
    // Behind Name Length the padding is still tested, and the object is as long as Name Length makes it.
    let mut objects = six(X, 5, b"ab", SETUP);
    objects[5][11] = 1;
    assert_eq!(tested.ask(&message(NOTIFY, &objects)), 9);
    objects[5] = hex("0010cf07 00000002 61620000 00000000");
    assert_eq!(tested.ask(&message(NOTIFY, &objects)), 9);
    objects[5] = hex("0010cf07 00000005 61620000 00000000");
    assert_eq!(tested.ask(&message(NOTIFY, &objects)), 20);
}

#[test]
fn the_content_of_a_paths_optional_objects_is_not_looked_at() {
    let mut tested = TestNode::two();
    for byte in [b'n', 0] {
        for name in [0, 1, 32, 33, 255] {
            let mut objects = six(X, 0, &vec![byte; name], 0);
            objects[1] = error_spec(32, 3);
            let answer = tested.ask(&message(PATH, &objects));
            assert!(answer == 23 || answer == 24);
        }
    }
}

#[test]
fn reading_gives_the_kind() {
    assert!(matches!(
        read_message(&open(UNLISTED, 5, b"ab")),
        Ok(Message::Open(r)) if r.id == 5 && r.name == b"ab" && r.pair.sender == UNLISTED
    ));
    assert!(matches!(read_message(&close(X, 5, b"ab")), Ok(Message::Close(_))));
    assert!(matches!(read_message(&path(X, 5, 3)), Ok(Message::Add(r)) if r.connection.lsp == 3));
    assert!(matches!(read_message(&tear(X, 5, 3)), Ok(Message::Drop(r)) if r.call == 5));
    assert_eq!(read_message(&[]), Err(3));
    assert_eq!(read_message(&open(X, 0, b"ab")), Err(13));
}
