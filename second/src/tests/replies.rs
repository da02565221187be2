//! 01, "Reply bytes" and the worked example of "The tap program".

use super::build::*;
use crate::table::Table;
use crate::{checksum, read_roster};

fn worked() -> TestNode {
    let (answer, table) = read_roster(&hex("110a000002000007 0a0000010208"));
    assert_eq!(answer, 0);
    TestNode::with(table)
}

#[test]
fn the_worked_example() {
    let mut tested = worked();
    let path = hex("10010000ff000024 00100107 0a000002 0005 0001 0a000001
                    000c0b07 0a000001 0000 0001");
    assert_eq!(tested.ask(&path), 35);
    let reply = hex("1003b664ff000030 00100107 0a000002 0005 0001 0a000001
                     000c0601 0a000002 00200003 000c0b07 0a000001 0000 0001");
    assert_eq!(tested.reply, reply);
    assert_eq!(tested.reply.len(), 48);
}

#[test]
fn a_computed_zero_is_written_ffff() {
    assert_eq!(checksum::to_send(&hex("fffe 0001")), 0xffff);
    assert_eq!(checksum::to_send(&hex("ffff ffff 0000")), 0xffff);
    assert_eq!(checksum::to_send(&hex("fffe 0000")), 0x0001);
    assert!(checksum::is_right(&hex("fffe 0001 ffff")));
    assert!(!checksum::is_right(&hex("0000 0000")));
    // The worked example with b664 more in the LSP ID: its sum is then FFFF.
    let mut tested = worked();
    assert_eq!(tested.ask(&path(X, 5, 1)), 35);
    assert_eq!(tested.reply[2..4], [0xb6, 0x64]);
    assert_eq!(tested.ask(&path(X, 5, 1 + 0xb664)), 35);
    assert_eq!(tested.reply[2..4], [0xff, 0xff]);
}

/// The Notify reply to call 5, `ab`: what changes in it are checksum, own identifier, error and status.
fn notify(checksum: &str, identifier: &str, error: &str, status: &str) -> Vec<u8> {
    hex(&format!(
        "1015 {checksum} ff00 005c 000c1801 00000009 0000002a 000c1701 01000007 {identifier}
         000c0601 0a000002 {error} 00100107 0a000002 0005 0001 0a000001 0008c401 {status}
         000ccf07 00000002 61620000 000c0b07 0a000001 0000 0001"
    ))
}

#[test]
fn notify_replies() {
    let mut tested = worked();
    assert_eq!(tested.ask(&open(X, 5, b"ab")), 20);
    let opened = notify("916a", "00000001", "00000000", "00000008");
    assert_eq!(tested.reply, opened);
    assert_eq!(tested.ask(&open(X, 5, b"ab")), 21);
    let again = notify("9169", "00000002", "00000000", "00000008");
    assert_eq!(tested.reply, again);
    tested = TestNode::with(Table {
        next: 2,
        ..tested.table
    });
    assert_eq!(tested.ask(&close(X, 5, b"ab")), 22);
    let closed = notify("9168", "00000002", "00000000", "00000009");
    assert_eq!(tested.reply, closed);
}

#[test]
fn own_identifiers_go_round() {
    let mut tested = TestNode::with(Table {
        next: u32::MAX,
        ..worked().table
    });
    assert_eq!(tested.ask(&close(X, 5, b"ab")), 33);
    let unknown = notify("9147", "ffffffff", "00200003", "00000009");
    assert_eq!(tested.reply, unknown);
    assert_eq!(tested.table.next, 0);
    assert_eq!(tested.ask(&close(X, 5, b"ab")), 33);
    assert_eq!(tested.reply[28..32], [0; 4]);
    assert_eq!(tested.table.next, 1);
}

#[test]
fn as_received() {
    let mut tested = worked();
    let mut objects = six(X, 5, b"ab", 0xffff_fffe);
    objects[2] = hex("000c0b07 0a000001 beef 0001");
    objects[3] = hex("000c1701 ffabcdef 89abcdef");
    objects[5] = hex("000ccf07 07030502 61620000");
    objects.push(object(14, 1, &[1, 2, 3, 4]));
    objects.push(object(133, 1, &[1, 2, 3, 4]));
    assert_eq!(tested.ask(&message(NOTIFY, &objects)), 20);
    let reply = hex(
        "1015 a074 ff00 005c 000c1801 00abcdef 89abcdef 000c1701 01000007 00000001
         000c0601 0a000002 00000000 00100107 0a000002 0005 0001 0a000001 0008c401 00000008
         000ccf07 07030502 61620000 000c0b07 0a000001 beef 0001",
    );
    assert_eq!(tested.reply, reply);
    assert_eq!(
        tested.ask(&message(PATH, &[objects[2].clone(), session(END, 9, 1, X)])),
        35
    );
    assert_eq!(tested.reply[36..], hex("000c0b07 0a000001 beef 0001"));
}

#[test]
fn codes_and_values() {
    let mut tested = TestNode::new(&[(X, 0, 2)]);
    let error = |tested: &TestNode| {
        (
            tested.reply[41],
            tested.reply[42] as u16 * 256 + tested.reply[43] as u16,
        )
    };
    for (message, answer, expected) in [
        (open(X, 1, b"one"), 20, (0, 0)),
        (open(X, 2, b"two"), 20, (0, 0)),
        (open(X, 1, b"one"), 21, (0, 0)),
        (open(X, 1, b"new"), 30, (32, 1)),
        (open(X, 3, b"one"), 31, (32, 4)),
        (close(X, 3, b"one"), 33, (32, 3)),
        (open(X, 3, b"three"), 34, (2, 0)),
        (close(X, 2, b"two"), 22, (0, 0)),
    ] {
        assert_eq!(tested.ask(&message), answer);
        assert_eq!(error(&tested), expected);
    }
    for lsp in 1..=4 {
        assert_eq!(tested.ask(&path(X, 1, lsp)), 23);
    }
    assert_eq!(tested.ask(&close(X, 1, b"one")), 32);
    assert_eq!(error(&tested), (32, 2));
    assert_eq!(tested.ask(&path(X, 1, 5)), 37);
    assert_eq!(tested.reply[24..36], hex("000c0601 0a000002 00020000"));
}

#[test]
fn refusals_carry_c_or_c_and_d() {
    let mut tested = worked();
    assert_eq!(tested.ask(&close(X, 5, b"ab")), 33);
    assert_eq!(tested.reply[60..68], hex("0008c401 00000009"));
    tested.open_many(X, 2);
    assert_eq!(tested.ask(&open(X, 5, b"ab")), 34);
    assert_eq!(tested.reply[60..68], hex("0008c401 00000008"));
}

#[test]
fn the_session_name_goes_back_as_it_came() {
    let mut tested = worked();
    assert_eq!(tested.ask(&open(X, 5, b"ab")), 20);
    for size in 2..=32 {
        let mut name = b"ab".to_vec();
        name.resize(size, 0);
        let object = attribute(&name);
        assert_eq!(tested.ask(&open(X, 5, &name)), 21);
        assert_eq!(tested.reply[68..tested.reply.len() - 12], object);
        assert_eq!(tested.ask(&close(X, 5, &name)), 22);
        assert_eq!(tested.reply[68..tested.reply.len() - 12], object);
        assert_eq!(tested.ask(&close(X, 5, &name)), 33);
        assert_eq!(tested.reply[68..tested.reply.len() - 12], object);
        // The next retry comes with other padding than this open.
        assert_eq!(tested.ask(&open(X, 5, &name)), 20);
        assert_eq!(tested.reply[68..tested.reply.len() - 12], object);
    }
}
