//! A13: the bytes of a checkpoint, what is written and read, and the refusals.

use super::build::*;
use super::checkpoint_bytes::*;
use crate::table::{Place, Table};
use crate::{read_checkpoint, read_roster, write_checkpoint};

/// One call of X with a connection under it, and one of Y with Call ID 0.
fn small() -> Table {
    let mut tested = TestNode::two();
    assert_eq!(tested.ask(&open(X, 5, b"ab")), 20);
    assert_eq!(tested.ask(&path(Y, 0, 9)), 23);
    assert_eq!(tested.ask(&path(X, 5, 7)), 23);
    tested.table
}

/// Its checkpoint, by hand: 4 + 55 + 2 x 18 = 95 bytes.
fn small_checkpoint() -> Vec<u8> {
    let mut checkpoint = hex("1001 0002 00 0005 0a000002 0a000001 02 6162");
    checkpoint.extend([0; 30]);
    checkpoint.extend(hex("00000000 000000 00000000"));
    checkpoint.extend(hex("0a000002 0005 0001 0a000001 0a000001 0007"));
    checkpoint.extend(hex("0a000002 0000 0001 0a000001 0b000001 0009"));
    checkpoint
}

/// The roster of `TestNode::two`.
fn two() -> Vec<u8> {
    roster(&[(X, 1, 2), (Y, 62, 64)])
}

fn written(table: &Table) -> Vec<u8> {
    let mut buffer = [OLD; 10_000];
    let (answer, length) = write_checkpoint(table, &mut buffer);
    assert_eq!(answer, 0);
    assert!(buffer[length..].iter().all(|&byte| byte == OLD));
    buffer[..length].to_vec()
}

#[test]
fn the_bytes_of_a_small_checkpoint() {
    assert_eq!(small_checkpoint().len(), 95);
    assert_eq!(written(&small()), small_checkpoint());
    for salvages in [false, true] {
        let (answer, table, calls, connections) = read_checkpoint(salvages, &two(), &small_checkpoint());
        assert_eq!((answer, calls, connections), (0, 0, 0));
        assert_eq!(table, read_back(&small()));
    }
    assert_eq!(small().next, 2);
}

#[test]
fn every_bit_of_a_record_is_read() {
    let call = "3f fedc 12345678 0a000001 20";
    let mut checkpoint = hex("1001 0001");
    checkpoint.extend(hex(call));
    checkpoint.extend(1..=32u8);
    checkpoint.extend([0; 11]);
    checkpoint.extend(hex("12345678 fedc 89ab cdef0123 0a000001 4567"));
    let read = salvage(ROOMY, &checkpoint);
    assert_eq!(read.dropped, (0, 0));
    let call = read.table.calls[63];
    assert_eq!((call.id, call.endpoint, call.sender), (0xfedc, 0x1234_5678, X));
    assert_eq!((call.size, call.name[0], call.name[31]), (32, 1, 32));
    let place = Place {
        taken: 1,
        tunnel: 0x89ab,
        extended: 0xcdef_0123,
        lsp: 0x4567,
    };
    assert_eq!(call.places, [place, Place::FREE, Place::FREE, Place::FREE]);
    assert_eq!(written(&read.table), checkpoint);
}

#[test]
fn the_empty_table_and_the_fresh_one() {
    assert_eq!(written(&Table::EMPTY), hex("1000 0000"));
    let fresh = read_roster(&two()).1;
    assert_eq!(written(&fresh), hex("1000 0000"));
    for salvages in [false, true] {
        let read = read_checkpoint(salvages, &two(), &hex("1000 0000"));
        assert_eq!(read, (0, fresh, 0, 0));
    }
}

#[test]
fn the_order_of_records() {
    let mut tested = TestNode::new(ROOMY);
    tested.open_many(X, 3);
    assert_eq!(tested.ask(&close(X, 1, &[0, 1])), 22);
    // Call 9 takes slot 0: it goes first though it came last and has the largest ID.
    assert_eq!(tested.ask(&open(X, 9, b"z")), 20);
    let paths = [
        (Y, 0, 1),
        (X, 0, 2),
        (X, 3, 4),
        (X, 2, 5),
        (X, 9, 6),
        (X, 2, 3),
        (Y, 0, 7),
        (X, 0, 8),
    ];
    for (sender, call, lsp) in paths {
        assert_eq!(tested.ask(&path(sender, call, lsp)), 23);
    }
    let calls = [call(0, 9, X, b"z"), call(1, 2, X, &[0, 2]), call(2, 3, X, &[0, 3])];
    let order = [
        (X, 9, 6),
        (X, 2, 5),
        (X, 2, 3),
        (X, 3, 4),
        (X, 0, 2),
        (X, 0, 8),
        (Y, 0, 1),
        (Y, 0, 7),
    ];
    let connections = order.map(|(sender, call, lsp)| under(call, sender, lsp));
    assert_eq!(written(&tested.table), checkpoint(&calls, &connections));
}

#[test]
fn a_buffer_too_short() {
    let table = small();
    for length in 0..95 {
        let mut buffer = vec![OLD; length];
        assert_eq!(write_checkpoint(&table, &mut buffer), (73, 0));
        assert!(buffer.iter().all(|&byte| byte == OLD));
    }
    let mut buffer = [OLD; 95];
    assert_eq!(write_checkpoint(&table, &mut buffer), (0, 95));
    assert_eq!(buffer[..], small_checkpoint());
    assert_eq!(write_checkpoint(&Table::EMPTY, &mut [OLD; 3]), (73, 0));
    assert_eq!(write_checkpoint(&Table::EMPTY, &mut []), (73, 0));
}

#[test]
fn a_table_that_breaks_a_rule_is_not_written() {
    let mut table = small();
    table.calls[0].refreshed = 1;
    for length in [0, 3, 95, 200] {
        let mut buffer = vec![OLD; length];
        assert_eq!(write_checkpoint(&table, &mut buffer), (1, 0));
        assert!(buffer.iter().all(|&byte| byte == OLD));
    }
}

#[test]
fn refusals_of_reading_in_their_order() {
    let fresh = read_roster(&two()).1;
    let with_form = |form: u8, mut checkpoint: Vec<u8>| {
        checkpoint[0] = form << 4 | checkpoint[0] & 15;
        checkpoint
    };
    let mut long = small_checkpoint();
    long.push(0);
    let mut counts = small_checkpoint();
    counts[1] = 2;
    let unlisted = checkpoint(&[call(0, 1, UNLISTED, b"a")], &[]);
    for salvages in [false, true] {
        let refused = |checkpoint: &[u8], due| {
            assert_eq!(read_checkpoint(salvages, &two(), checkpoint), (due, fresh, 0, 0));
        };
        for length in 0..95 {
            refused(&small_checkpoint()[..length], 70);
        }
        refused(&long, 70);
        refused(&counts, 70);
        refused(&with_form(2, long.clone()), 70);
        for form in (0..16).filter(|&form| form != 1) {
            refused(&with_form(form, small_checkpoint()), 71);
            refused(&with_form(form, unlisted.clone()), 71);
        }
    }
    assert_eq!(read_checkpoint(false, &two(), &unlisted), (72, fresh, 0, 0));
    assert_eq!(read_checkpoint(true, &two(), &unlisted), (0, fresh, 1, 0));
}

#[test]
fn a_refused_roster_comes_first() {
    let sum = roster(&[(X, 40, 64), (Y, 25, 64)]);
    for salvages in [false, true] {
        for checkpoint in [vec![], small_checkpoint(), hex("2000 0000"), hex("1001 0000")] {
            let read = read_checkpoint(salvages, &sum, &checkpoint);
            assert_eq!(read, (46, Table::EMPTY, 0, 0));
            assert_eq!(read_checkpoint(salvages, &[], &checkpoint), (40, Table::EMPTY, 0, 0));
        }
    }
}

#[test]
fn a_full_table_and_another_own_address() {
    let records: Vec<(u32, u16, u16)> = (0..8).map(|n| (X + n, 8, 64)).collect();
    let mut tested = TestNode::new(&records);
    for &(sender, ..) in &records {
        tested.open_many(sender, 8);
        for call in 0..=8 {
            for place in 0..4 {
                assert_eq!(tested.ask(&path(sender, call, 10 * call + place)), 23);
            }
        }
    }
    let full = written(&tested.table);
    assert_eq!(full.len(), 4 + 55 * 64 + 18 * 288);
    assert_eq!(full[..4], hex("1040 0120"));
    let read = salvage(&records, &full);
    assert_eq!(read.dropped, (0, 0));
    assert_eq!(read.table, read_back(&tested.table));
    // Own address and epoch are no part of the customer records.
    let mut other = roster(&records);
    other[1..8].copy_from_slice(&hex("c0000201 abcdef"));
    let (answer, table, ..) = read_checkpoint(false, &other, &full);
    assert_eq!((answer, table.calls), (0, tested.table.calls));
    assert_eq!((table.address, table.epoch), (0xc000_0201, 0x00ab_cdef));
}

#[test]
fn places_close_up_and_slots_do_not() {
    let mut tested = TestNode::new(ROOMY);
    tested.open_many(X, 3);
    for (call, lsp) in [(3, 1), (3, 2), (3, 3), (0, 4), (0, 5)] {
        assert_eq!(tested.ask(&path(X, call, lsp)), 23);
    }
    for message in [tear(X, 3, 1), tear(X, 3, 2), tear(X, 0, 4)] {
        assert_eq!(tested.ask(&message), 25);
    }
    assert_eq!(tested.ask(&close(X, 1, &[0, 1])), 22);
    assert_eq!(tested.table.calls[2].places[2].taken, 1);
    let read = salvage(ROOMY, &written(&tested.table));
    assert_eq!(read.dropped, (0, 0));
    assert_eq!(read.calls, [(1, 2), (2, 3)]);
    let (call, customer) = (read.table.calls[2], read.table.customers[0]);
    assert_eq!(call.places.map(|place| place.taken), [1, 0, 0, 0]);
    assert_eq!(call.places[0].lsp, 3);
    assert_eq!(call.places[2], Place::FREE);
    assert_eq!(customer.places.map(|place| place.taken), [1, 0, 0, 0]);
    assert_eq!(customer.places[0].lsp, 5);
    assert_eq!(customer.endpoints, [END, 0, 0, 0]);
}

#[test]
fn the_worst_checkpoint_is_read_soon() {
    // All of one pair, every name another, every connection under another of the calls.
    let calls: Vec<Vec<u8>> = (1..=4095)
        .map(|id: u16| call(id as u8, id, Y, &[&id.to_be_bytes()[..], b"n"].concat()))
        .collect();
    let connections: Vec<Vec<u8>> = (0..=65534).map(|n| under(n % 4096, Y, n)).collect();
    let checkpoint = checkpoint(&calls, &connections);
    assert_eq!(checkpoint.len(), 4 + 55 * 4095 + 18 * 65535);
    let start = std::time::Instant::now();
    let (answer, table, calls, connections) = read_checkpoint(true, &roster(ROOMY), &checkpoint);
    assert!(start.elapsed().as_secs() < 2, "{:?}", start.elapsed());
    // IDs 1 to 60 take slots 1 to 60; sixty calls are Y's limit.
    assert_eq!((answer, calls), (0, 4095 - 60));
    // Four under each of the sixty calls, four of Call ID 0.
    assert_eq!(connections, 65535 - 4 * 61);
    assert_eq!(table.used().count(), 60);
}
