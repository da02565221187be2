//! A11: rosters of form 2, and the total of 200 calls.

use super::build::*;
use super::checkpoint_bytes::*;
use crate::table::{Call, Customer, Table};
use crate::{read_checkpoint, read_roster, write_checkpoint, Node};

/// The occupied bits of a full table of form 2: none past slot 199.
const ALL_200: [u32; 8] = {
    let ones = u32::MAX;
    [ones, ones, ones, ones, ones, ones, 0xff, 0]
};

fn answer(records: &[(u32, u16, u16)]) -> u8 {
    let (answer, table) = read_roster(&roster_2(records));
    assert_eq!(table == Table::EMPTY, answer != 0);
    answer
}

/// A node of one customer without a guarantee that may have all 200.
fn roomy() -> TestNode {
    TestNode::of(&roster_2(&[(X, 0, 200)]))
}

#[test]
fn a_roster_of_form_2_is_read() {
    let (answer, table) = read_roster(&hex("220a000002000007 0a000001 01c8 0b000001 0a03"));
    // 3 is below the guarantee of 10.
    assert_eq!((answer, table), (44, Table::EMPTY));
    let (answer, table) = read_roster(&hex("220a000002000007 0a000001 01c8 0b000001 030a"));
    let mut expected = Table {
        address: 0x0a00_0002,
        epoch: 7,
        listed: 2,
        form: 2,
        ..Table::EMPTY
    };
    for (at, (address, guarantee, limit)) in [(X, 1, 200), (Y, 3, 10)].into_iter().enumerate() {
        expected.customers[at] = Customer {
            address,
            guarantee,
            limit,
            ..Customer::UNUSED
        };
    }
    assert_eq!((answer, table), (0, expected));
}

#[test]
fn refusals_of_form_2() {
    assert_eq!(answer(&[(X, 200, 200)]), 0);
    assert_eq!(answer(&[(X, 0, 200), (Y, 200, 200)]), 0);
    assert_eq!(answer(&[(X, 0, 0)]), 44);
    for limit in 201..=255 {
        assert_eq!(answer(&[(X, 0, limit)]), 44);
        assert_eq!(answer(&[(X, limit, limit)]), 44);
    }
    assert_eq!(answer(&[(X, 3, 2)]), 44);
    assert_eq!(answer(&[(X, 255, 200)]), 44);
    assert_eq!(answer(&[(X, 1, 2), (X, 1, 2)]), 45);
    assert_eq!(answer(&[(X, 1, 2), (X, 3, 2)]), 44);
    assert_eq!(answer(&[(X, 100, 200), (Y, 100, 200)]), 0);
    assert_eq!(answer(&[(X, 100, 200), (Y, 101, 200)]), 46);
    let eight: Vec<_> = (0..8).map(|i| (i, 25, 200)).collect();
    assert_eq!(answer(&eight), 0);
    let eight: Vec<_> = (0..8).map(|i| (i, 200, 200)).collect();
    assert_eq!(answer(&eight), 46);
}

/// The two bits that are spare in form 1 are the limit's lowest in form 2.
#[test]
fn no_bit_of_form_2_is_spare() {
    for limit in 1..=200u8 {
        let two = [&hex("210a000002000007 0a000001 00")[..], &[limit]].concat();
        let (answer, table) = read_roster(&two);
        assert_eq!((answer, table.customers[0].limit), (0, limit.into()));
        let one = [&hex("110a000002000007 0a000001 00")[..], &[limit]].concat();
        let due = match (limit % 4, limit / 4) {
            (1.., _) => 43,
            (_, 1..=64) => 0,
            _ => 44,
        };
        assert_eq!(read_roster(&one).0, due);
    }
}

#[test]
fn form_1_keeps_its_64() {
    let of_form_1 = |records: &[(u32, u16, u16)]| read_roster(&roster(records)).0;
    assert_eq!(of_form_1(&[(X, 64, 64)]), 0);
    assert_eq!(of_form_1(&[(X, 0, 65)]), 44);
    assert_eq!(of_form_1(&[(X, 0, 127)]), 44);
    assert_eq!(of_form_1(&[(X, 32, 64), (Y, 33, 64)]), 46);
    let mut tested = TestNode::new(&[(X, 0, 64), (Y, 0, 64)]);
    tested.open_many(X, 64);
    assert_eq!(tested.ask(&open(Y, 1, b"y")), 34);
    assert_eq!(tested.ask(&open(X, 65, b"x")), 34);
    assert_eq!(tested.table.calls[64], Call::FREE);
}

#[test]
fn the_slots_of_form_2() {
    let mut tested = roomy();
    tested.open_many(X, 200);
    assert_eq!(tested.table.occupied, ALL_200);
    assert_eq!(tested.s(), 200);
    for (slot, call) in tested.table.calls.iter().enumerate() {
        assert_eq!(call.id, 1 + slot as u32);
    }
    assert_eq!(tested.ask(&open(X, 201, b"full")), 34);
    for id in [200u16, 65, 129, 193] {
        assert_eq!(tested.ask(&close(X, id, &id.to_be_bytes())), 22);
    }
    for (slot, id) in [(64, 301), (128, 302), (192, 303), (199, 304)] {
        assert_eq!(tested.ask(&open(X, id, &id.to_be_bytes())), 20);
        assert_eq!(tested.table.calls[slot].id, id.into());
    }
    assert_eq!(tested.table.occupied, ALL_200);
}

/// 01's two customers with the total of form 2: Y has 198 and 200.
#[test]
fn share_of_form_2() {
    let mut tested = TestNode::of(&roster_2(&[(X, 1, 2), (Y, 198, 200)]));
    assert_eq!(tested.s(), 199);
    tested.open_many(Y, 64);
    assert_eq!(tested.ask(&open(X, 1, b"one")), 20);
    assert_eq!(tested.s(), 199);
    assert_eq!(tested.ask(&open(X, 2, b"two")), 20);
    assert_eq!(tested.s(), 200);
    assert_eq!(tested.ask(&open(X, 3, b"three")), 34);
    for id in 65..=198u16 {
        assert_eq!(tested.ask(&open(Y, id, &id.to_be_bytes())), 20);
    }
    assert_eq!(tested.ask(&open(Y, 199, b"more")), 34);
    assert_eq!(tested.ask(&close(X, 1, b"one")), 22);
    assert_eq!(tested.ask(&open(Y, 199, b"more")), 20);
    assert_eq!(tested.ask(&open(X, 1, b"back")), 34);
}

#[test]
fn a_limit_above_64() {
    let mut tested = TestNode::of(&roster_2(&[(X, 0, 100), (Y, 0, 200)]));
    tested.open_many(X, 100);
    assert_eq!(tested.ask(&open(X, 101, b"x")), 34);
    assert_eq!(tested.ask(&open(Y, 101, b"y")), 20);
}

/// Whether a table breaks a rule once changed.
fn breaks(sound: &Table, change: impl FnOnce(&mut Table)) -> bool {
    let mut table = *sound;
    change(&mut table);
    let (answer, length, after) = handle_at_0(&table, &[], &mut [OLD; 128]);
    assert_eq!((length, after), (0, table));
    assert_eq!(answer == 1, Node::from_table(&table).is_none());
    answer == 1
}

/// Moves the call in slot 0, with its bit.
fn move_first(table: &mut Table, slot: usize) {
    table.calls.swap(0, slot);
    table.occupied[0] &= !1;
    table.occupy(slot);
}

#[test]
fn the_form_of_a_table() {
    let (mut one, mut two) = (TestNode::new(&[(X, 1, 2)]), TestNode::of(&roster_2(&[(X, 1, 2)])));
    for tested in [&mut one, &mut two] {
        tested.open_many(X, 1);
        for form in [0, 3, 4, 17, 18, 0x0100_0001, 0x0002_0000, u32::MAX] {
            assert!(breaks(&tested.table, |t| t.form = form));
        }
        // A table that both forms allow.
        assert!(!breaks(&tested.table, |t| t.form = 1));
        assert!(!breaks(&tested.table, |t| t.form = 2));
    }
}

#[test]
fn numbers_that_form_1_does_not_have() {
    let two = TestNode::of(&roster_2(&[(X, 1, 200), (Y, 0, 64)])).table;
    assert!(breaks(&two, |t| t.form = 1));
    assert!(!breaks(&two, |t| t.customers[1].limit = 200));
    assert!(breaks(&two, |t| t.customers[1].limit = 201));
    let s = TestNode::of(&roster_2(&[(X, 32, 64), (Y, 33, 64)])).table;
    assert!(!breaks(&s, |_| ()));
    assert!(breaks(&s, |t| t.form = 1));
    assert!(!breaks(&s, |t| {
        t.form = 1;
        t.customers[1].guarantee = 32;
    }));
}

#[test]
fn no_call_outside_the_total() {
    let one = {
        let mut tested = TestNode::new(&[(X, 1, 2)]);
        tested.open_many(X, 1);
        tested.table
    };
    let two = {
        let mut tested = TestNode::of(&roster_2(&[(X, 1, 2)]));
        tested.open_many(X, 1);
        tested.table
    };
    for slot in 1..200 {
        assert_eq!(breaks(&one, |t| move_first(t, slot)), slot >= 64);
        assert!(!breaks(&two, |t| move_first(t, slot)));
        // Neither a bit alone nor a call alone.
        for sound in [&one, &two] {
            assert!(breaks(sound, |t| t.occupy(slot)));
            assert!(breaks(sound, |t| t.calls[slot] = t.calls[0]));
            assert!(breaks(sound, |t| t.calls[slot].places[3].lsp = 1));
        }
    }
    for bit in 200..256 {
        assert!(breaks(&one, |t| t.occupy(bit)));
        assert!(breaks(&two, |t| t.occupy(bit)));
    }
}

#[test]
fn sums_above_the_total() {
    let mut tested = TestNode::of(&roster_2(&[(X, 0, 200), (Y, 100, 200)]));
    tested.open_many(X, 100);
    assert_eq!(tested.s(), 200);
    assert!(!breaks(&tested.table, |_| ()));
    assert!(breaks(&tested.table, |t| t.customers[1].guarantee = 101));
    assert!(breaks(&tested.table, |t| t.customers[0].limit = 99));
    assert!(breaks(&tested.table, |t| t.customers[0].guarantee = 101));
}

#[test]
fn checkpoints_under_the_other_form() {
    let records = [(X, 0, 64), (Y, 1, 2)];
    let calls = [
        call(0, 1, X, b"a"),
        call(63, 2, X, b"b"),
        call(64, 3, X, b"c"),
        call(199, 4, Y, b"d"),
    ];
    let connections = [under(1, X, 1), under(3, X, 2), under(4, Y, 3), under(0, Y, 4)];
    let copy = checkpoint(&calls, &connections);
    let read = salvage_under(&roster_2(&records), &copy);
    assert_eq!(read.calls, [(0, 1), (63, 2), (64, 3), (199, 4)]);
    assert_eq!(read.dropped, (0, 0));
    assert_eq!(read.table.form, 2);
    let read = salvage_under(&roster(&records), &copy);
    assert_eq!((&read.calls[..], read.dropped), (&[(0, 1), (63, 2)][..], (2, 2)));
    assert_eq!((read.table.form, read.standalone(1)), (1, vec![4]));
    for slot in 200..=255 {
        let outside = checkpoint(&[call(slot, 1, X, b"a")], &[]);
        assert_eq!(salvage_under(&roster_2(&records), &outside).dropped, (1, 0));
    }
}

/// A copy of 100 calls under form 1: those of the slots from 64 on go, and S is full at 64.
#[test]
fn limits_and_sums_of_the_form_that_is_read_under() {
    let calls: Vec<Vec<u8>> = (0..100)
        .map(|id: u8| call(99 - id, 1 + u16::from(id), X, &[1 + id]))
        .collect();
    let copy = checkpoint(&calls, &[]);
    assert_eq!(salvage_under(&roster_2(&[(X, 0, 100)]), &copy).dropped, (0, 0));
    assert_eq!(salvage_under(&roster_2(&[(X, 0, 90)]), &copy).dropped, (10, 0));
    assert_eq!(
        salvage_under(&roster_2(&[(X, 0, 200), (Y, 150, 150)]), &copy).dropped,
        (50, 0)
    );
    assert_eq!(salvage_under(&roster(&[(X, 0, 64)]), &copy).dropped, (36, 0));
    let read = salvage_under(&roster(&[(X, 0, 64), (Y, 10, 10)]), &copy);
    // The slots come down from 63, and 54 calls are all that the other one's guarantee leaves.
    assert_eq!((read.dropped, read.calls[0].0), ((46, 0), 10));
}

#[test]
fn a_full_table_there_and_back() {
    let records: Vec<(u32, u16, u16)> = (0..8).map(|n| (X + n, 25, 200)).collect();
    let mut tested = TestNode::of(&roster_2(&records));
    for (sender, ..) in &records {
        tested.open_many(*sender, 25);
        for id in 0..=25 {
            for lsp in 0..4 {
                assert_eq!(tested.ask(&path(*sender, id, 4 * id + lsp)), 23);
            }
        }
    }
    assert_eq!(tested.table.occupied, ALL_200);
    let mut copy = [OLD; 26_000];
    let (answer, length) = write_checkpoint(&tested.table, &mut copy);
    assert_eq!((answer, length), (0, 4 + 55 * 200 + 18 * 832));
    assert_eq!(length, 25_980);
    let due = read_back(&tested.table);
    for salvages in [false, true] {
        let read = read_checkpoint(salvages, &roster_2(&records), &copy[..length]);
        assert_eq!(read, (0, due, 0, 0));
    }
    assert_eq!(write_checkpoint(&tested.table, &mut [OLD; 25_979]), (73, 0));
}
