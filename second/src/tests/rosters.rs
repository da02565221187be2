//! 01, "The roster".

use super::build::*;
use crate::read_roster;
use crate::table::{Customer, Table};

fn answer(records: &[(u32, u16, u16)]) -> u8 {
    let (answer, table) = read_roster(&roster(records));
    assert_eq!(table == Table::EMPTY, answer != 0);
    answer
}

#[test]
fn the_worked_roster_is_read() {
    let (answer, table) = read_roster(&hex("110a000002000007 0a0000010208"));
    let mut expected = Table {
        address: 0x0a00_0002,
        epoch: 7,
        listed: 1,
        form: 1,
        ..Table::EMPTY
    };
    expected.customers[0] = Customer {
        address: 0x0a00_0001,
        guarantee: 1,
        limit: 2,
        ..Customer::UNUSED
    };
    assert_eq!((answer, table), (0, expected));
    assert_eq!(table.next, 1);
}

#[test]
fn length_and_form() {
    for length in 0..8 {
        assert_eq!(read_roster(&vec![0xff; length]).0, 40);
    }
    for form in (0..16).filter(|form| ![1, 2].contains(form)) {
        let mut bytes = hex("110a000002000007 0a0000010208");
        bytes[0] = form << 4 | 1;
        assert_eq!(read_roster(&bytes).0, 41);
    }
    // The same tests for both forms.
    for form in ["1", "2"] {
        let answer = |rest: &str| read_roster(&hex(&format!("{form}{rest}"))).0;
        assert_eq!(answer("00a000002000007"), 41);
        assert_eq!(answer("90a000002000007"), 41);
        assert_eq!(answer("10a000002000007"), 42);
        assert_eq!(answer("10a000002000007 0a000001020800"), 42);
        assert_eq!(answer("10a000002000007 0a00000102"), 42);
    }
    // 41 before 42, 42 before 43.
    assert_eq!(read_roster(&hex("300a000002000007 00")).0, 41);
    assert_eq!(read_roster(&hex("200a000002000007 00")).0, 41);
    assert_eq!(read_roster(&hex("110a000002000007 0a000001020b 00")).0, 42);
}

#[test]
fn records_front_to_back() {
    // Spare bits before the limit of 0, in one record.
    assert_eq!(read_roster(&hex("110a000002000007 0a0000010001")).0, 43);
    assert_eq!(read_roster(&hex("110a000002000007 0a0000010002")).0, 43);
    assert_eq!(answer(&[(X, 0, 0)]), 44);
    assert_eq!(answer(&[(X, 0, 64)]), 0);
    assert_eq!(answer(&[(X, 0, 65)]), 44);
    assert_eq!(answer(&[(X, 2, 2)]), 0);
    assert_eq!(answer(&[(X, 3, 2)]), 44);
    assert_eq!(answer(&[(X, 1, 2), (X, 1, 2)]), 45);
    assert_eq!(answer(&[(X, 1, 2), (Y, 1, 2), (X, 1, 2)]), 45);
    // 44 before 45 in one record; an earlier record's 45 or 44 before a later one's.
    assert_eq!(answer(&[(X, 1, 2), (X, 3, 2)]), 44);
    assert_eq!(answer(&[(X, 1, 2), (X, 1, 2), (Y, 3, 2)]), 45);
    let later_spare = hex("120a000002000007 0a0000010000 0b0000010001");
    assert_eq!(read_roster(&later_spare).0, 44);
    // Address 0.0.0.0 may be listed.
    assert_eq!(answer(&[(0, 1, 2)]), 0);
}

#[test]
fn guarantees_come_last() {
    assert_eq!(answer(&[(X, 62, 64), (Y, 2, 64)]), 0);
    assert_eq!(answer(&[(X, 62, 64), (Y, 3, 64)]), 46);
    assert_eq!(answer(&[(X, 64, 64), (Y, 64, 64), (X, 1, 1)]), 45);
    assert_eq!(answer(&[(X, 64, 64), (Y, 64, 64), (UNLISTED, 1, 0)]), 44);
}

#[test]
fn eight_customers_are_the_most() {
    let eight: Vec<_> = (0..8).map(|i| (i, 8, 64)).collect();
    assert_eq!(answer(&eight), 0);
    let (_, table) = read_roster(&roster(&eight));
    assert_eq!((table.listed, table.customers[7].address), (8, 7));
    let nine: Vec<_> = (0..9).map(|i| (i, 1, 64)).collect();
    assert_eq!(answer(&nine), 41);
}

#[test]
fn the_epoch_has_24_bits() {
    let (answer, table) = read_roster(&hex("11ffffffffffffff 0a0000010208"));
    assert_eq!((answer, table.address, table.epoch), (0, u32::MAX, 0x00ff_ffff));
}
