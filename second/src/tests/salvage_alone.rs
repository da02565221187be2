//! A13, step 1: calls that break a table rule alone, or name a slot outside the total.

use super::build::*;
use super::checkpoint_bytes::*;

/// Whether a record of X, `ab`, is dropped once its bytes are changed; a good call of Y stands before it.
fn drops(change: impl FnOnce(&mut Vec<u8>)) -> bool {
    let mut record = call(7, 5, X, b"ab");
    change(&mut record);
    let checkpoint = checkpoint(&[call(0, 1, Y, b"y"), record], &[under(1, Y, 1)]);
    let read = salvage(ROOMY, &checkpoint);
    assert_eq!(read.dropped.1, 0);
    assert_eq!(read.lsps(0), [1]);
    assert_eq!(read.calls.len() + read.dropped.0, 2);
    read.dropped.0 == 1
}

#[test]
fn sender_and_short_id() {
    assert!(!drops(|_| ()));
    assert!(drops(|record| record[7..11].copy_from_slice(&UNLISTED.to_be_bytes())));
    assert!(drops(|record| record[10] ^= 2));
    assert!(!drops(|record| record[7..11].copy_from_slice(&Y.to_be_bytes())));
    assert!(drops(|record| record[1..3].fill(0)));
    assert!(!drops(|record| record[1..3].fill(0xff)));
    assert!(!drops(|record| record[3..7].fill(0)));
}

#[test]
fn slots() {
    for slot in 1..64 {
        assert!(!drops(|record| record[0] = slot));
    }
    for slot in 64..=255 {
        assert!(drops(|record| record[0] = slot));
    }
}

#[test]
fn name_lengths() {
    let with_length = |length: u8, last: u8| {
        drops(|record| {
            let size = usize::from(length).min(32);
            record[11] = length;
            record[12..44].fill(0);
            record[12..12 + size].fill(b'n');
            if let Some(byte) = record[12..12 + size].last_mut() {
                *byte = last;
            }
        })
    };
    assert!(with_length(0, 0));
    for length in 1..=32 {
        assert!(!with_length(length, b'n'));
        // A1: a stored name does not end in zero.
        assert!(with_length(length, 0));
    }
    for length in 33..=127 {
        assert!(with_length(length, b'n'));
    }
}

#[test]
fn name_bytes_past_the_length() {
    // Bytes 12 and 13 are the name.
    assert!(!drops(|record| record[12] = 0));
    assert!(drops(|record| record[13] = 0));
    for at in 14..44 {
        assert!(drops(|record| record[at] = 1));
        assert!(drops(|record| record[at] = 0x80));
    }
    assert!(!drops(|record| {
        record[11] = 32;
        record[43] = 1;
    }));
}

/// A1: such a record, as one written before that request may have it, goes with its connections.
#[test]
fn a_name_that_ends_in_zero() {
    let calls = [call(0, 5, X, b"ab\0"), call(1, 6, X, b"c")];
    let connections = [under(5, X, 1), under(5, X, 2), under(6, X, 3), under(0, X, 4)];
    let read = salvage(ROOMY, &checkpoint(&calls, &connections));
    assert_eq!(read.calls, [(1, 6)]);
    assert_eq!(read.dropped, (1, 2));
    assert_eq!((read.lsps(1), read.standalone(0)), (vec![3], vec![4]));
}

#[test]
fn mark_and_numbers() {
    for bit in 0..8 {
        // The numbers of an unmarked call are zeros (A6).
        for at in 48..55 {
            assert!(drops(|record| record[at] = 1 << bit));
        }
        for at in 48..55 {
            assert!(!drops(|record| {
                record[11] |= 0x80;
                record[at] = 1 << bit;
            }));
        }
    }
    assert!(!drops(|record| record[11] |= 0x80));
}

#[test]
fn what_step_1_dropped_takes_nothing() {
    // Neither a slot, nor a short ID, nor a share, nor a part in step 2.
    let mut bad = call(0, 5, X, b"ab");
    bad[48] = 1;
    let calls = [bad, call(0, 6, X, b"ab"), call(1, 5, X, b"c")];
    let connections = [under(5, X, 1), under(5, X, 2), under(6, X, 3)];
    let read = salvage(&[(X, 1, 2), (Y, 62, 64)], &checkpoint(&calls, &connections));
    assert_eq!(read.calls, [(0, 6), (1, 5)]);
    assert_eq!(read.dropped, (1, 0));
    assert_eq!((read.lsps(0), read.lsps(1)), (vec![3], vec![1, 2]));
}
