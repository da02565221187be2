//! A13, step 2: of the calls with one pair and long ID, the one that most connection records name.

use super::build::*;
use super::checkpoint_bytes::*;

/// The kept ones of duplicates with the short IDs 5 and 6 in slots 0 and 1, and the rest.
fn duplicates(connections: &[Vec<u8>]) -> Read {
    let calls = [call(0, 5, X, b"ab"), call(1, 6, X, b"ab")];
    salvage(ROOMY, &checkpoint(&calls, connections))
}

#[test]
fn the_one_with_most_connections() {
    let read = duplicates(&[under(5, X, 1), under(6, X, 2), under(6, X, 3)]);
    assert_eq!(read.calls, [(1, 6)]);
    assert_eq!(read.dropped, (1, 1));
    assert_eq!(read.lsps(1), [2, 3]);
    let read = duplicates(&[under(6, X, 2), under(5, X, 1), under(5, X, 3)]);
    assert_eq!(read.calls, [(0, 5)]);
    assert_eq!(read.dropped, (1, 1));
}

#[test]
fn the_first_if_equal() {
    assert_eq!(duplicates(&[]).calls, [(0, 5)]);
    let read = duplicates(&[under(6, X, 2), under(5, X, 1)]);
    assert_eq!(read.calls, [(0, 5)]);
    assert_eq!(read.dropped, (1, 1));
    // The first record, not the lowest slot or ID.
    let calls = [call(9, 7, X, b"ab"), call(1, 6, X, b"ab"), call(0, 5, X, b"ab")];
    let read = salvage(ROOMY, &checkpoint(&calls, &[under(6, X, 1), under(7, X, 2)]));
    assert_eq!(read.calls, [(9, 7)]);
    assert_eq!(read.dropped, (2, 1));
}

#[test]
fn repeated_and_dropped_records_count() {
    // Three times the same connection is three; one of them stands.
    let same = under(6, X, 2);
    let read = duplicates(&[under(5, X, 1), under(5, X, 3), same.clone(), same.clone(), same]);
    assert_eq!(read.calls, [(1, 6)]);
    assert_eq!(read.dropped, (1, 4));
    // Five under one are five, though only four can stand; four under the other lose.
    let mut connections: Vec<Vec<u8>> = (1..=4).map(|lsp| under(5, X, lsp)).collect();
    connections.extend((11..=15).map(|lsp| under(6, X, lsp)));
    let read = duplicates(&connections);
    assert_eq!(read.calls, [(1, 6)]);
    assert_eq!(read.dropped, (1, 5));
    assert_eq!(read.lsps(1), [11, 12, 13, 14]);
    // 256 and 1: no count wraps.
    let mut connections = vec![under(5, X, 1)];
    connections.extend((2..258).map(|lsp| under(6, X, lsp)));
    let read = duplicates(&connections);
    assert_eq!(read.calls, [(1, 6)]);
    assert_eq!(read.dropped, (1, 1 + 252));
    // A connection that stands under Call ID 0 already counts for 6 all the same.
    let read = duplicates(&[under(0, X, 1), under(6, X, 1)]);
    assert_eq!(read.calls, [(1, 6)]);
    assert_eq!(read.dropped, (1, 1));
    assert_eq!((read.lsps(1), read.standalone(0)), (vec![], vec![1]));
}

#[test]
fn only_records_of_the_pair_count() {
    let others = [under_at(X, 6, X, 1), under(6, Y, 2), under_at(X, 6, END, 3)];
    let read = duplicates(&others);
    assert_eq!(read.calls, [(0, 5)]);
    assert_eq!(read.dropped, (1, 3));
}

#[test]
fn one_pair_and_one_long_id() {
    // Another end point, another sender, a zero byte in the name: no duplicates.
    let calls = [
        call(0, 5, X, b"ab"),
        call_at(X, 1, 5, X, b"ab"),
        call(2, 5, Y, b"ab"),
        call(3, 6, X, b"a\0b"),
    ];
    let read = salvage(ROOMY, &checkpoint(&calls, &[under(6, X, 1)]));
    assert_eq!(read.calls, [(0, 5), (1, 5), (2, 5), (3, 6)]);
    assert_eq!(read.dropped, (0, 0));
    // A zero byte more is dropped before (A1), however many connections name it.
    let calls = [call(0, 5, X, b"ab"), call(3, 6, X, b"ab\0")];
    let read = salvage(ROOMY, &checkpoint(&calls, &[under(6, X, 1), under(6, X, 2)]));
    assert_eq!((read.calls.clone(), read.dropped), (vec![(0, 5)], (1, 2)));
}

#[test]
fn a_winner_that_step_3_drops_brings_nobody_back() {
    // Call 6 wins by its connection and finds slot 1 taken; call 5 stays away.
    let calls = [call(1, 9, X, b"z"), call(0, 5, X, b"ab"), call(1, 6, X, b"ab")];
    let read = salvage(ROOMY, &checkpoint(&calls, &[under(6, X, 1), under(5, X, 2)]));
    // One each: the first, call 5, wins.
    assert_eq!(read.calls, [(0, 5), (1, 9)]);
    assert_eq!(read.dropped, (1, 1));
    let read = salvage(ROOMY, &checkpoint(&calls, &[under(6, X, 1)]));
    assert_eq!(read.calls, [(1, 9)]);
    assert_eq!(read.dropped, (2, 1));
}

#[test]
fn a_loser_takes_nothing_in_step_3() {
    // Call 5 loses to 6 before step 3, so that its slot and its short ID are free for the third.
    let calls = [call(0, 5, X, b"ab"), call(1, 6, X, b"ab"), call(0, 5, X, b"c")];
    let connections = [under(6, X, 1), under(6, X, 2), under(5, X, 3)];
    let read = salvage(ROOMY, &checkpoint(&calls, &connections));
    assert_eq!(read.calls, [(0, 5), (1, 6)]);
    assert_eq!(read.dropped, (1, 0));
    assert_eq!((read.lsps(0), read.lsps(1)), (vec![3], vec![1, 2]));
    assert_eq!(read.table.calls[0].name[0], b'c');
}

/// Two records of one call in two slots, the connections under the one.
#[test]
fn one_call_in_two_records() {
    let connections = [under(5, X, 1), under(5, X, 2), under(5, X, 3)];
    // Both IDs the same: the records are named alike, the first stays, the connections go under it.
    let calls = [call(3, 5, X, b"ab"), call(8, 5, X, b"ab")];
    let read = salvage(ROOMY, &checkpoint(&calls, &connections));
    assert_eq!(read.calls, [(3, 5)]);
    assert_eq!(read.dropped, (1, 0));
    assert_eq!(read.lsps(3), [1, 2, 3]);
    // Opened anew under another short ID: the one with the connections stays, be it the first or the second.
    let calls = [call(3, 4, X, b"ab"), call(8, 5, X, b"ab")];
    let read = salvage(ROOMY, &checkpoint(&calls, &connections));
    assert_eq!((read.calls.clone(), read.dropped), (vec![(8, 5)], (1, 0)));
    assert_eq!(read.lsps(8), [1, 2, 3]);
    let calls = [call(3, 5, X, b"ab"), call(8, 6, X, b"ab")];
    let read = salvage(ROOMY, &checkpoint(&calls, &connections));
    assert_eq!((read.calls.clone(), read.dropped), (vec![(3, 5)], (1, 0)));
    assert_eq!(read.lsps(3), [1, 2, 3]);
}
