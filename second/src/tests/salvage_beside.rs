//! A13, step 3: front to back, records that break a table rule or take a taken slot beside those kept.

use super::build::*;
use super::checkpoint_bytes::*;

#[test]
fn a_taken_slot() {
    let calls = [call(4, 5, X, b"a"), call(4, 6, X, b"b"), call(4, 7, Y, b"c")];
    // Earlier records stay even if a later one has connections.
    let read = salvage(ROOMY, &checkpoint(&calls, &[under(6, X, 1), under(5, X, 2)]));
    assert_eq!(read.calls, [(4, 5)]);
    assert_eq!(read.dropped, (2, 1));
    assert_eq!(read.lsps(4), [2]);
}

#[test]
fn a_short_id_twice_in_the_pair() {
    let calls = [call(0, 5, X, b"a"), call(1, 5, X, b"b"), call(2, 5, Y, b"b")];
    let read = salvage(ROOMY, &checkpoint(&calls, &[under(5, X, 1)]));
    assert_eq!(read.calls, [(0, 5), (2, 5)]);
    assert_eq!(read.dropped, (1, 0));
    assert_eq!(read.lsps(0), [1]);
}

#[test]
fn the_order_of_slots_is_not_tested() {
    let calls = [call(9, 5, X, b"a"), call(1, 6, Y, b"b"), call(4, 7, X, b"c")];
    let connections = [under(0, Y, 1), under(7, X, 2), under(0, X, 3), under(5, X, 4)];
    let read = salvage(ROOMY, &checkpoint(&calls, &connections));
    assert_eq!(read.calls, [(1, 6), (4, 7), (9, 5)]);
    assert_eq!(read.dropped, (0, 0));
}

#[test]
fn the_limit() {
    // X may have 4 calls: the fifth and sixth are dropped; one dropped for its slot does not count.
    let mut calls: Vec<Vec<u8>> = (1..=6).map(|id| call(id, id.into(), X, &[id])).collect();
    calls[1][0] = 1;
    let read = salvage(ROOMY, &checkpoint(&calls, &[]));
    assert_eq!(read.calls, [(1, 1), (3, 3), (4, 4), (5, 5)]);
    assert_eq!(read.dropped, (2, 0));
}

#[test]
fn the_sum_of_shares() {
    // Y's 62 kept free leave two calls to X though it may have 64.
    let records = [(X, 1, 64), (Y, 62, 64)];
    let calls: Vec<Vec<u8>> = (1..=4).map(|id| call(id, id.into(), X, &[id])).collect();
    let read = salvage(&records, &checkpoint(&calls, &[]));
    assert_eq!(read.calls, [(1, 1), (2, 2)]);
    assert_eq!(read.dropped, (2, 0));
    // S is 64 by then; Y's own calls come out of its 62, and the 63rd is dropped.
    let mut many = calls.clone();
    many.extend((1..=63).map(|id: u8| call((id + 2) % 64, id.into(), Y, &[id])));
    let read = salvage(&records, &checkpoint(&many, &[]));
    assert_eq!(read.calls.len(), 64);
    assert_eq!(read.dropped, (3, 0));
    assert_eq!(read.table.calls[0].sender, Y);
}

#[test]
fn no_guarantee_and_s_64() {
    let records = [(X, 0, 64), (Y, 64, 64)];
    let calls = [call(0, 1, X, b"a"), call(0, 1, Y, b"a")];
    let read = salvage(&records, &checkpoint(&calls, &[]));
    assert_eq!(read.calls, [(0, 1)]);
    assert_eq!(read.table.calls[0].sender, Y);
    assert_eq!(read.dropped, (1, 0));
}

#[test]
fn senders_and_calls_of_connections() {
    let calls = [call(0, 5, X, b"a"), call_at(X, 1, 6, X, b"b")];
    let connections = [
        under(5, UNLISTED, 1),
        under(0, UNLISTED, 2),
        under(7, X, 3),
        under(6, X, 4),
        under(5, Y, 5),
        under_at(X, 5, X, 6),
        under_at(X, 6, X, 7),
        under(5, X, 8),
    ];
    let read = salvage(ROOMY, &checkpoint(&calls, &connections));
    assert_eq!(read.dropped, (0, 6));
    assert_eq!((read.lsps(0), read.lsps(1)), (vec![8], vec![7]));
}

#[test]
fn one_connection_dropped() {
    let calls = [call(0, 5, X, b"a")];
    let read = salvage(ROOMY, &checkpoint(&calls, &[under(5, X, 1), under(5, X, 1)]));
    assert_eq!(read.dropped, (0, 1));
    assert_eq!(read.lsps(0), [1]);
}

#[test]
fn records_go_before_slots() {
    // X may have 4 calls: those that stay are the first records, not the lowest slots.
    let calls: Vec<Vec<u8>> = (1..=6).map(|id| call(20 - id, id.into(), X, &[id])).collect();
    let read = salvage(ROOMY, &checkpoint(&calls, &[]));
    assert_eq!(read.calls, [(16, 4), (17, 3), (18, 2), (19, 1)]);
    assert_eq!(read.dropped, (2, 0));
}

#[test]
fn a_connection_twice() {
    let calls = [call(0, 5, X, b"a"), call(1, 6, X, b"b")];
    // The same five fields under the same call, another call, Call ID 0; then at another end point and of Y.
    let connections = [
        under(5, X, 1),
        under(5, X, 1),
        under(6, X, 1),
        under(0, X, 1),
        under_at(X, 0, X, 1),
        under(0, Y, 1),
        under(6, X, 2),
    ];
    let read = salvage(ROOMY, &checkpoint(&calls, &connections));
    assert_eq!(read.dropped, (0, 3));
    assert_eq!((read.lsps(0), read.lsps(1)), (vec![1], vec![2]));
    assert_eq!((read.standalone(0), read.standalone(1)), (vec![1], vec![1]));
}

#[test]
fn each_of_the_five_fields_tells_connections_apart() {
    let calls = [call(0, 5, X, b"a")];
    let mut connections = vec![under(5, X, 1); 4];
    connections[1][7] ^= 1; // Tunnel ID
    connections[2][8] ^= 0x80; // extended tunnel ID
    connections[3][16] ^= 1; // LSP ID
    let read = salvage(ROOMY, &checkpoint(&calls, &connections));
    assert_eq!(read.dropped, (0, 0));
}

#[test]
fn the_fours() {
    let calls = [call(0, 5, X, b"a"), call(1, 6, X, b"b")];
    let mut connections: Vec<Vec<u8>> = (1..=6).map(|lsp| under(5, X, lsp)).collect();
    connections.extend((7..=8).map(|lsp| under(6, X, lsp)));
    // Call ID 0: four a customer over all its end points.
    connections.extend((11..=13).map(|lsp| under(0, X, lsp)));
    connections.extend((14..=15).map(|lsp| under_at(Y, 0, X, lsp)));
    connections.push(under(0, Y, 16));
    // A dropped one is not held: the fifth under call 5 may stand under call 6.
    connections.push(under(6, X, 5));
    let read = salvage(ROOMY, &checkpoint(&calls, &connections));
    assert_eq!(read.dropped, (0, 3));
    assert_eq!(read.lsps(0), [1, 2, 3, 4]);
    assert_eq!(read.lsps(1), [7, 8, 5]);
    assert_eq!(read.standalone(0), [11, 12, 13, 14]);
    assert_eq!(read.standalone(1), [16]);
}

#[test]
fn places_close_up_behind_dropped_records() {
    let calls = [call(0, 5, X, b"a")];
    let connections = [under(5, X, 3), under(5, X, 3), under(9, X, 1), under(5, X, 2)];
    let read = salvage(ROOMY, &checkpoint(&calls, &connections));
    assert_eq!(read.dropped, (0, 2));
    let taken = read.table.calls[0].places.map(|place| place.taken);
    assert_eq!(taken, [1, 1, 0, 0]);
    assert_eq!(read.lsps(0), [3, 2]);
}

#[test]
fn connections_of_a_dropped_call() {
    // The call is dropped for its slot; what stood under it goes with it.
    let calls = [call(0, 5, X, b"a"), call(0, 6, X, b"b")];
    let read = salvage(ROOMY, &checkpoint(&calls, &[under(6, X, 1), under(6, X, 2)]));
    assert_eq!(read.calls, [(0, 5)]);
    assert_eq!(read.dropped, (1, 2));
}

#[test]
fn all_zeros_and_address_zero() {
    // 4 + 55 + 18 bytes of zeros but the counts, under a roster that lists 0.0.0.0: the connection stands.
    let checkpoint = checkpoint(&[vec![0; 55]], &[vec![0; 18]]);
    let read = salvage(&[(0, 0, 1)], &checkpoint);
    assert_eq!(read.dropped, (1, 0));
    assert_eq!(read.table.customers[0].places[0].taken, 1);
}

#[test]
fn another_roster() {
    let calls = [call(0, 1, X, b"a"), call(1, 2, X, b"b"), call(2, 1, Y, b"a")];
    let connections = [under(2, X, 1), under(1, Y, 1), under(0, X, 2), under(0, Y, 2)];
    let checkpoint = checkpoint(&calls, &connections);
    // The customers in another order.
    let read = salvage(&[(Y, 1, 4), (X, 1, 4)], &checkpoint);
    assert_eq!(read.dropped, (0, 0));
    assert_eq!((read.standalone(0), read.standalone(1)), (vec![2], vec![2]));
    assert_eq!(read.table.customers[0].address, Y);
    // A lower limit, a guarantee raised, a customer gone.
    let read = salvage(&[(X, 1, 1), (Y, 1, 4)], &checkpoint);
    assert_eq!((read.calls, read.dropped), (vec![(0, 1), (2, 1)], (1, 1)));
    let read = salvage(&[(X, 1, 4), (Y, 63, 64)], &checkpoint);
    assert_eq!((read.calls, read.dropped), (vec![(0, 1), (2, 1)], (1, 1)));
    let read = salvage(&[(Y, 1, 4)], &checkpoint);
    assert_eq!((read.calls, read.dropped), (vec![(2, 1)], (2, 2)));
}
