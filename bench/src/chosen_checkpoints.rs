//! Checkpoints of the largest counts, chosen to be slow to read: IDs that stood in one chain while all checkpoints had
//! the same factors, and records that are dropped only after a long look.

use crate::chosen::beside;
use crate::largest::{largest, one_name, own_name, spread, Call, Connection, Row, CALLS};

/// What end point and short ID were multiplied with in every checkpoint, before each had factors of its own
/// (crates/checkpoint_chains).
const ENDPOINT_FACTOR: u32 = 199_728_483;
const SHORT_FACTOR: u32 = 203_459_603;

/// The slot of calls that are not sound, and the last one that a table has.
const OUTSIDE: u8 = 255;
const LAST: u8 = 199;

/// The sender of connections that belong to no customer.
const STRANGER: u32 = 0x0b00_0001;

pub fn all() -> Vec<Row> {
    let mut rows = calls();
    rows.extend(connections());
    rows
}

/// Those whose calls are chosen.
fn calls() -> Vec<Row> {
    let of_first = |n| one_short_chain(0).connection(n);
    vec![
        ("short IDs of one chain", largest(one_short_chain, of_first)),
        ("long IDs of one chain", largest(one_long_chain, spread(one_long_chain))),
        ("half of the calls not sound", largest(half_sound, spread(half_sound))),
        ("short ID in use", largest(short_in_use, spread(short_in_use))),
    ]
}

/// Those whose connections are chosen: the calls are of one pair, with long IDs of their own.
fn connections() -> Vec<Row> {
    let (a, b) = (own_name(0), own_name(1));
    let x = a.connection(1);
    let then = |other: Connection| move |n| if n == 0 { x } else { other };
    let no_call = Connection { id: 0, ..x };
    let stranger = |n| Connection {
        id: 0,
        sender: STRANGER,
        ..a.connection(n)
    };
    vec![
        (
            "one connection under two calls",
            largest(own_name, then(b.connection(1))),
        ),
        ("a call's connection with Call ID 0", largest(own_name, then(no_call))),
        (
            "all connections of the first call",
            largest(own_name, |n| a.connection(n)),
        ),
        ("senders that are not listed, Call ID 0", largest(own_name, stranger)),
        ("one connection, repeated", largest(own_name, then(x))),
    ]
}

/// Pairs and short IDs with one key; long IDs of their own.
fn one_short_chain(number: u16) -> Call {
    let call = own_name(number);
    let endpoint = beside(call.id.into(), SHORT_FACTOR, ENDPOINT_FACTOR);
    Call { endpoint, ..call }
}

/// One pair, and names with one sum of their bytes and one of all sums on the way. Only the last six bytes differ.
fn one_long_chain(number: u16) -> Call {
    let mut name = [150; 32];
    for (at, d) in [(26, number / 64), (29, number % 64)] {
        let d = d as u8;
        name[at] += d;
        name[at + 1] -= 2 * d;
        name[at + 2] += d;
    }
    Call {
        name,
        ..one_name(number)
    }
}

/// One pair and long ID. The first half stand in no slot.
fn half_sound(number: u16) -> Call {
    let call = one_name(number);
    let slot = if number < CALLS / 2 { OUTSIDE } else { call.slot };
    Call { slot, ..call }
}

/// Calls in all slots but the last, and then, in the last one, calls with the short ID of the first.
fn short_in_use(number: u16) -> Call {
    let call = own_name(number);
    if number < LAST.into() {
        return call;
    }
    Call {
        slot: LAST,
        id: own_name(0).id,
        ..call
    }
}

#[cfg(test)]
mod tests {
    use super::*;
    use crate::largest::SENDER;
    use std::collections::HashSet;

    const SENDER_FACTOR: u32 = 179_213_453;

    #[test]
    fn short_ids_with_one_key() {
        let key = |call: Call| {
            let product = call.endpoint.wrapping_mul(ENDPOINT_FACTOR);
            let product = product.wrapping_add(SENDER.wrapping_mul(SENDER_FACTOR));
            product.wrapping_add(u32::from(call.id).wrapping_mul(SHORT_FACTOR))
        };
        let calls = || (0..CALLS).map(one_short_chain);
        assert!(calls().all(|call| key(call) == key(one_short_chain(0))));
        let shorts: HashSet<_> = calls().map(|call| (call.endpoint, call.id)).collect();
        assert_eq!(shorts.len(), CALLS.into());
    }

    #[test]
    fn names_with_the_same_sums() {
        let sums = |call: Call| {
            let next = |(a, b): (u32, u32), byte: &u8| (a + u32::from(*byte), b + a + u32::from(*byte));
            call.name.iter().fold((0, 0), next)
        };
        let calls = || (0..CALLS).map(one_long_chain);
        assert!(calls().all(|call| sums(call) == sums(one_long_chain(0))));
        let names: HashSet<_> = calls().map(|call| call.name).collect();
        assert_eq!(names.len(), CALLS.into());
    }
}
