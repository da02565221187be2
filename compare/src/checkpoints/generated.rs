//! Checkpoints that no program wrote: random bytes, and records of so few values that they meet often.

use super::calls;
use super::connections;
use super::parts::*;
use crate::build::Roster;
use crate::random::Random;

type Maker = fn(&Roster, &mut Random) -> Vec<u8>;

pub const MAKERS: &[(&str, Maker)] = &[
    ("made: random bytes", any_bytes),
    ("made: random bytes behind a head", behind_head),
    ("made: few values", few_values),
    ("made: few values, one pair", one_pair),
    ("made: duplicates of hundreds of connections", hundreds),
];

/// Read once each, since they are large. All records are of one pair.
pub const LARGEST: &[(&str, Maker)] = &[
    ("all calls alike", |roster, random| largest(roster, 1, random)),
    ("few short IDs", |roster, random| largest(roster, 3, random)),
    ("IDs of their own", |roster, random| largest(roster, 4095, random)),
    ("duplicates of 32,767 and 32,768 connections", |roster, random| {
        duplicates(roster, &[32_767, 32_768], random)
    }),
];

fn any_bytes(_: &Roster, random: &mut Random) -> Vec<u8> {
    let most = *random.pick(&[4, 100, 5000]);
    let size = random.between(0, most);
    random.bytes(size)
}

fn behind_head(_: &Roster, random: &mut Random) -> Vec<u8> {
    let mut parts = Parts::default();
    let (calls, connections) = (random.between(0, 8), random.between(0, 8));
    parts.calls.resize(calls, [0; CALL]);
    parts.connections.resize(connections, [0; CONNECTION]);
    random.fill(parts.calls.as_flattened_mut());
    random.fill(parts.connections.as_flattened_mut());
    parts.bytes()
}

fn few_values(roster: &Roster, random: &mut Random) -> Vec<u8> {
    let mut pairs = vec![(7, 8)];
    for record in &roster.records {
        pairs.extend([(1, record.address), (record.address, record.address)]);
    }
    records(roster, &pairs, random)
}

fn one_pair(roster: &Roster, random: &mut Random) -> Vec<u8> {
    let pair = (1, random.pick(&roster.records).address);
    records(roster, &[pair], random)
}

fn records(roster: &Roster, pairs: &[(u32, u32)], random: &mut Random) -> Vec<u8> {
    let most = *random.pick(&[4, 20, 150]);
    let (calls, connections) = (random.between(0, most), random.between(0, 3 * most));
    let values = *random.pick(&[3, 10, 60]);
    let parts = Parts {
        calls: (0..calls)
            .map(|_| call(roster.total(), pairs, values, random))
            .collect(),
        connections: (0..connections).map(|_| connection(pairs, values, random)).collect(),
    };
    parts.bytes()
}

/// One in ten breaks a rule alone.
fn call(total: usize, pairs: &[(u32, u32)], values: usize, random: &mut Random) -> Call {
    let mut call = [0; CALL];
    let (endpoint, sender) = *random.pick(pairs);
    set(&mut call, SLOT, random.below(total) as u32);
    set(&mut call, ID, random.between(1, values) as u32);
    set(&mut call, ENDPOINT, endpoint);
    set(&mut call, SENDER, sender);
    let (size, value) = (random.between(1, 3), random.below(values.min(255)) as u32);
    set(&mut call, SIZE, size as u32);
    set(&mut call, (NAME.0, 1), value);
    // The last byte, which is the first one too in a name of one, is not zero.
    let last = if size == 1 { value + 1 } else { 1 };
    set(&mut call, (NAME.0 + size - 1, 1), last);
    if random.chance(1, 3) {
        call[SIZE.0] |= 0x80;
        set(&mut call, EPOCH, random.below(2) as u32);
        set(&mut call, IDENTIFIER, random.below(values) as u32);
    }
    if random.chance(1, 2) {
        set(&mut call, REFRESHED, calls::some_refresh(random));
    }
    match random.below(60) {
        0 => set(&mut call, SLOT, total as u32),
        1 => set(&mut call, ID, 0),
        2 => set(&mut call, SIZE, 0),
        3 => call[SIZE.0] ^= 0x80,
        4 => set(&mut call, (NAME.0 + 31, 1), 1),
        5 => set(&mut call, (NAME.0 + size - 1, 1), 0),
        _ => {}
    }
    call
}

fn connection(pairs: &[(u32, u32)], values: usize, random: &mut Random) -> Connection {
    let mut connection = [0; CONNECTION];
    let (endpoint, sender) = *random.pick(pairs);
    set(&mut connection, UNDER_ENDPOINT, endpoint);
    set(&mut connection, UNDER_ID, random.between(0, values) as u32);
    set(&mut connection, UNDER_TUNNEL, random.below(3) as u32);
    set(&mut connection, UNDER_EXTENDED, random.below(2) as u32);
    set(&mut connection, UNDER_SENDER, sender);
    set(&mut connection, UNDER_LSP, random.below(values) as u32);
    connection
}

/// The largest counts, with this many short IDs; each call has a name of its own if there are as many.
fn largest(roster: &Roster, values: usize, random: &mut Random) -> Vec<u8> {
    let pair = (1, random.pick(&roster.records).address);
    let mut parts = Parts {
        calls: (0..4095)
            .map(|_| call(roster.total(), &[pair], values, random))
            .collect(),
        connections: (0..65535).map(|_| connection(&[pair], values, random)).collect(),
    };
    if values == parts.calls.len() {
        for (number, call) in parts.calls.iter_mut().enumerate() {
            set_size(call, 3);
            set(call, (NAME.0, 3), (number as u32) << 8 | 1);
        }
    }
    parts.bytes()
}

fn hundreds(roster: &Roster, random: &mut Random) -> Vec<u8> {
    let counts: Vec<usize> = (0..random.between(2, 3)).map(|_| random.between(250, 262)).collect();
    duplicates(roster, &counts, random)
}

/// Calls with one long ID, named by this many connections each.
fn duplicates(roster: &Roster, counts: &[usize], random: &mut Random) -> Vec<u8> {
    let pair = (1, random.pick(&roster.records).address);
    let mut parts = Parts::default();
    for (number, &count) in counts.iter().enumerate() {
        let id = number as u32 + 1;
        let mut call = call(roster.total(), &[pair], 1, random);
        set(&mut call, ID, id);
        set_size(&mut call, 1);
        set(&mut call, (NAME.0, 3), u32::from(b'n') << 16);
        parts.calls.push(call);
        let named = (0..count).map(|_| connections::fresh(pair, id, random));
        parts.connections.extend(named);
    }
    random.shuffle(&mut parts.connections);
    parts.bytes()
}
