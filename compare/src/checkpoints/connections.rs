//! Damage to the records of connections.

use super::calls::some_sender;
use super::damage::Damage;
use super::parts::*;
use crate::build::Roster;
use crate::random::Random;

pub const DAMAGES: &[(&str, Damage)] = &[
    ("connection: bit flipped", |p, _, r| {
        one(p, r, |record, r| record[r.below(CONNECTION)] ^= 1 << r.below(8))
    }),
    ("connection: Call ID 0", |p, _, r| {
        one(p, r, |record, _| set(record, UNDER_ID, 0))
    }),
    ("connection: any Call ID", |p, _, r| {
        one(p, r, |record, r| set(record, UNDER_ID, r.word()))
    }),
    ("connection: another call's ID", another_id),
    ("connection: sender changed", sender),
    ("connection: end point changed", |p, _, r| {
        one(p, r, |record, r| set(record, UNDER_ENDPOINT, r.word()))
    }),
    ("connection: repeated", |p, _, r| repeated(p, r, false)),
    ("connection: repeated under another Call ID", |p, _, r| {
        repeated(p, r, true)
    }),
    ("connections: swapped", swapped),
    ("connections: in any order", |p, _, r| {
        r.shuffle(&mut p.connections);
        p.connections.len() > 1
    }),
    ("connection: taken out", taken_out),
    ("connections: more under one call", more),
    ("connections: more of Call ID 0", more_standalone),
];

fn one(parts: &mut Parts, random: &mut Random, change: fn(&mut Connection, &mut Random)) -> bool {
    let Some(number) = parts.some_connection(random) else {
        return false;
    };
    change(&mut parts.connections[number], random);
    true
}

fn another_id(parts: &mut Parts, _: &Roster, random: &mut Random) -> bool {
    let (Some(number), Some(call)) = (parts.some_connection(random), parts.some_call(random)) else {
        return false;
    };
    let id = get(&parts.calls[call], ID);
    set(&mut parts.connections[number], UNDER_ID, id);
    true
}

fn sender(parts: &mut Parts, roster: &Roster, random: &mut Random) -> bool {
    let Some(number) = parts.some_connection(random) else {
        return false;
    };
    let sender = some_sender(roster, random);
    set(&mut parts.connections[number], UNDER_SENDER, sender);
    true
}

fn insert(parts: &mut Parts, record: Connection, random: &mut Random) {
    let place = random.between(0, parts.connections.len());
    parts.connections.insert(place, record);
}

fn repeated(parts: &mut Parts, random: &mut Random, elsewhere: bool) -> bool {
    let Some(number) = parts.some_connection(random) else {
        return false;
    };
    let mut record = parts.connections[number];
    if elsewhere {
        let fellows = parts.calls.iter().filter(|call| pair(call) == under_pair(&record));
        let mut ids: Vec<u32> = fellows.map(|call| get(call, ID)).collect();
        ids.push(0);
        ids.retain(|&id| id != get(&record, UNDER_ID));
        if ids.is_empty() {
            return false;
        }
        set(&mut record, UNDER_ID, *random.pick(&ids));
    }
    insert(parts, record, random);
    true
}

fn swapped(parts: &mut Parts, _: &Roster, random: &mut Random) -> bool {
    let (Some(one), Some(other)) = (parts.some_connection(random), parts.some_connection(random)) else {
        return false;
    };
    parts.connections.swap(one, other);
    one != other
}

fn taken_out(parts: &mut Parts, _: &Roster, random: &mut Random) -> bool {
    let Some(number) = parts.some_connection(random) else {
        return false;
    };
    parts.connections.remove(number);
    true
}

/// A connection of the pair under the Call ID, with numbers of its own.
pub fn fresh(pair: (u32, u32), id: u32, random: &mut Random) -> Connection {
    let mut record = [0; CONNECTION];
    random.fill(&mut record);
    set(&mut record, UNDER_ENDPOINT, pair.0);
    set(&mut record, UNDER_SENDER, pair.1);
    set(&mut record, UNDER_ID, id);
    record
}

fn more(parts: &mut Parts, _: &Roster, random: &mut Random) -> bool {
    let Some(number) = parts.some_call(random) else {
        return false;
    };
    let call = parts.calls[number];
    for _ in 0..random.between(1, 6) {
        insert(parts, fresh(pair(&call), get(&call, ID), random), random);
    }
    true
}

fn more_standalone(parts: &mut Parts, roster: &Roster, random: &mut Random) -> bool {
    let sender = random.pick(&roster.records).address;
    for _ in 0..random.between(1, 6) {
        let endpoint = *random.pick(&[0, sender, 0x0a00_0063]);
        insert(parts, fresh((endpoint, sender), 0, random), random);
    }
    true
}
