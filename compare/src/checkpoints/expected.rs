//! Which records of a checkpoint A13 drops, found record by record in the plainest way, with the reason for each. It
//! counts them only: tables are compared between the two programs.

use super::parts::*;
use crate::form::{self, Customer};
use crate::layout::SLOTS;
use crate::ledger::Restored;
use crate::made::{self, Ids};
use std::collections::HashMap;

/// Why a record is dropped.
pub const REASONS: &[&str] = &[
    "call alone: slot 200 and above",
    "call alone: slot 64 to 199 under form 1",
    "call alone: sender not listed",
    "call alone: Call ID 0",
    "call alone: name length 0",
    "call alone: name length above 32",
    "call alone: byte past the name",
    "call alone: name ends in zero",
    "call alone: request epoch without the mark",
    "call alone: request identifier without the mark",
    "duplicate: fewer connections",
    "duplicate: as many connections, but later",
    "call beside others: slot taken",
    "call beside others: short ID twice",
    "call beside others: request numbers twice",
    "call beside others: limit",
    "call beside others: S",
    "connection: sender not listed",
    "connection: no such call",
    "connection: twice under one call",
    "connection: twice under two Call IDs",
    "connection: a call's four",
    "connection: a customer's four",
];

/// Calls that are kept: made ones (A6), and by their last refresh (A7).
pub const KEPT: &[&str] = &[
    "made call kept: under the name made of its ID",
    "made call kept: under another name",
    "made call kept: numbers 0 and 0",
    "made call kept: numbers 0 and 0, beside an unmarked call of the pair",
    "made call kept: largest epoch",
    "made call kept: the numbers of another pair's",
    "made call kept: one number of another of the pair",
    "call kept: refresh 0",
    "call kept: refresh 1 to 65,535",
    "call kept: refresh 65,536 to 2^31 less 1",
    "call kept: refresh 2^31 and above",
    "call kept: refresh 4,294,967,295",
    "call kept: refresh earlier than another's",
    "latest refresh of those kept is that of the last record kept",
    "latest refresh of those kept is that of another record",
    "call dropped: refresh later than that of all kept",
    "no call kept of those with a refresh",
];

/// The reasons of the calls and of the connections dropped.
#[derive(Default)]
pub struct Drops {
    pub calls: Vec<&'static str>,
    pub connections: Vec<&'static str>,
    /// What was kept, and how its refreshes stand to those dropped.
    pub kept: Vec<&'static str>,
    /// The latest refresh of the calls kept, 0 where none is.
    pub time: u32,
}

/// The roster that a checkpoint is read under.
struct Roster {
    total: usize,
    customers: Vec<Customer>,
}

/// What salvage drops of a checkpoint's records under an accepted roster.
pub fn expected_drops(roster: &[u8], parts: &Parts) -> Drops {
    let (total, customers) = form::accepted(roster);
    let roster = Roster { total, customers };
    let mut drops = Drops::default();
    let kept = kept_calls(&roster, parts, &mut drops);
    let mut held = Held::default();
    for connection in &parts.connections {
        match connected(&roster, &kept, &held, connection) {
            Some(reason) => drops.connections.push(reason),
            None => held.put(connection),
        }
    }
    let is_made = |call: &&&Call| is_marked(call);
    drops.kept = kept
        .iter()
        .filter(is_made)
        .flat_map(|call| kinds(&kept, call))
        .collect();
    let refreshes: Vec<u32> = kept.iter().map(|call| get(*call, REFRESHED)).collect();
    drops.time = refreshes.iter().copied().max().unwrap_or(0);
    drops.kept.extend(by_refresh(parts, &refreshes, drops.time));
    drops
}

/// A7: the refreshes of the calls kept, the latest of them, and those of the records.
fn by_refresh(parts: &Parts, kept: &[u32], latest: u32) -> Vec<&'static str> {
    let records = || parts.calls.iter().map(|call| get(call, REFRESHED));
    let (first, last) = (kept.iter().position(|&one| one == latest), kept.len().checked_sub(1));
    let any = |wanted: fn(u32) -> bool| kept.iter().any(|&one| wanted(one));
    let came = [
        (any(|one| one == 0), KEPT[7]),
        (any(|one| (1..1 << 16).contains(&one)), KEPT[8]),
        (any(|one| (1 << 16..1 << 31).contains(&one)), KEPT[9]),
        (any(|one| one >= 1 << 31), KEPT[10]),
        (any(|one| one == u32::MAX), KEPT[11]),
        (kept.iter().any(|&one| one < latest), KEPT[12]),
        (latest > 0 && first == last, KEPT[13]),
        (latest > 0 && first != last, KEPT[14]),
        (!kept.is_empty() && records().any(|one| one > latest), KEPT[15]),
        (kept.is_empty() && records().any(|one| one > 0), KEPT[16]),
    ];
    came.into_iter().filter(|kind| kind.0).map(|kind| kind.1).collect()
}

/// The calls that salvage keeps, in their order.
fn kept_calls<'a>(roster: &Roster, parts: &'a Parts, drops: &mut Drops) -> Vec<&'a Call> {
    let names = names(parts);
    let mut left: Vec<(&Call, usize)> = Vec::new();
    for call in &parts.calls {
        match alone(roster, call) {
            Some(reason) => drops.calls.push(reason),
            None => left.push((call, names.get(&short_id(call)).copied().unwrap_or(0))),
        }
    }
    let mut kept: Vec<&Call> = Vec::new();
    for number in 0..left.len() {
        let call = left[number].0;
        match duplicate(&left, number).or_else(|| beside(roster, &kept, call)) {
            Some(reason) => drops.calls.push(reason),
            None => kept.push(call),
        }
    }
    kept
}

/// The calls that salvage restores, for a ledger.
pub fn restored_calls(roster: &[u8], parts: &Parts) -> Vec<Restored> {
    let (total, customers) = form::accepted(roster);
    let kept = kept_calls(&Roster { total, customers }, parts, &mut Drops::default());
    kept.into_iter().map(restored).collect()
}

fn restored(call: &Call) -> Restored {
    let (endpoint, sender) = pair(call);
    Restored {
        slot: get(call, SLOT),
        refreshed: get(call, REFRESHED),
        endpoint,
        sender,
        ids: Ids {
            short: get(call, ID) as u16,
            long: name(call).to_vec(),
        },
        made_by: is_marked(call).then(|| numbers(call)),
    }
}

/// What a made call is that was kept beside the others.
fn kinds(kept: &[&Call], call: &Call) -> Vec<&'static str> {
    let (endpoint, sender) = pair(call);
    let number = made::number_of(endpoint, sender, name(call)).map(u32::from);
    let is_made_of_id = number == Some(get(call, ID));
    let zeros = numbers(call) == (0, 0);
    let of_pair = |one: &Call| pair(one) == pair(call) && short_id(one) != short_id(call);
    let shared = |one: &Call| {
        let ((epoch, identifier), (other, others)) = (numbers(call), numbers(one));
        epoch == other || identifier == others
    };
    let any = |wanted: &dyn Fn(&Call) -> bool| kept.iter().any(|&one| wanted(one));
    let came = [
        (is_made_of_id, KEPT[0]),
        (!is_made_of_id, KEPT[1]),
        (zeros, KEPT[2]),
        (zeros && any(&|one| of_pair(one) && !is_marked(one)), KEPT[3]),
        (get(call, EPOCH) == 0x00ff_ffff, KEPT[4]),
        (
            any(&|one| pair(one) != pair(call) && is_marked(one) && numbers(one) == numbers(call)),
            KEPT[5],
        ),
        (any(&|one| of_pair(one) && is_marked(one) && shared(one)), KEPT[6]),
    ];
    came.into_iter().filter(|kind| kind.0).map(|kind| kind.1).collect()
}

/// A short Call ID with its pair.
type ShortId = ((u32, u32), u32);

fn short_id(call: &Call) -> ShortId {
    (pair(call), get(call, ID))
}

fn under_id(connection: &Connection) -> ShortId {
    (under_pair(connection), get(connection, UNDER_ID))
}

/// How many connections name each call.
fn names(parts: &Parts) -> HashMap<ShortId, usize> {
    let mut names = HashMap::new();
    for connection in &parts.connections {
        *names.entry(under_id(connection)).or_default() += 1;
    }
    names
}

/// The connections kept so far: by their five fields the Call ID, and how many stand with each call and customer.
#[derive(Default)]
struct Held {
    ids: HashMap<Vec<u8>, u32>,
    calls: HashMap<ShortId, usize>,
    customers: HashMap<u32, usize>,
}

impl Held {
    /// The five fields: all but the Call ID.
    fn key(one: &Connection) -> Vec<u8> {
        [&one[..UNDER_ID.0], &one[UNDER_TUNNEL.0..]].concat()
    }

    fn put(&mut self, one: &Connection) {
        self.ids.insert(Held::key(one), get(one, UNDER_ID));
        *self.calls.entry(under_id(one)).or_default() += 1;
        if get(one, UNDER_ID) == 0 {
            *self.customers.entry(get(one, UNDER_SENDER)).or_default() += 1;
        }
    }
}

fn is_listed(roster: &Roster, sender: u32) -> bool {
    roster.customers.iter().any(|customer| customer.address == sender)
}

/// Step 1.
fn alone(roster: &Roster, call: &Call) -> Option<&'static str> {
    let size = call[SIZE.0] as usize & 0x7f;
    let past = call[NAME.0..REFRESHED.0].iter().skip(size).any(|&byte| byte != 0);
    let ends_in_zero = (1..=32).contains(&size) && call[NAME.0 + size - 1] == 0;
    let slot = get(call, SLOT) as usize;
    let faults = [
        (slot >= SLOTS, "call alone: slot 200 and above"),
        (slot >= roster.total, "call alone: slot 64 to 199 under form 1"),
        (!is_listed(roster, get(call, SENDER)), "call alone: sender not listed"),
        (get(call, ID) == 0, "call alone: Call ID 0"),
        (size == 0, "call alone: name length 0"),
        (size > 32, "call alone: name length above 32"),
        (past, "call alone: byte past the name"),
        (ends_in_zero, "call alone: name ends in zero"),
        (
            !is_marked(call) && get(call, EPOCH) != 0,
            "call alone: request epoch without the mark",
        ),
        (
            !is_marked(call) && get(call, IDENTIFIER) != 0,
            "call alone: request identifier without the mark",
        ),
    ];
    first_of(&faults)
}

fn first_of(faults: &[(bool, &'static str)]) -> Option<&'static str> {
    faults.iter().find(|fault| fault.0).map(|fault| fault.1)
}

/// Step 2: whether another call of those left, with how many connections name it, is kept in this one's place.
fn duplicate(left: &[(&Call, usize)], number: usize) -> Option<&'static str> {
    let (call, names) = left[number];
    // The mark is no part of a name.
    let same = |other: &Call| pair(other) == pair(call) && name(other) == name(call);
    let duplicates = || left.iter().enumerate().filter(|other| same(other.1 .0));
    let more = duplicates().any(|other| other.1 .1 > names);
    let before = duplicates().any(|other| other.1 .1 == names && other.0 < number);
    first_of(&[
        (more, "duplicate: fewer connections"),
        (before, "duplicate: as many connections, but later"),
    ])
}

/// Step 3 for a call.
fn beside(roster: &Roster, kept: &[&Call], call: &Call) -> Option<&'static str> {
    let count = |address| {
        let calls = kept.iter().filter(|one| get(**one, SENDER) == address).count();
        calls + usize::from(get(call, SENDER) == address)
    };
    let larger = |one: &Customer| count(one.address).max(one.guarantee);
    let mut own = roster.customers.iter().filter(|one| one.address == get(call, SENDER));
    let short = |one: &&Call| short_id(one) == short_id(call);
    let request = |one: &&Call| is_marked(one) && pair(one) == pair(call) && numbers(one) == numbers(call);
    first_of(&[
        (
            kept.iter().any(|one| one[SLOT.0] == call[SLOT.0]),
            "call beside others: slot taken",
        ),
        (kept.iter().any(short), "call beside others: short ID twice"),
        (
            is_marked(call) && kept.iter().any(request),
            "call beside others: request numbers twice",
        ),
        (
            own.any(|one| count(one.address) > one.limit),
            "call beside others: limit",
        ),
        (
            roster.customers.iter().map(larger).sum::<usize>() > roster.total,
            "call beside others: S",
        ),
    ])
}

/// Step 3 for a connection.
fn connected(roster: &Roster, kept: &[&Call], held: &Held, one: &Connection) -> Option<&'static str> {
    let (id, sender) = (get(one, UNDER_ID), get(one, UNDER_SENDER));
    let is_call = |call: &&Call| short_id(call) == under_id(one);
    let twice = held.ids.get(&Held::key(one));
    first_of(&[
        (!is_listed(roster, sender), "connection: sender not listed"),
        (id != 0 && !kept.iter().any(is_call), "connection: no such call"),
        (twice == Some(&id), "connection: twice under one call"),
        (twice.is_some(), "connection: twice under two Call IDs"),
        (
            id != 0 && held.calls.get(&under_id(one)) == Some(&4),
            "connection: a call's four",
        ),
        (
            id == 0 && held.customers.get(&sender) == Some(&4),
            "connection: a customer's four",
        ),
    ])
}

#[cfg(test)]
mod tests {
    use super::*;

    /// Form 1; the address 9 has a limit of 2.
    const ROSTER: &[u8] = &[0x11, 0, 0, 0, 1, 0, 0, 7, 0, 0, 0, 9, 0, 8];

    fn call(slot: u8, id: u8, name: u8) -> Call {
        let mut call = [0; CALL];
        (call[0], call[2], call[10], call[11], call[12]) = (slot, id, 9, 1, name);
        call
    }

    fn connection(id: u8, lsp: u8) -> Connection {
        let mut connection = [0; CONNECTION];
        (connection[5], connection[15], connection[17]) = (id, 9, lsp);
        connection
    }

    #[test]
    fn one_call_in_two_records() {
        // Two records of one call; the connections name the second.
        let parts = Parts {
            calls: vec![call(3, 5, b'a'), call(4, 6, b'a')],
            connections: vec![connection(6, 1), connection(6, 2), connection(5, 3)],
        };
        let drops = expected_drops(ROSTER, &parts);
        assert_eq!(drops.calls, ["duplicate: fewer connections"]);
        assert_eq!(drops.connections, ["connection: no such call"]);
    }

    /// A1: a record of the same name and a zero byte more goes first, with its connections, however many.
    #[test]
    fn names_that_end_in_zero() {
        let mut padded = call(4, 6, b'a');
        set(&mut padded, SIZE, 2);
        let parts = Parts {
            calls: vec![call(3, 5, b'a'), padded],
            connections: vec![connection(6, 1), connection(6, 2), connection(5, 3)],
        };
        let drops = expected_drops(ROSTER, &parts);
        assert_eq!(drops.calls, ["call alone: name ends in zero"]);
        assert_eq!(drops.connections, ["connection: no such call"; 2]);
    }

    #[test]
    fn calls_beside_others() {
        let parts = Parts {
            calls: vec![
                call(3, 5, b'a'),
                call(3, 6, b'b'),
                call(4, 5, b'c'),
                call(5, 7, b'd'),
                call(6, 8, b'e'),
            ],
            connections: Vec::new(),
        };
        let due = [
            "call beside others: slot taken",
            "call beside others: short ID twice",
            "call beside others: limit",
        ];
        assert_eq!(expected_drops(ROSTER, &parts).calls, due);
    }

    /// A6: a mark and two numbers.
    fn made(call: Call, epoch: u32, identifier: u32) -> Call {
        let mut call = call;
        call[SIZE.0] |= 0x80;
        set(&mut call, EPOCH, epoch);
        set(&mut call, IDENTIFIER, identifier);
        call
    }

    #[test]
    fn made_calls_beside_others() {
        let mut roster = ROSTER.to_vec();
        // A limit of 8.
        *roster.last_mut().expect("a limit") = 32;
        let mut elsewhere = made(call(6, 5, b'e'), 1, 2);
        set(&mut elsewhere, ENDPOINT, 77);
        let mut numbers = call(7, 9, b'f');
        set(&mut numbers, EPOCH, 1);
        let parts = Parts {
            calls: vec![
                made(call(3, 5, b'a'), 1, 2),
                made(call(4, 6, b'b'), 1, 2),
                made(call(5, 7, b'c'), 2, 1),
                elsewhere,
                numbers,
                // The same name, marked and not.
                made(call(8, 10, b'g'), 0, 0),
                call(9, 11, b'g'),
            ],
            connections: Vec::new(),
        };
        // Those alone come first.
        let due = [
            "call alone: request epoch without the mark",
            "call beside others: request numbers twice",
            "duplicate: as many connections, but later",
        ];
        assert_eq!(expected_drops(&roster, &parts).calls, due);
        let restored = restored_calls(&roster, &parts);
        let shorts: Vec<u16> = restored.iter().map(|call| call.ids.short).collect();
        assert_eq!(shorts, [5, 7, 5, 10]);
        assert_eq!(
            (restored[1].made_by, &restored[1].ids.long[..]),
            (Some((2, 1)), &b"c"[..])
        );
    }

    /// A11: slots and limits are those of the roster's form.
    #[test]
    fn the_two_forms() {
        let parts = Parts {
            calls: vec![
                call(63, 5, b'a'),
                call(64, 6, b'b'),
                call(199, 7, b'c'),
                call(200, 8, b'd'),
            ],
            connections: Vec::new(),
        };
        let outside = "call alone: slot 64 to 199 under form 1";
        let due = [outside, outside, "call alone: slot 200 and above"];
        assert_eq!(expected_drops(ROSTER, &parts).calls, due);
        // The same bits are a limit of 8 in form 2.
        let mut roster = ROSTER.to_vec();
        roster[0] = 0x21;
        assert_eq!(
            expected_drops(&roster, &parts).calls,
            ["call alone: slot 200 and above"]
        );
        *roster.last_mut().expect("a limit") = 2;
        let due = ["call alone: slot 200 and above", "call beside others: limit"];
        assert_eq!(expected_drops(&roster, &parts).calls, due);
    }

    #[test]
    fn fours() {
        let parts = Parts {
            calls: vec![call(3, 5, b'a')],
            connections: (0..10)
                .map(|lsp| connection(if lsp < 5 { 5 } else { 0 }, lsp))
                .collect(),
        };
        let due = ["connection: a call's four", "connection: a customer's four"];
        assert_eq!(expected_drops(ROSTER, &parts).connections, due);
    }
}
