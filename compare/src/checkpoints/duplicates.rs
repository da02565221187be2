//! Duplicates: two or more calls of one pair and long ID, with connections and without.

use super::calls;
use super::connections;
use super::damage::Damage;
use super::parts::*;
use crate::build::Roster;
use crate::random::Random;

pub const DAMAGES: &[(&str, Damage)] = &[
    ("duplicate: without connections", |p, roster, r| {
        duplicate(p, roster, r).is_some()
    }),
    ("duplicate: with one more connection", |p, roster, r| {
        named(p, roster, r, 1)
    }),
    ("duplicate: with as many connections", |p, roster, r| {
        named(p, roster, r, 0)
    }),
    ("duplicate: with one less connection", |p, roster, r| {
        named(p, roster, r, -1)
    }),
    ("duplicate: with the call's connections", taken_over),
    ("duplicate: same short ID, another slot", same_id),
    ("duplicate: breaks a rule alone", broken),
    ("duplicate: the same name padded", padded),
    ("duplicate: wins and finds its slot taken", slot_taken),
    ("duplicates: several", several),
];

/// A second record of a call, in another slot and under another short ID, before it or behind it: both their numbers.
fn duplicate(parts: &mut Parts, roster: &Roster, random: &mut Random) -> Option<(usize, usize)> {
    let number = parts.some_call(random)?;
    let mut call = parts.calls[number];
    let pair = pair(&call);
    while parts
        .calls
        .iter()
        .any(|one| super::parts::pair(one) == pair && get(one, ID) == get(&call, ID))
    {
        set(&mut call, ID, 1 + u32::from(random.half() >> 1));
    }
    call[SLOT.0] = free_slot(parts, roster.total(), random);
    let place = random.between(0, parts.calls.len());
    parts.calls.insert(place, call);
    let number = if place <= number { number + 1 } else { number };
    Some((number, place))
}

/// A slot that no record names, if there is one.
fn free_slot(parts: &Parts, total: usize, random: &mut Random) -> u8 {
    let is_free = |slot: &u8| parts.calls.iter().all(|call| call[SLOT.0] != *slot);
    let free: Vec<u8> = (0..total as u8).filter(is_free).collect();
    match free.is_empty() {
        true => random.below(total) as u8,
        false => *random.pick(&free),
    }
}

/// This many connections name the call, put in anywhere; repeated ones and ones too many among them.
fn name(parts: &mut Parts, number: usize, count: usize, random: &mut Random) {
    let call = parts.calls[number];
    let mut record = connections::fresh(pair(&call), get(&call, ID), random);
    for _ in 0..count {
        if random.chance(2, 3) {
            record = connections::fresh(pair(&call), get(&call, ID), random);
        }
        let place = random.between(0, parts.connections.len());
        parts.connections.insert(place, record);
    }
}

/// A duplicate that this many connections more name than the call.
fn named(parts: &mut Parts, roster: &Roster, random: &mut Random, more: isize) -> bool {
    let Some((call, duplicate)) = duplicate(parts, roster, random) else {
        return false;
    };
    let more_of_call = random.between(0, 3);
    name(parts, call, more_of_call, random);
    let names = parts.naming(&parts.calls[call]).len() as isize;
    let Ok(count) = usize::try_from(names + more) else {
        return false;
    };
    name(parts, duplicate, count, random);
    true
}

/// The connections name the duplicate, all or some.
fn taken_over(parts: &mut Parts, roster: &Roster, random: &mut Random) -> bool {
    let Some((call, duplicate)) = duplicate(parts, roster, random) else {
        return false;
    };
    let id = get(&parts.calls[duplicate], ID);
    let all = random.chance(1, 2);
    for connection in parts.naming(&parts.calls[call]) {
        if all || random.chance(1, 2) {
            set(&mut parts.connections[connection], UNDER_ID, id);
        }
    }
    true
}

/// Two records of one call, in two slots.
fn same_id(parts: &mut Parts, roster: &Roster, random: &mut Random) -> bool {
    let Some((call, duplicate)) = duplicate(parts, roster, random) else {
        return false;
    };
    let id = get(&parts.calls[call], ID);
    set(&mut parts.calls[duplicate], ID, id);
    let more = random.between(0, 2);
    name(parts, call, more, random);
    true
}

/// Step 1 drops the duplicate, so that its connections don't help it.
fn broken(parts: &mut Parts, roster: &Roster, random: &mut Random) -> bool {
    let Some((_, duplicate)) = duplicate(parts, roster, random) else {
        return false;
    };
    let call = &mut parts.calls[duplicate];
    match random.below(3) {
        0 => call[SLOT.0] = roster.total() as u8,
        1 => set(call, REFRESHED, 1),
        _ => {
            call[SIZE.0] &= 0x7f;
            set(call, EPOCH, 1);
        }
    }
    name(parts, duplicate, 6, random);
    true
}

/// A record of the same name with padding, as it could stand beside the other before A1: step 1 drops it.
fn padded(parts: &mut Parts, roster: &Roster, random: &mut Random) -> bool {
    let Some((_, duplicate)) = duplicate(parts, roster, random) else {
        return false;
    };
    calls::pad(&mut parts.calls[duplicate], random);
    let count = random.between(0, 6);
    name(parts, duplicate, count, random);
    true
}

/// Step 2 keeps the duplicate, step 3 drops it: the call does not come back.
fn slot_taken(parts: &mut Parts, roster: &Roster, random: &mut Random) -> bool {
    let Some((call, duplicate)) = duplicate(parts, roster, random) else {
        return false;
    };
    let others = (0..duplicate).filter(|&other| other != call);
    let others: Vec<usize> = others.collect();
    if others.is_empty() {
        return false;
    }
    parts.calls[duplicate][SLOT.0] = parts.calls[*random.pick(&others)][SLOT.0];
    name(parts, duplicate, 5, random);
    true
}

fn several(parts: &mut Parts, roster: &Roster, random: &mut Random) -> bool {
    for _ in 0..random.between(2, 6) {
        let Some((_, duplicate)) = duplicate(parts, roster, random) else {
            return false;
        };
        let count = random.between(0, 4);
        name(parts, duplicate, count, random);
    }
    true
}
