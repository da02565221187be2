//! Damage to the records of calls.

use super::damage::Damage;
use super::parts::*;
use crate::build::Roster;
use crate::form;
use crate::random::Random;

pub const DAMAGES: &[(&str, Damage)] = &[
    ("call: bit flipped", |p, _, r| {
        one(p, r, |call, r| call[r.below(CALL)] ^= 1 << r.below(8))
    }),
    ("call: made mark set", |p, _, r| {
        one(p, r, |call, _| call[SIZE.0] |= 0x80)
    }),
    ("call: last refresh set", |p, _, r| {
        one(p, r, |call, r| set(call, REFRESHED, some_refresh(r)))
    }),
    ("calls: last refreshes of every size", |p, _, r| {
        p.calls
            .iter_mut()
            .for_each(|call| set(call, REFRESHED, some_refresh(r)));
        p.calls.len() > 1
    }),
    ("call that is dropped, refreshed last", refreshed_last),
    ("call: made mark cleared", |p, _, r| {
        one(p, r, |call, _| call[SIZE.0] &= 0x7f)
    }),
    ("call: request epoch set, marked or not", |p, _, r| {
        one(p, r, |call, r| set(call, EPOCH, 1 << r.below(24)))
    }),
    ("call: request identifier set, marked or not", |p, _, r| {
        one(p, r, |call, r| set(call, IDENTIFIER, 1 << r.below(32)))
    }),
    ("call: made, with the outermost numbers", |p, _, r| one(p, r, outermost)),
    ("call: made, under any name", |p, _, r| one(p, r, any_name)),
    ("calls: made, numbers twice in the pair", |p, _, r| {
        numbers_twice(p, r, true)
    }),
    ("calls: made, numbers in two pairs", |p, _, r| {
        numbers_twice(p, r, false)
    }),
    ("calls: made, one number twice in the pair", one_number_twice),
    ("call: name past its length", |p, _, r| one(p, r, past_name)),
    ("call: name length 0", |p, _, r| one(p, r, |call, _| set_size(call, 0))),
    ("call: name length above 32", |p, _, r| {
        one(p, r, |call, r| set_size(call, *r.pick(&[33, 34, 64, 65, 127])))
    }),
    ("call: another name length", |p, _, r| {
        one(p, r, |call, r| set_size(call, r.between(1, 32)))
    }),
    ("call: name's last byte zero", |p, _, r| one(p, r, last_zero)),
    ("call: name of zeros only", |p, _, r| {
        one(p, r, |call, r| {
            set_size(call, r.between(1, 32));
            call[NAME.0..REFRESHED.0].fill(0);
        })
    }),
    ("call with connections: name padded", padded),
    ("call: Call ID 0", |p, _, r| one(p, r, |call, _| set(call, ID, 0))),
    ("call: slot outside the total", |p, roster, r| {
        let slots = [64, 65, 127, 128, 192, 199, 200, 201, 255];
        let outside: Vec<usize> = slots.into_iter().filter(|&slot| slot >= roster.total()).collect();
        let slot = *r.pick(&outside);
        to_slot(p, slot, r)
    }),
    ("call: moved to another slot", |p, roster, r| {
        let slot = r.below(roster.total());
        to_slot(p, slot, r)
    }),
    ("call: moved to a slot from 64 to 199", |p, _, r| {
        let slot = r.between(form::total(1), form::total(2) - 1);
        to_slot(p, slot, r)
    }),
    ("call: moved to a taken slot", taken_slot),
    ("call: sender changed", sender),
    ("call: end point changed", |p, _, r| {
        one(p, r, |call, r| set(call, ENDPOINT, r.word()))
    }),
    ("call: short ID of another of the pair", short_id),
    ("call: repeated", repeated),
    ("calls: swapped", swapped),
    ("calls: in any order", |p, _, r| {
        r.shuffle(&mut p.calls);
        p.calls.len() > 1
    }),
    ("call: taken out", taken_out),
    ("calls: more of one customer", more),
];

fn one(parts: &mut Parts, random: &mut Random, change: fn(&mut Call, &mut Random)) -> bool {
    let Some(number) = parts.some_call(random) else {
        return false;
    };
    change(&mut parts.calls[number], random);
    true
}

/// Small ones, a bit alone, the largest, any.
pub fn some_refresh(random: &mut Random) -> u32 {
    let any = random.word();
    let (small, bit) = (any >> random.below(32), 1 << random.below(32));
    *random.pick(&[0, 1, small, small, bit, any, u32::MAX - 1, u32::MAX])
}

/// A call without an ID, or in a taken slot, with a later refresh than any other.
fn refreshed_last(parts: &mut Parts, _: &Roster, random: &mut Random) -> bool {
    let latest = parts.calls.iter().map(|call| get(call, REFRESHED)).max();
    let (Some(latest), Some(number)) = (latest, parts.some_call(random)) else {
        return false;
    };
    let mut call = parts.calls[number];
    if random.chance(1, 2) {
        set(&mut call, ID, 0);
    }
    set(
        &mut call,
        REFRESHED,
        latest.saturating_add(1 + random.below(1000) as u32),
    );
    // Behind the one whose slot it has.
    let place = random.between(number + 1, parts.calls.len());
    parts.calls.insert(place, call);
    true
}

/// Marked, with numbers of zeros or the largest.
fn outermost(call: &mut Call, random: &mut Random) {
    call[SIZE.0] |= 0x80;
    set(call, EPOCH, *random.pick(&[0, 0x00ff_ffff]));
    set(call, IDENTIFIER, *random.pick(&[0, 0, u32::MAX]));
}

fn any_name(call: &mut Call, random: &mut Random) {
    call[SIZE.0] |= 0x80;
    let size = random.between(1, 32);
    set_size(call, size);
    call[NAME.0..REFRESHED.0].fill(0);
    call[NAME.0..][..size].copy_from_slice(&random.long_id(size));
}

/// Two calls marked, the second with the first one's numbers: moved into its pair, with IDs of its own, or not.
fn numbers_twice(parts: &mut Parts, random: &mut Random, moved: bool) -> bool {
    let Some((one, other)) = two(parts, random) else {
        return false;
    };
    if random.chance(1, 3) {
        outermost(&mut parts.calls[one], random);
    }
    parts.calls[one][SIZE.0] |= 0x80;
    let (epoch, identifier) = numbers(&parts.calls[one]);
    let (endpoint, sender) = pair(&parts.calls[one]);
    let call = &mut parts.calls[other];
    any_name(call, random);
    set(call, EPOCH, epoch);
    set(call, IDENTIFIER, identifier);
    if moved {
        set(call, ENDPOINT, endpoint);
        set(call, SENDER, sender);
        set(call, ID, 1 + u32::from(random.half() >> 1));
    }
    true
}

/// The same in one pair, with one of the numbers changed.
fn one_number_twice(parts: &mut Parts, _: &Roster, random: &mut Random) -> bool {
    let Some(number) = parts.some_call(random) else {
        return false;
    };
    let mut call = parts.calls[number];
    parts.calls[number][SIZE.0] |= 0x80;
    any_name(&mut call, random);
    set(&mut call, ID, 1 + u32::from(random.half() >> 1));
    call[SLOT.0] = random.byte();
    let (field, bits) = *random.pick(&[(EPOCH, 24), (IDENTIFIER, 32)]);
    let changed = get(&call, field) ^ 1 << random.below(bits);
    set(&mut call, field, changed);
    let place = random.between(0, parts.calls.len());
    parts.calls.insert(place, call);
    true
}

/// Some call to this slot.
fn to_slot(parts: &mut Parts, slot: usize, random: &mut Random) -> bool {
    let Some(number) = parts.some_call(random) else {
        return false;
    };
    parts.calls[number][SLOT.0] = slot as u8;
    true
}

/// Two different calls, by number.
pub fn two(parts: &Parts, random: &mut Random) -> Option<(usize, usize)> {
    if parts.calls.len() < 2 {
        return None;
    }
    let one = random.below(parts.calls.len());
    let other = random.below(parts.calls.len() - 1);
    Some((one, if other < one { other } else { other + 1 }))
}

/// A byte past the name, often the first or the last; a name of 32 bytes is shortened.
fn past_name(call: &mut Call, random: &mut Random) {
    let size = usize::from(call[SIZE.0] & 0x7f).min(31);
    set_size(call, size);
    let any = random.between(size, 31);
    let at = *random.pick(&[size, 31, any]);
    call[NAME.0 + at] = 1 << random.below(8);
}

fn last_zero(call: &mut Call, _: &mut Random) {
    let size = usize::from(call[SIZE.0] & 0x7f).clamp(1, 32);
    call[NAME.0 + size - 1] = 0;
}

/// Zeros counted in the name's length, as a record from before A1 can have them; a name of 32 bytes loses its last.
pub fn pad(call: &mut Call, random: &mut Random) {
    let size = usize::from(call[SIZE.0] & 0x7f);
    if size < 32 {
        set_size(call, *random.pick(&[size + 1, 32]));
    } else {
        last_zero(call, random);
    }
}

/// The call goes with all its connections.
fn padded(parts: &mut Parts, _: &Roster, random: &mut Random) -> bool {
    let is_lit = |&number: &usize| !parts.naming(&parts.calls[number]).is_empty();
    let lit: Vec<usize> = (0..parts.calls.len()).filter(is_lit).collect();
    if lit.is_empty() {
        return false;
    }
    pad(&mut parts.calls[*random.pick(&lit)], random);
    true
}

fn taken_slot(parts: &mut Parts, _: &Roster, random: &mut Random) -> bool {
    let Some((one, other)) = two(parts, random) else {
        return false;
    };
    parts.calls[other][SLOT.0] = parts.calls[one][SLOT.0];
    true
}

/// Listed, or next to a listed one.
pub fn some_sender(roster: &Roster, random: &mut Random) -> u32 {
    let listed = random.pick(&roster.records).address;
    let near = listed ^ 1 << random.below(32);
    *random.pick(&[listed, near])
}

fn sender(parts: &mut Parts, roster: &Roster, random: &mut Random) -> bool {
    let Some(number) = parts.some_call(random) else {
        return false;
    };
    set(&mut parts.calls[number], SENDER, some_sender(roster, random));
    true
}

/// The second call is moved into the first one's pair, if it is not there yet, and gets its short ID.
fn short_id(parts: &mut Parts, _: &Roster, random: &mut Random) -> bool {
    let Some((one, other)) = two(parts, random) else {
        return false;
    };
    let call = parts.calls[one];
    let (endpoint, sender) = pair(&call);
    set(&mut parts.calls[other], ENDPOINT, endpoint);
    set(&mut parts.calls[other], SENDER, sender);
    set(&mut parts.calls[other], ID, get(&call, ID));
    true
}

fn repeated(parts: &mut Parts, _: &Roster, random: &mut Random) -> bool {
    let Some(number) = parts.some_call(random) else {
        return false;
    };
    let call = parts.calls[number];
    let place = random.between(0, parts.calls.len());
    parts.calls.insert(place, call);
    true
}

fn swapped(parts: &mut Parts, _: &Roster, random: &mut Random) -> bool {
    let Some((one, other)) = two(parts, random) else {
        return false;
    };
    parts.calls.swap(one, other);
    true
}

fn taken_out(parts: &mut Parts, _: &Roster, random: &mut Random) -> bool {
    let Some(number) = parts.some_call(random) else {
        return false;
    };
    parts.calls.remove(number);
    true
}

/// Up to a few more than the total of new calls of one customer, mostly in free slots, so that limit and S are reached.
fn more(parts: &mut Parts, roster: &Roster, random: &mut Random) -> bool {
    let sender = random.pick(&roster.records).address;
    let total = roster.total();
    let mut slots: Vec<u8> = (0..total as u8).collect();
    random.shuffle(&mut slots);
    if random.chance(3, 4) {
        slots.retain(|&slot| parts.calls.iter().all(|call| call[SLOT.0] != slot));
    }
    let most = *random.pick(&[2, 8, total + 6]);
    slots.truncate(random.between(1, most));
    for slot in slots {
        let call = fresh(slot, sender, random);
        let place = random.between(0, parts.calls.len());
        parts.calls.insert(place, call);
    }
    true
}

/// A call that breaks no rule alone.
pub fn fresh(slot: u8, sender: u32, random: &mut Random) -> Call {
    let mut call = [0; CALL];
    call[SLOT.0] = slot;
    set(&mut call, ID, 1 + u32::from(random.half() >> 1));
    set(&mut call, ENDPOINT, *random.pick(&[0x0a00_0063, sender, 0]));
    set(&mut call, SENDER, sender);
    let size = random.between(8, 32);
    call[SIZE.0] = size as u8;
    call[NAME.0..][..size].copy_from_slice(&random.long_id(size));
    call
}
