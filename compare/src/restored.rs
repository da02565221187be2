//! Checkpoints that streams start from (A13, A6, A7): made calls of any names and numbers, pairs with as many calls as
//! they can have, and calls that were refreshed at different times, with and without connections.

use crate::build::Roster;
use crate::checkpoints::parts::*;
use crate::made;
use crate::random::Random;
use crate::values::Values;

/// Which pair has all calls, and how.
#[derive(Clone, Copy, Debug)]
pub enum Crowd {
    /// One call less than it can have, or fewer, all by name, each in the way of two numbers: its short ID, and the one
    /// that its name is made of.
    InTheWay,
    /// All of them made, with the IDs 1 and up.
    Made,
    /// All of them marked, under any other names and short IDs.
    OtherNames,
}

pub const CROWDS: [Crowd; 3] = [Crowd::InTheWay, Crowd::Made, Crowd::OtherNames];

/// Calls of the stream's pairs. Some meet, and salvage drops them.
pub fn some_calls(roster: &Roster, values: &Values, random: &mut Random) -> Parts {
    let few = random.between(1, 12);
    let most = random.between(1, roster.total());
    let slots = slots(roster, *random.pick(&[few, most]), random);
    let calls = slots.into_iter().map(|slot| some_call(slot, values, random));
    Parts {
        calls: calls.collect(),
        connections: Vec::new(),
    }
}

/// A7: as many calls of the stream's pairs as there are slots, a part of them with connections, and connections of Call
/// ID 0. Some meet, and salvage drops them.
pub fn aged_calls(roster: &Roster, values: &Values, random: &mut Random) -> Parts {
    let slots = slots(roster, roster.total(), random);
    let calls = slots.into_iter().map(|slot| some_call(slot, values, random));
    let mut parts = Parts {
        calls: calls.collect(),
        connections: Vec::new(),
    };
    for call in &parts.calls {
        if random.chance(1, 4) {
            let count = *random.pick(&[1, 1, 1, 2, 4]);
            let id = get(call, ID);
            let under = (0..count).map(|_| connection(pair(call), id, random));
            parts.connections.extend(under);
        }
    }
    for &sender in &values.senders {
        let endpoint = *random.pick(&values.endpoints);
        parts.connections.push(connection((endpoint, sender), 0, random));
    }
    refresh(&mut parts, random);
    parts
}

fn connection((endpoint, sender): (u32, u32), id: u32, random: &mut Random) -> Connection {
    let mut connection = [0; CONNECTION];
    set(&mut connection, UNDER_ENDPOINT, endpoint);
    set(&mut connection, UNDER_ID, id);
    set(&mut connection, UNDER_TUNNEL, random.half().into());
    set(&mut connection, UNDER_EXTENDED, random.word());
    set(&mut connection, UNDER_SENDER, sender);
    set(&mut connection, UNDER_LSP, random.half().into());
    connection
}

/// A7: refreshes from some time on: a second apart, close together, far apart, or all at once; in any order.
pub fn refresh(parts: &mut Parts, random: &mut Random) {
    let count = parts.calls.len();
    let began = *random.pick(&[0, 0, 1, 100, 1_000_000, 1 << 31, 0xff00_0000]);
    let apart = *random.pick(&[0, 1, 1, 2, 7, 500, 10_000]);
    let mut order: Vec<u32> = (0..count as u32).collect();
    if random.chance(3, 4) {
        random.shuffle(&mut order);
    }
    for (call, number) in parts.calls.iter_mut().zip(order) {
        let off = random.below(apart as usize + 1) as u32;
        set(call, REFRESHED, began + apart * number + off);
    }
}

/// Different slots, in any order.
fn slots(roster: &Roster, count: usize, random: &mut Random) -> Vec<u8> {
    let mut slots: Vec<u8> = (0..roster.total() as u8).collect();
    random.shuffle(&mut slots);
    slots.truncate(count);
    slots
}

fn some_call(slot: u8, values: &Values, random: &mut Random) -> Call {
    let (endpoint, sender) = (*random.pick(&values.endpoints), *random.pick(&values.senders));
    let (low, other) = (random.between(1, 40) as u16, random.between(1, 40) as u16);
    let size = random.between(1, 32);
    let name = match random.below(4) {
        0 => random.pick(&values.names).clone(),
        1 => made::name(endpoint, sender, low),
        2 => made::name(endpoint, sender, other),
        _ => random.long_id(size),
    };
    let any = *random.pick(&values.ids);
    let id = *random.pick(&[low, low, any]);
    let numbers = random.chance(1, 2).then(|| *random.pick(&values.requests));
    record(slot, (endpoint, sender), id, &name, numbers)
}

fn record(slot: u8, (endpoint, sender): (u32, u32), id: u16, name: &[u8], made_by: Option<(u32, u32)>) -> Call {
    let mut call = [0; CALL];
    set(&mut call, SLOT, slot.into());
    set(&mut call, ID, id.into());
    set(&mut call, ENDPOINT, endpoint);
    set(&mut call, SENDER, sender);
    let mark = if made_by.is_some() { 0x80 } else { 0 };
    set(&mut call, SIZE, mark | name.len() as u32);
    call[NAME.0..][..name.len()].copy_from_slice(name);
    let (epoch, identifier) = made_by.unwrap_or_default();
    set(&mut call, EPOCH, epoch);
    set(&mut call, IDENTIFIER, identifier);
    call
}

/// All calls of the one pair that the values have.
pub fn crowd(crowd: Crowd, roster: &Roster, values: &Values, random: &mut Random) -> Parts {
    let pair = (values.endpoints[0], values.senders[0]);
    let total = roster.total();
    let slots = slots(roster, total, random);
    let calls = match crowd {
        Crowd::InTheWay => {
            let count = random.between(total / 2, total - 1);
            let count = *random.pick(&[total - 1, count]);
            in_the_way(&slots[..count], pair, random)
        }
        Crowd::Made => made_calls(&slots, pair, random),
        Crowd::OtherNames => other_names(&slots, pair, random),
    };
    let connections = Vec::new();
    Parts { calls, connections }
}

/// Short IDs and names that together leave out no number up to twice their count.
fn in_the_way(slots: &[u8], pair: (u32, u32), random: &mut Random) -> Vec<Call> {
    let mut numbers: Vec<u16> = (1..=2 * slots.len() as u16).collect();
    random.shuffle(&mut numbers);
    let (ids, names) = numbers.split_at(slots.len());
    let calls = slots.iter().zip(ids).zip(names);
    calls
        .map(|((&slot, &id), &number)| record(slot, pair, id, &made::name(pair.0, pair.1, number), None))
        .collect()
}

fn made_calls(slots: &[u8], pair: (u32, u32), random: &mut Random) -> Vec<Call> {
    let epoch = *random.pick(&[0, 1, 0x00ff_ffff]);
    let calls = slots.iter().zip(1..);
    calls
        .map(|(&slot, id)| {
            let name = made::name(pair.0, pair.1, id);
            record(slot, pair, id, &name, Some((epoch, u32::from(id) - 1)))
        })
        .collect()
}

fn other_names(slots: &[u8], pair: (u32, u32), random: &mut Random) -> Vec<Call> {
    let mut ids: Vec<u16> = (1..=2 * slots.len() as u16).collect();
    random.shuffle(&mut ids);
    let calls = slots.iter().zip(ids);
    calls
        .map(|(&slot, id)| {
            let any = random.between(1, 32);
            let size = *random.pick(&[1, 32, any, any, any]);
            let mut name = random.long_id(size);
            // No other call's begins so.
            name[0] = slot + 1;
            record(slot, pair, id, &name, Some((u32::from(slot) % 3, random.word())))
        })
        .collect()
}

#[cfg(test)]
mod tests {
    use super::*;
    use crate::checkpoints::expected::expected_drops;
    use crate::rosters::{shaped, Shape};

    /// No call of a crowd is dropped, and the pair has as many as it can have, or one less.
    #[test]
    fn crowds_are_kept_whole() {
        let mut random = Random::new(3);
        for form in [1, 2] {
            for kind in CROWDS {
                let roster = shaped(form, Shape::One, &mut random);
                let values = Values::of_one_pair(&roster, &mut random);
                let parts = crowd(kind, &roster, &values, &mut random);
                assert_eq!(expected_drops(&roster.bytes(), &parts).calls, [""; 0], "{kind:?}");
                let least = roster.total() / 2;
                assert!((least..=roster.total()).contains(&parts.calls.len()));
            }
        }
    }

    #[test]
    fn no_number_is_left_out() {
        let slots: Vec<u8> = (0..199).collect();
        let calls = in_the_way(&slots, (7, 8), &mut Random::new(1));
        let numbers = calls.iter().flat_map(|call| {
            let name = made::number_of(7, 8, &call[NAME.0..][..20]);
            [
                name.expect("a made name").into(),
                crate::checkpoints::parts::get(call, ID),
            ]
        });
        let mut numbers: Vec<u32> = numbers.collect();
        numbers.sort_unstable();
        assert!(numbers.into_iter().eq(1..=398));
    }
}
