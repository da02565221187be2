//! What a message asks without names, or about calls that came without them (A6): requests that are new, repeated, or
//! at odds with what is there; named calls that are in the way of the numbers to be made.

use crate::build::{Fields, D};
use crate::intent::{take_ids, take_pair, Intent};
use crate::made;
use crate::random::Random;
use crate::tables;
use crate::values::Values;
use second::table::{Call, Table};

use Intent::*;

/// An opening or closing of one of these intents.
pub fn asking(intent: Intent, mut fields: Fields, values: &Values, table: &Table, random: &mut Random) -> Fields {
    let marked = tables::some_marked(table, random);
    match (intent, marked) {
        (NamelessAgain, Some(call)) => repeat(&mut fields, &call),
        (NamelessElsewhere, Some(call)) => elsewhere(&mut fields, &call, table, random),
        (NamelessBeside, Some(call)) => beside(&mut fields, &call, values, random),
        (NamelessZeros, _) => zeros(&mut fields, table, random),
        (OpenMadeName, _) => {
            let how = *random.pick(&[made_name, made_name, made_ids]);
            return in_the_way(fields, table, random, how);
        }
        (OpenNearlyMade, _) => return nearly_made(fields, table, random),
        (OpenLowId, _) => return in_the_way(fields, table, random, low_id),
        (OpenNumbers, Some(call)) => return numbers(fields, &call, random),
        (OpenMadeAgain, Some(call)) => return by_name(fields, &call),
        (CloseMade, Some(call)) => {
            fields.status |= D;
            return by_name(fields, &call);
        }
        (HalfNamed, _) => return half_named(fields, random),
        _ => unused_numbers(&mut fields, values, table, random),
    }
    leave_out_names(&mut fields);
    fields
}

fn leave_out_names(fields: &mut Fields) {
    fields.call = 0;
    fields.name.clear();
}

fn take_numbers(fields: &mut Fields, call: &Call) {
    (fields.epoch, fields.identifier) = (call.epoch, call.identifier);
}

/// A made call's numbers in another pair; half the time in the pair of a made call with its addresses swapped,
/// if both of these are listed.
fn elsewhere(fields: &mut Fields, call: &Call, table: &Table, random: &mut Random) {
    take_numbers(fields, call);
    let listed = |address| tables::listed(table).iter().any(|one| one.address == address);
    let made = tables::calls(table).filter(|call| call.made == 1 && listed(call.endpoint));
    let made: Vec<&Call> = made.collect();
    if !made.is_empty() && random.chance(1, 2) {
        let call = *random.pick(&made);
        take_numbers(fields, call);
        (fields.endpoint, fields.sender) = (call.sender, call.endpoint);
    }
}

/// The request that made the call.
fn repeat(fields: &mut Fields, call: &Call) {
    take_pair(fields, call);
    take_numbers(fields, call);
}

/// One of a made call's two numbers, and the other one next to it or any; or the two exchanged, where they can be.
fn beside(fields: &mut Fields, call: &Call, values: &Values, random: &mut Random) {
    let (epoch, identifier) = *random.pick(&values.requests);
    repeat(fields, call);
    match random.below(5) {
        0 => fields.epoch = epoch,
        1 => fields.identifier = identifier,
        2 => fields.epoch ^= 1 << random.below(24),
        3 => fields.identifier ^= 1 << random.below(32),
        _ => (fields.epoch, fields.identifier) = (call.identifier & 0x00ff_ffff, call.epoch),
    }
}

/// Epoch 0 and identifier 0, which every unmarked call holds; in the pair of such a call, if there is one.
fn zeros(fields: &mut Fields, table: &Table, random: &mut Random) {
    let unmarked: Vec<&Call> = tables::calls(table).filter(|call| call.made == 0).collect();
    if !unmarked.is_empty() {
        let call = *random.pick(&unmarked);
        take_pair(fields, call);
    }
    (fields.epoch, fields.identifier) = (0, 0);
}

/// Numbers that no made call of the pair has, if a few draws find them.
fn unused_numbers(fields: &mut Fields, values: &Values, table: &Table, random: &mut Random) {
    for _ in 0..24 {
        let is_its = |call: &Call| tables::is_made_by(call, fields);
        if !tables::calls(table).any(is_its) {
            break;
        }
        fields.endpoint = *random.pick(&values.endpoints);
        fields.identifier = random.word();
    }
}

/// A named opening in some call's pair, with an ID that is or will be in the way: `how` sets it.
fn in_the_way(mut fields: Fields, table: &Table, random: &mut Random, how: fn(&mut Fields, u16)) -> Fields {
    if let Some(call) = tables::some_call(table, random) {
        take_pair(&mut fields, &call);
    }
    let of_pair = |call: &&Call| (call.endpoint, call.sender) == (fields.endpoint, fields.sender);
    let count = tables::calls(table).filter(of_pair).count();
    // Near the least one that is free, mostly.
    let (near, any) = (random.between(1, count + 4), random.between(1, 500));
    let number = *random.pick(&[near, near, near, any]) as u16;
    how(&mut fields, number);
    fields
}

/// A named opening that is in the way of no number, though its name is nearly that of the next one.
fn nearly_made(mut fields: Fields, table: &Table, random: &mut Random) -> Fields {
    if let Some(call) = tables::some_call(table, random) {
        take_pair(&mut fields, &call);
    }
    let number = tables::next_made(table, fields.endpoint, fields.sender);
    let (_, maker) = *random.pick(&made::NEARLY);
    fields.name = maker(fields.endpoint, fields.sender, number);
    fields
}

fn made_name(fields: &mut Fields, number: u16) {
    fields.name = made::name(fields.endpoint, fields.sender, number);
}

fn made_ids(fields: &mut Fields, number: u16) {
    made_name(fields, number);
    fields.call = number;
}

fn low_id(fields: &mut Fields, number: u16) {
    fields.call = number;
}

/// A named opening with the numbers of a made call of the pair; sometimes with one of its IDs.
fn numbers(mut fields: Fields, call: &Call, random: &mut Random) -> Fields {
    repeat(&mut fields, call);
    match random.below(4) {
        0 => fields.call = call.id as u16,
        1 => fields.name = tables::name(call).to_vec(),
        _ => {}
    }
    fields
}

/// By the IDs that were made.
fn by_name(mut fields: Fields, call: &Call) -> Fields {
    take_pair(&mut fields, call);
    take_ids(&mut fields, call);
    fields
}

/// An opening or closing with one of the two IDs, or with zeros for a name; a closing with neither.
fn half_named(mut fields: Fields, random: &mut Random) -> Fields {
    if random.chance(1, 2) {
        fields.status |= D;
    }
    match random.below(4) {
        0 => fields.call = 0,
        1 => fields.name.clear(),
        2 => {
            fields.call = 0;
            fields.name = vec![0; random.between(1, 32)];
        }
        _ => {
            leave_out_names(&mut fields);
            fields.status |= D;
        }
    }
    fields
}
