//! Situations of calls that arrive without names (A6), each of which the streams have to come into.

use crate::build::{Fields, D};
use crate::coverage::{Step, FAR};
use crate::form::long_id;
use crate::ledger::Seen;
use crate::made;
use crate::tables;
use crate::tally::Tally;
use second::table::{Call, Table};

pub const SITUATIONS: &[&str] = &[
    "nameless 20, ID 1",
    "nameless 20, ID 10 to 15",
    "nameless 20, ID 201 to 398",
    "form 1, nameless 20, ID 127, the largest",
    "form 2, nameless 20, ID 399, the largest",
    "nameless 20 past the short ID of a named call",
    "nameless 20 past a made name under another short ID",
    "nameless 20 past a made name that was opened with padding",
    "nameless 20 into an ID that was made and closed",
    "nameless 20 into a slot from 64 on",
    "nameless 20 beside made calls of another end point",
    "nameless 20 beside made calls of another customer",
    "nameless 20 with the numbers of a made call of another end point",
    "nameless 20 with the numbers of a made call of another customer",
    "nameless 20 with the numbers of a made call of the swapped pair",
    "nameless 20 with the epoch of a made call of the pair",
    "nameless 20 with the identifier of a made call of the pair",
    "nameless 20 with numbers 0 and 0 beside an unmarked call of the pair",
    "nameless 20 with the numbers of a call of the pair opened by name",
    "nameless 20 with the largest numbers",
    "nameless 20 again after the call was closed",
    "nameless 21 at once",
    "nameless 21 after other messages",
    "nameless 21 with numbers 0 and 0 beside an unmarked call of the pair",
    "nameless 21 of a call with connections",
    "nameless 21 of a call in a slot from 64 on",
    "nameless 21 of a call whose name is not made of its ID",
    "nameless 21, name of 1 byte",
    "nameless 21, name of 32 bytes",
    "nameless 21, name with 1 byte of padding",
    "nameless 21, name with 2 bytes of padding",
    "nameless 21, name with 3 bytes of padding",
    "nameless 21 where a new call would be 34",
    "nameless 34 at the limit, room left",
    "nameless 34 without room, under the limit",
    "form 1, nameless setup with 64 made calls of its pair",
    "form 2, nameless setup with 200 made calls of its pair",
    "named 20 under a made name and its short ID",
    "named 20 under a made name and another short ID",
    "named 20 under a made name with padding",
    "named 20 with the numbers of a made call of the pair",
    "named 30 or 31 with the numbers of a made call of the pair",
    "named 21 of a made call",
    "named 21 of a made call, padded",
    "30 by the short ID of a made call",
    "31 by the name of a made call",
    "22 of a made call",
    "32 of a made call",
    "33 with one ID of a made call",
    "23 under a made call",
    "24 under a made call",
    "25 under a made call",
    "37 under a made call",
    "open, Call ID 0 and a name: 13",
    "open, Call ID and no name: 13",
    "open, Call ID 0 and a name of zeros: 13",
    "close, Call ID 0 and a name: 13",
    "close, Call ID and no name: 13",
    "close, Call ID 0 and a name of zeros: 13",
    "close, neither Call ID nor name: 13",
];

/// A message that nothing damaged.
pub fn note(step: &Step, tally: &mut Tally) {
    let fields = &step.made.fields;
    let is_nameless = fields.call == 0 && fields.name.is_empty() && fields.status & D == 0;
    match (step.done.answer, is_nameless) {
        (20, true) => opened(step, tally),
        (21, true) => repeated(step, tally),
        (20 | 21 | 30 | 31, false) => named(step, tally),
        (22 | 32 | 33, _) => closing(step, tally),
        (23 | 24 | 25 | 37, _) if fields.call != 0 => connected(step, tally),
        (13, _) => half_named(fields, tally),
        _ => {}
    }
    if let (true, Some((seen, _))) = (is_nameless, &step.seen) {
        shares(step, seen, tally);
    }
}

/// A nameless setup of no fault of form.
fn shares(step: &Step, seen: &Seen, tally: &mut Tally) {
    let refusable = !seen.below && (seen.at_limit || seen.no_room);
    match seen.due {
        Some(21) if refusable => tally.situation("nameless 21 where a new call would be 34"),
        Some(34) if !seen.no_room => tally.situation("nameless 34 at the limit, room left"),
        Some(34) if !seen.at_limit => tally.situation("nameless 34 without room, under the limit"),
        _ => {}
    }
    let made = calls_of(step.before, &step.made.fields).filter(|call| call.made == 1);
    match (step.form, made.count()) {
        _ if seen.due.is_none() => {}
        (1, 64) => tally.situation("form 1, nameless setup with 64 made calls of its pair"),
        (2, 200) => tally.situation("form 2, nameless setup with 200 made calls of its pair"),
        _ => {}
    }
    if seen.due == Some(20) {
        for (came, name) in [
            (
                seen.named_before,
                "nameless 20 with the numbers of a call of the pair opened by name",
            ),
            (seen.closed_before, "nameless 20 again after the call was closed"),
            (
                seen.past_padding,
                "nameless 20 past a made name that was opened with padding",
            ),
        ] {
            if came {
                tally.situation(name);
            }
        }
    }
}

fn calls_of<'a>(table: &'a Table, fields: &'a Fields) -> impl Iterator<Item = &'a Call> {
    let pair = (fields.endpoint, fields.sender);
    tables::calls(table).filter(move |call| (call.endpoint, call.sender) == pair)
}

/// The number that a call's name is made of, if it is a made one.
fn made_of(call: &Call) -> Option<u32> {
    made::number_of(call.endpoint, call.sender, tables::name(call)).map(u32::from)
}

fn opened(step: &Step, tally: &mut Tally) {
    let slot = step.new_slot();
    let id = step.done.first.calls[slot].id;
    match id {
        1 => tally.situation("nameless 20, ID 1"),
        10..=15 => tally.situation("nameless 20, ID 10 to 15"),
        201..=398 => tally.situation("nameless 20, ID 201 to 398"),
        _ => {}
    }
    match (step.form, id) {
        (1, 127) => tally.situation("form 1, nameless 20, ID 127, the largest"),
        (2, 399) => tally.situation("form 2, nameless 20, ID 399, the largest"),
        _ => {}
    }
    if slot >= FAR {
        tally.situation("nameless 20 into a slot from 64 on");
    }
    in_the_way(step, id, tally);
    numbers_elsewhere(step, tally);
    numbers_of_pair(step, tally);
}

/// What made the ID larger, and what did not: the calls of the pair.
fn in_the_way(step: &Step, id: u32, tally: &mut Tally) {
    let of_pair = || calls_of(step.before, &step.made.fields);
    if of_pair().any(|call| call.made == 0 && call.id < id) {
        tally.situation("nameless 20 past the short ID of a named call");
    }
    if of_pair().any(|call| made_of(call).is_some_and(|number| number < id && number != call.id)) {
        tally.situation("nameless 20 past a made name under another short ID");
    }
    for (situation, maker) in made::NEARLY {
        let fields = &step.made.fields;
        let nearly = maker(fields.endpoint, fields.sender, id as u16);
        let is_made = nearly == made::name(fields.endpoint, fields.sender, id as u16);
        if !is_made && of_pair().any(|call| tables::name(call) == nearly) {
            tally.situation(situation);
        }
    }
    if of_pair().any(|call| call.made == 1 && call.id > id) {
        tally.situation("nameless 20 into an ID that was made and closed");
    }
}

/// Made calls of other pairs.
fn numbers_elsewhere(step: &Step, tally: &mut Tally) {
    let fields = &step.made.fields;
    let numbers = (fields.epoch, fields.identifier);
    let made = || tables::calls(step.before).filter(|call| call.made == 1);
    let end_point = |call: &Call| call.sender == fields.sender && call.endpoint != fields.endpoint;
    let customer = |call: &Call| call.sender != fields.sender;
    let swapped = |call: &Call| customer(call) && (call.sender, call.endpoint) == (fields.endpoint, fields.sender);
    let shared = |call: &Call| (call.epoch, call.identifier) == numbers;
    for (came, name) in [
        (
            made().any(end_point),
            "nameless 20 beside made calls of another end point",
        ),
        (
            made().any(customer),
            "nameless 20 beside made calls of another customer",
        ),
        (
            made().any(|call| end_point(call) && shared(call)),
            "nameless 20 with the numbers of a made call of another end point",
        ),
        (
            made().any(|call| customer(call) && shared(call)),
            "nameless 20 with the numbers of a made call of another customer",
        ),
        (
            made().any(|call| swapped(call) && shared(call)),
            "nameless 20 with the numbers of a made call of the swapped pair",
        ),
    ] {
        if came {
            tally.situation(name);
        }
    }
}

/// The request's numbers beside those of the pair's calls.
fn numbers_of_pair(step: &Step, tally: &mut Tally) {
    let fields = &step.made.fields;
    let made = || calls_of(step.before, fields).filter(|call| call.made == 1);
    if made().any(|call| call.epoch == fields.epoch) {
        tally.situation("nameless 20 with the epoch of a made call of the pair");
    }
    if made().any(|call| call.identifier == fields.identifier) {
        tally.situation("nameless 20 with the identifier of a made call of the pair");
    }
    if is_zeros_beside_unmarked(step) {
        tally.situation("nameless 20 with numbers 0 and 0 beside an unmarked call of the pair");
    }
    if (fields.epoch, fields.identifier) == (0x00ff_ffff, u32::MAX) {
        tally.situation("nameless 20 with the largest numbers");
    }
}

/// A program that goes by the numbers alone, not by the mark, takes the unmarked call for the request's.
fn is_zeros_beside_unmarked(step: &Step) -> bool {
    let fields = &step.made.fields;
    (fields.epoch, fields.identifier) == (0, 0) && calls_of(step.before, fields).any(|call| call.made == 0)
}

fn repeated(step: &Step, tally: &mut Tally) {
    tally.situation(match step.made.again {
        true => "nameless 21 at once",
        false => "nameless 21 after other messages",
    });
    if is_zeros_beside_unmarked(step) {
        tally.situation("nameless 21 with numbers 0 and 0 beside an unmarked call of the pair");
    }
    let is_made_by = |slot: &usize| tables::is_made_by(&step.before.calls[*slot], &step.made.fields);
    let slot = tables::used(step.before).into_iter().find(is_made_by);
    let slot = slot.expect("21 to a nameless request is about a made call");
    let call = &step.before.calls[slot];
    if slot >= FAR {
        tally.situation("nameless 21 of a call in a slot from 64 on");
    }
    if call.places.iter().any(tables::is_taken) {
        tally.situation("nameless 21 of a call with connections");
    }
    if made_of(call) == Some(call.id) {
        return;
    }
    tally.situation("nameless 21 of a call whose name is not made of its ID");
    match call.size {
        1 => tally.situation("nameless 21, name of 1 byte"),
        32 => tally.situation("nameless 21, name of 32 bytes"),
        _ => {}
    }
    match call.size % 4 {
        1 => tally.situation("nameless 21, name with 3 bytes of padding"),
        2 => tally.situation("nameless 21, name with 2 bytes of padding"),
        3 => tally.situation("nameless 21, name with 1 byte of padding"),
        _ => {}
    }
}

/// An open by name: under a made name, with a made call's IDs, with its numbers.
fn named(step: &Step, tally: &mut Tally) {
    let (fields, answer) = (&step.made.fields, step.done.answer);
    let long = long_id(&fields.name);
    let made = || calls_of(step.before, fields).filter(|call| call.made == 1);
    let padded = long.len() < fields.name.len();
    match (answer, made::number_of(fields.endpoint, fields.sender, long)) {
        (20, Some(_)) if padded => tally.situation("named 20 under a made name with padding"),
        (20, Some(number)) if number == fields.call => tally.situation("named 20 under a made name and its short ID"),
        (20, Some(_)) => tally.situation("named 20 under a made name and another short ID"),
        _ => {}
    }
    let numbers = made().any(|call| tables::is_made_by(call, fields));
    match answer {
        20 if numbers => tally.situation("named 20 with the numbers of a made call of the pair"),
        30 | 31 if numbers => tally.situation("named 30 or 31 with the numbers of a made call of the pair"),
        _ => {}
    }
    let short = made().any(|call| call.id == fields.call.into());
    match answer {
        21 if short && padded => tally.situation("named 21 of a made call, padded"),
        21 if short => tally.situation("named 21 of a made call"),
        30 if short => tally.situation("30 by the short ID of a made call"),
        31 if made().any(|call| tables::name(call) == long) => tally.situation("31 by the name of a made call"),
        _ => {}
    }
}

fn closing(step: &Step, tally: &mut Tally) {
    let fields = &step.made.fields;
    let made = || calls_of(step.before, fields).filter(|call| call.made == 1);
    let short = made().any(|call| call.id == fields.call.into());
    let long = made().any(|call| tables::name(call) == long_id(&fields.name));
    match step.done.answer {
        22 if short => tally.situation("22 of a made call"),
        32 if short => tally.situation("32 of a made call"),
        33 if short || long => tally.situation("33 with one ID of a made call"),
        _ => {}
    }
}

fn connected(step: &Step, tally: &mut Tally) {
    let fields = &step.made.fields;
    let is_call = |call: &Call| call.made == 1 && call.id == fields.call.into();
    if !calls_of(step.before, fields).any(is_call) {
        return;
    }
    tally.situation(match step.done.answer {
        23 => "23 under a made call",
        24 => "24 under a made call",
        25 => "25 under a made call",
        _ => "37 under a made call",
    });
}

/// 13 for what is empty.
fn half_named(fields: &Fields, tally: &mut Tally) {
    let (size, long) = (fields.name.len(), long_id(&fields.name).len());
    let closes = fields.status & D != 0;
    match (closes, fields.call, size, long) {
        (false, 0, 1..=32, 0) => tally.situation("open, Call ID 0 and a name of zeros: 13"),
        (false, 0, 1..=32, _) => tally.situation("open, Call ID 0 and a name: 13"),
        (false, 1.., 0, _) => tally.situation("open, Call ID and no name: 13"),
        (true, 0, 0, _) => tally.situation("close, neither Call ID nor name: 13"),
        (true, 0, 1..=32, 0) => tally.situation("close, Call ID 0 and a name of zeros: 13"),
        (true, 0, 1..=32, _) => tally.situation("close, Call ID 0 and a name: 13"),
        (true, 1.., 0, _) => tally.situation("close, Call ID and no name: 13"),
        _ => {}
    }
}
