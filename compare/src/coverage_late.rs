//! Situations of late messages (A8), each of which the streams have to come into.

use crate::build::{D, NOTIFY};
use crate::coverage::Step;
use crate::damage;
use crate::late::{self, is_late, Numbers};
use crate::ledger::Heard;
use crate::tables;
use crate::tally::Tally;
use second::table::{Call, Customer, Table};
use second::{handle, Clock};

/// What a late Notify would have been answered instead, one with names and one without.
const INSTEAD: [(u8, &str); 8] = [
    (20, "16 in place of 20"),
    (21, "16 in place of 21"),
    (22, "16 in place of 22"),
    (30, "16 in place of 30"),
    (31, "16 in place of 31"),
    (32, "16 in place of 32"),
    (33, "16 in place of 33"),
    (34, "16 in place of 34"),
];
const NAMELESS_INSTEAD: [(u8, &str); 3] = [
    (20, "16 in place of nameless 20"),
    (21, "16 in place of nameless 21"),
    (34, "16 in place of nameless 34"),
];

/// The answer whose MESSAGE_ID a late one lies behind.
const BEHIND: [(u8, &str); 8] = [
    (20, "16 behind a 20"),
    (21, "16 behind a 21"),
    (22, "16 behind a 22"),
    (30, "16 behind a 30"),
    (31, "16 behind a 31"),
    (32, "16 behind a 32"),
    (33, "16 behind a 33"),
    (34, "16 behind a 34"),
];

/// A Path or PathTear whose MESSAGE_ID would be late in a Notify, and one whose would be kept.
const OLD_PATHS: [(u8, &str); 7] = [
    (14, "14 with an old identifier"),
    (15, "15 with an old identifier"),
    (23, "23 with an old identifier"),
    (24, "24 with an old identifier"),
    (25, "25 with an old identifier"),
    (35, "35 with an old identifier"),
    (37, "37 with an old identifier"),
];
const NEW_PATHS: [(u8, &str); 3] = [
    (23, "23 with an identifier ahead of what is kept"),
    (24, "24 with an identifier ahead of what is kept"),
    (25, "25 with an identifier ahead of what is kept"),
];

/// The other faults that a late Notify can have, and 2.
const FAULTS: [(u8, &str); 3] = [
    (2, "2 to what is late"),
    (12, "12 to what is late"),
    (13, "13 to what is late"),
];
const NEW_FAULTS: [(u8, &str); 2] = [(12, "12 ahead of what is kept"), (13, "13 ahead of what is kept")];

const OTHERS: &[&str] = &[
    "16, 1 behind",
    "16, 2 to 999 behind",
    "16, 2^31 - 1 behind",
    "taken, 2^31 behind",
    "taken, 2^31 + 1 behind, which is 2^31 - 1 ahead",
    "taken, 1 ahead",
    "taken, equal",
    "equal, 21",
    "equal, other than 21",
    "16, identifiers having gone round",
    "taken, identifiers having gone round",
    "taken of another epoch, behind but for it",
    "taken of a lower epoch, behind but for it",
    "taken of a higher epoch, behind but for it",
    "taken of an epoch that differs in its lowest byte only, behind but for it",
    "taken of an epoch that differs in its middle byte only, behind but for it",
    "taken of an epoch that differs in its highest byte only, behind but for it",
    "taken, back in an epoch that was left, behind what came in it",
    "16 in an epoch that was left and come back to",
    "taken, the first of its customer",
    "taken, the first of its customer, identifier 0",
    "16 to what was taken before",
    "16, another customer's would not make it late",
    "taken, another customer's would make it late",
    "16, another customer's Notify right before it",
    "16 of a customer of no calls",
    "16 to the retry of a call refreshed earlier",
    "16 at a later time",
    "16, then after a restart the same is taken",
];

pub fn situations() -> impl Iterator<Item = &'static str> {
    let instead = INSTEAD.iter().chain(&NAMELESS_INSTEAD).chain(&BEHIND);
    let paths = OLD_PATHS.iter().chain(&NEW_PATHS);
    let lines = instead.chain(paths).chain(&FAULTS).chain(&NEW_FAULTS);
    lines.map(|line| line.1).chain(OTHERS.iter().copied())
}

/// The situation with this answer, if there is one.
fn raise(lines: &[(u8, &'static str)], answer: u8, tally: &mut Tally) {
    if let Some((_, name)) = lines.iter().find(|line| line.0 == answer) {
        tally.situation(name);
    }
}

fn raise_all(lines: &[(bool, &'static str)], tally: &mut Tally) {
    let came = lines.iter().filter(|line| line.0);
    came.for_each(|line| tally.situation(line.1));
}

/// A message whose fields are what its bytes say.
pub fn note(step: &Step, tally: &mut Tally) {
    let (fields, answer) = (&step.made.fields, step.done.answer);
    let new = (fields.epoch, fields.identifier);
    let last = late::last(step.before, fields.sender);
    let is_notify = step.made.bytes[1] == NOTIFY;
    let taken = (20..=34).contains(&answer);
    match last {
        None if is_notify && taken => first(new, tally),
        Some(old) if !is_notify => path(step, old, new, tally),
        Some(old) => {
            match is_late(old, new) {
                true => raise(&FAULTS, answer, tally),
                false if old != new => raise(&NEW_FAULTS, answer, tally),
                false => {}
            }
            if answer == 16 {
                late_one(step, old, new, tally);
            } else if taken {
                taken_one(step, old, new, tally);
            }
        }
        None => {}
    }
}

fn first(new: Numbers, tally: &mut Tally) {
    tally.situation("taken, the first of its customer");
    if new.1 == 0 {
        tally.situation("taken, the first of its customer, identifier 0");
    }
}

fn path(step: &Step, old: Numbers, new: Numbers, tally: &mut Tally) {
    let bytes = &step.made.bytes;
    let carried = damage::objects(bytes)
        .iter()
        .any(|object| bytes[object.start + 2] == 23);
    match is_late(old, new) {
        _ if !carried || old == new => {}
        true => raise(&OLD_PATHS, step.done.answer, tally),
        false => raise(&NEW_PATHS, step.done.answer, tally),
    }
}

/// The records of the listed customers but the message's own.
fn others<'a>(step: &'a Step) -> impl Iterator<Item = &'a Customer> {
    let records = tables::listed(step.before).iter();
    records.filter(|one| one.address != step.made.fields.sender)
}

fn late_one(step: &Step, old: Numbers, new: Numbers, tally: &mut Tally) {
    let less = late::behind(old.1, new.1);
    let sender = step.made.fields.sender;
    let own = || step.heard.iter().filter(|one| one.sender == sender);
    let would_not = |one: &Customer| !late::kept(one).is_some_and(|kept| is_late(kept, new));
    raise_all(
        &[
            (less == 1, "16, 1 behind"),
            ((2..1000).contains(&less), "16, 2 to 999 behind"),
            (less == (1 << 31) - 1, "16, 2^31 - 1 behind"),
            (new.1 > old.1, "16, identifiers having gone round"),
            (own().any(|one| one.numbers == new), "16 to what was taken before"),
            (
                others(step).any(would_not),
                "16, another customer's would not make it late",
            ),
            (
                step.heard.last().is_some_and(|one| one.sender != sender),
                "16, another customer's Notify right before it",
            ),
            (tables::count(step.before, sender) == 0, "16 of a customer of no calls"),
            (step.clock.time > step.found.time, "16 at a later time"),
            (came_back(own(), new.0), "16 in an epoch that was left and come back to"),
        ],
        tally,
    );
    if let Some(last) = own().rfind(|one| one.is_accepted()) {
        raise(&BEHIND, last.answer, tally);
    }
    instead(step, tally);
}

/// Whether those taken of this epoch have others between them.
fn came_back<'a>(own: impl Iterator<Item = &'a Heard>, epoch: u32) -> bool {
    let mut epochs: Vec<u32> = own.filter(|one| one.is_accepted()).map(|one| one.numbers.0).collect();
    epochs.dedup();
    epochs.iter().filter(|&&one| one == epoch).count() > 1
}

/// What comes with nothing kept of the sender.
fn instead(step: &Step, tally: &mut Tally) {
    let fields = &step.made.fields;
    let mut table: Table = *step.before;
    let mut records = table.customers.iter_mut();
    if let Some(record) = records.find(|one| one.address == fields.sender) {
        late::set_kept(record, None);
    }
    let (answered, _) = handle(&table, Clock::ZERO, &step.made.bytes, &mut [0; 128]);
    let nameless = fields.call == 0 && fields.status & D == 0;
    match nameless {
        true => raise(&NAMELESS_INSTEAD, answered.answer, tally),
        false => raise(&INSTEAD, answered.answer, tally),
    }
    let is_it = |call: &Call| match nameless {
        true => tables::is_made_by(call, fields),
        false => (call.endpoint, call.sender, call.id) == (fields.endpoint, fields.sender, fields.call.into()),
    };
    let earlier = |call: &Call| is_it(call) && call.refreshed < step.before.time;
    if answered.answer == 21 && tables::calls(step.before).any(earlier) {
        tally.situation("16 to the retry of a call refreshed earlier");
    }
}

fn taken_one(step: &Step, old: Numbers, new: Numbers, tally: &mut Tally) {
    let less = late::behind(old.1, new.1);
    let would = |one: &Customer| late::kept(one).is_some_and(|kept| is_late(kept, new));
    raise_all(
        &[(others(step).any(would), "taken, another customer's would make it late")],
        tally,
    );
    if old.0 != new.0 {
        return other_epoch(step, old, new, tally);
    }
    let again = step.done.answer == 21;
    raise_all(
        &[
            (less == 0, "taken, equal"),
            (less == 0 && again, "equal, 21"),
            (less == 0 && !again, "equal, other than 21"),
            (less == 1 << 31, "taken, 2^31 behind"),
            (less == (1 << 31) + 1, "taken, 2^31 + 1 behind, which is 2^31 - 1 ahead"),
            (less == u64::from(u32::MAX), "taken, 1 ahead"),
            (new.1 < old.1 && less > 1 << 31, "taken, identifiers having gone round"),
        ],
        tally,
    );
}

/// Taken, being of another epoch than the last.
fn other_epoch(step: &Step, old: Numbers, new: Numbers, tally: &mut Tally) {
    let sender = step.made.fields.sender;
    let mut own = step
        .heard
        .iter()
        .filter(|one| one.sender == sender && one.is_accepted());
    let in_it = own.rfind(|one| one.numbers.0 == new.0);
    let but_for_it = is_late((new.0, old.1), new);
    let differ = old.0 ^ new.0;
    let only = |bits: u32| but_for_it && differ & !bits == 0;
    raise_all(
        &[
            (
                in_it.is_some_and(|one| is_late(one.numbers, new)),
                "taken, back in an epoch that was left, behind what came in it",
            ),
            (but_for_it, "taken of another epoch, behind but for it"),
            (but_for_it && new.0 < old.0, "taken of a lower epoch, behind but for it"),
            (
                but_for_it && new.0 > old.0,
                "taken of a higher epoch, behind but for it",
            ),
            (
                only(0x0000_00ff),
                "taken of an epoch that differs in its lowest byte only, behind but for it",
            ),
            (
                only(0x0000_ff00),
                "taken of an epoch that differs in its middle byte only, behind but for it",
            ),
            (
                only(0x00ff_0000),
                "taken of an epoch that differs in its highest byte only, behind but for it",
            ),
        ],
        tally,
    );
}
