//! Situations of calls that nobody refreshes (A7), each of which the streams have to come into.

use crate::build::D;
use crate::clock::FIFTH;
use crate::coverage::{Step, FAR};
use crate::expiry::{age, five_periods, is_lit, is_old, raised};
use crate::form::{self, long_id};
use crate::layout::SLOTS;
use crate::tables::{self, is_taken, is_used};
use crate::tally::Tally;
use second::table::{Call, Table};

/// Every answer that a closing can come before.
const BEHIND: [(u8, &str); 27] = [
    (3, "closing, then 3"),
    (4, "closing, then 4"),
    (5, "closing, then 5"),
    (6, "closing, then 6"),
    (7, "closing, then 7"),
    (8, "closing, then 8"),
    (9, "closing, then 9"),
    (10, "closing, then 10"),
    (11, "closing, then 11"),
    (12, "closing, then 12"),
    (13, "closing, then 13"),
    (14, "closing, then 14"),
    (15, "closing, then 15"),
    (16, "closing, then 16"),
    (20, "closing, then 20"),
    (21, "closing, then 21"),
    (22, "closing, then 22"),
    (23, "closing, then 23"),
    (24, "closing, then 24"),
    (25, "closing, then 25"),
    (30, "closing, then 30"),
    (31, "closing, then 31"),
    (32, "closing, then 32"),
    (33, "closing, then 33"),
    (34, "closing, then 34"),
    (35, "closing, then 35"),
    (37, "closing, then 37"),
];

const OTHERS: &[&str] = &[
    "time rises",
    "time stands still",
    "time goes back",
    "time of the empty table raised",
    "2 at a later time, a call being due",
    "2 at a later time, no call being due",
    "period 0, a call stays that waited for years",
    "period 1, closing",
    "period 1, no call due",
    "5 x period above 2^32, a call stays that is due in 32 bits",
    "closing at 4,294,967,295, five periods from 0",
    "a call from 0 stays at 4,294,967,295, 5 x period being 2^32 and 4",
    "closing at five periods to the second",
    "a call stays, a second short of five periods",
    "closing by the node's time, not due by the caller's, which is earlier",
    "closing that the message's own time makes due",
    "a call with a connection stays, due but for it",
    "a call with a connection in its last place only stays, due but for it",
    "closing of a customer's call beside its connections of Call ID 0",
    "closing of a made call",
    "closing in a slot from 64 on",
    "closing in a slot from 192 on",
    "closing in a slot below a used one",
    "closing of 1",
    "closing of 2 to 63 at once",
    "closing of 64 at once under form 1",
    "closing of over 64 at once",
    "closing of 200 at once",
    "closing of two customers' calls at once",
    "closing of calls not refreshed in slot order",
    "20 into the slot of a call closed right before it",
    "20 into a slot that an earlier closing freed",
    "20 into a slot that an earlier closing freed, below a used one",
    "20 into a slot from 64 on that a closing freed",
    "20 to the retry of a call closed right before it",
    "20 to the retry of a call closed right before it, in another slot",
    "20 to the nameless retry of a call closed right before it",
    "20 with the short ID of a call closed right before it",
    "20 with the long ID of a call closed right before it",
    "nameless 20 with the short ID of a call closed right before it",
    "20 that would be 34 but for the closing",
    "33 to the close of a call closed right before it",
    "35 to a Path under a call closed right before it",
    "25 of the last connection five periods after the refresh",
    "25 of the last connection, then its own close: 33",
    "25 of the last connection, then its own Path: 35",
    "25 of the last connection, then its own retry: 20",
    "21 of a call refreshed earlier",
    "nameless 21 of a call refreshed earlier",
    "21 at an earlier time of the caller's",
    "20 at an earlier time of the caller's",
    "21 of a call with connections refreshed earlier",
    "21 a second short of five periods",
    "22 of a call refreshed earlier",
    "23 under a call refreshed earlier",
    "24 under a call refreshed earlier",
    "30 or 31 beside a call refreshed earlier",
    "32 of a call refreshed earlier",
];

pub fn situations() -> impl Iterator<Item = &'static str> {
    let behind = BEHIND.iter().map(|line| line.1);
    behind.chain(OTHERS.iter().copied())
}

/// Any message of a stream.
pub fn note(step: &Step, tally: &mut Tally) {
    let answer = step.done.answer;
    if answer == 2 {
        return refused(step, tally);
    }
    times(step, tally);
    staying(step, tally);
    if !step.done.closings.is_empty() {
        closed(step, tally);
        how_many(step, tally);
        if let Some((_, name)) = BEHIND.iter().find(|line| line.0 == answer) {
            tally.situation(name);
        }
    }
    if answer == 20 {
        slots(step, tally);
    }
    if step.made.whole {
        match answer {
            20 => opened(step, tally),
            33 | 35 => gone(step, tally),
            25 => torn(step, tally),
            _ => {}
        }
        refreshes(step, tally);
    }
}

/// The calls that are closed, as they were before.
fn listed<'a>(step: &'a Step) -> impl Iterator<Item = &'a Call> {
    let calls = &step.found.calls;
    step.done.closings.iter().map(|one| &calls[one.slot as usize])
}

fn refused(step: &Step, tally: &mut Tally) {
    let time = raised(step.found, step.clock);
    if time == step.found.time {
        return;
    }
    let is_due = |call: &Call| !is_lit(call) && is_old(call, time, step.clock);
    tally.situation(match tables::calls(step.found).any(is_due) {
        true => "2 at a later time, a call being due",
        false => "2 at a later time, no call being due",
    });
}

fn times(step: &Step, tally: &mut Tally) {
    let (was, is) = (step.found.time, step.clock.time);
    tally.situation(match is.cmp(&was) {
        std::cmp::Ordering::Greater => "time rises",
        std::cmp::Ordering::Equal => "time stands still",
        std::cmp::Ordering::Less => "time goes back",
    });
    if step.found.listed == 0 && is > was {
        tally.situation("time of the empty table raised");
    }
    match (step.clock.period, step.done.closings.is_empty()) {
        (1, true) => tally.situation("period 1, no call due"),
        (1, false) => tally.situation("period 1, closing"),
        _ => {}
    }
}

/// What is not closed, and why.
fn staying(step: &Step, tally: &mut Tally) {
    let (time, clock) = (step.before.time, step.clock);
    let five = five_periods(clock);
    let in_32_bits = u64::from(clock.period.wrapping_mul(5));
    let idle = || tables::calls(step.before).filter(|call| !is_lit(call));
    let lit = |call: &&Call| is_lit(call) && is_old(call, time, clock);
    let last_place =
        |call: &Call| [0, 1, 2, 3].map(|place: usize| is_taken(&call.places[place])) == [false, false, false, true];
    for (came, name) in [
        (
            clock.period == 0 && idle().any(|call| age(call, time) > 1 << 25),
            "period 0, a call stays that waited for years",
        ),
        (
            five > u64::from(u32::MAX) && idle().any(|call| age(call, time) >= in_32_bits),
            "5 x period above 2^32, a call stays that is due in 32 bits",
        ),
        (
            clock.period == FIFTH + 1 && idle().any(|call| age(call, time) == u64::from(u32::MAX)),
            "a call from 0 stays at 4,294,967,295, 5 x period being 2^32 and 4",
        ),
        (
            idle().any(|call| age(call, time) + 1 == five),
            "a call stays, a second short of five periods",
        ),
        (
            tables::calls(step.before).any(|call| lit(&call)),
            "a call with a connection stays, due but for it",
        ),
        (
            tables::calls(step.before).filter(lit).any(last_place),
            "a call with a connection in its last place only stays, due but for it",
        ),
    ] {
        if came {
            tally.situation(name);
        }
    }
}

fn closed(step: &Step, tally: &mut Tally) {
    let (time, clock) = (step.before.time, step.clock);
    let five = five_periods(clock);
    let caller = |call: &Call| u64::from(clock.time).saturating_sub(call.refreshed.into());
    let standalone = |call: &Call| {
        let mut customers = tables::listed(step.found).iter();
        customers.any(|one| one.address == call.sender && one.places.iter().any(is_taken))
    };
    let any = |wanted: &dyn Fn(&Call) -> bool| listed(step).any(wanted);
    for (came, name) in [
        (
            time == u32::MAX && clock.period == FIFTH,
            "closing at 4,294,967,295, five periods from 0",
        ),
        (
            any(&|call| age(call, time) == five),
            "closing at five periods to the second",
        ),
        (
            any(&|call| caller(call) < five),
            "closing by the node's time, not due by the caller's, which is earlier",
        ),
        (
            any(&|call| age(call, step.found.time) < five),
            "closing that the message's own time makes due",
        ),
        (
            any(&standalone),
            "closing of a customer's call beside its connections of Call ID 0",
        ),
        (any(&|call| call.made == 1), "closing of a made call"),
    ] {
        if came {
            tally.situation(name);
        }
    }
}

fn how_many(step: &Step, tally: &mut Tally) {
    let closings = &step.done.closings;
    let count = closings.len();
    let last = closings.last().map_or(0, |one| one.slot as usize);
    let used = tables::used(step.before).last().copied().unwrap_or(0);
    let refreshed: Vec<u32> = listed(step).map(|call| call.refreshed).collect();
    for (came, name) in [
        (last >= FAR, "closing in a slot from 64 on"),
        (last >= SLOTS / 32 * 32, "closing in a slot from 192 on"),
        (
            closings.iter().any(|one| (one.slot as usize) < used),
            "closing in a slot below a used one",
        ),
        (count == 1, "closing of 1"),
        ((2..FAR).contains(&count), "closing of 2 to 63 at once"),
        (count == FAR && step.form == 1, "closing of 64 at once under form 1"),
        (count > FAR, "closing of over 64 at once"),
        (count == SLOTS, "closing of 200 at once"),
        (
            closings.iter().any(|one| one.address != closings[0].address),
            "closing of two customers' calls at once",
        ),
        (
            !refreshed.is_sorted() && !refreshed.is_sorted_by(|one, other| one >= other),
            "closing of calls not refreshed in slot order",
        ),
    ] {
        if came {
            tally.situation(name);
        }
    }
}

/// The slot that a new call took.
fn slots(step: &Step, tally: &mut Tally) {
    let slot = step.new_slot();
    let now = step.done.closings.iter().any(|one| one.slot as usize == slot);
    let below = tables::used(step.before).last().is_some_and(|&last| last > slot);
    let earlier = step.freed[slot] && !now;
    for (came, name) in [
        (now, "20 into the slot of a call closed right before it"),
        (earlier, "20 into a slot that an earlier closing freed"),
        (
            earlier && below,
            "20 into a slot that an earlier closing freed, below a used one",
        ),
        (
            (now || earlier) && slot >= FAR,
            "20 into a slot from 64 on that a closing freed",
        ),
    ] {
        if came {
            tally.situation(name);
        }
    }
    if step.clock.time < step.found.time {
        tally.situation("20 at an earlier time of the caller's");
    }
}

/// The calls of the message's pair that are closed.
fn of_pair<'a>(step: &'a Step) -> impl Iterator<Item = &'a Call> {
    let fields = &step.made.fields;
    let pair = (fields.endpoint, fields.sender);
    listed(step).filter(move |call| (call.endpoint, call.sender) == pair)
}

fn has_short(call: &Call, step: &Step) -> bool {
    call.id == step.made.fields.call.into()
}

fn has_long(call: &Call, step: &Step) -> bool {
    tables::name(call) == long_id(&step.made.fields.name)
}

/// What the closing left free for the setup.
fn opened(step: &Step, tally: &mut Tally) {
    let fields = &step.made.fields;
    let slot = step.new_slot();
    if fields.call == 0 {
        if of_pair(step).any(|call| tables::is_made_by(call, fields)) {
            tally.situation("20 to the nameless retry of a call closed right before it");
        }
        let id = step.done.first.calls[slot].id;
        if of_pair(step).any(|call| call.id == id) {
            tally.situation("nameless 20 with the short ID of a call closed right before it");
        }
    } else {
        named(step, slot, tally);
    }
    let was_full = tables::taken(step.found) == form::total(step.form);
    let customer = tables::listed(step.found)
        .iter()
        .find(|one| one.address == fields.sender);
    let count = tables::count(step.found, fields.sender);
    let refused = customer.is_some_and(|one| {
        let (guarantee, limit) = (one.guarantee as usize, one.limit as usize);
        count == limit || count >= guarantee && was_full
    });
    if refused && !step.done.closings.is_empty() {
        tally.situation("20 that would be 34 but for the closing");
    }
    if step.made.torn {
        tally.situation("25 of the last connection, then its own retry: 20");
    }
}

fn named(step: &Step, slot: usize, tally: &mut Tally) {
    let both = |call: &Call| has_short(call, step) && has_long(call, step);
    if of_pair(step).any(both) {
        tally.situation("20 to the retry of a call closed right before it");
        if !both(&step.found.calls[slot]) {
            tally.situation("20 to the retry of a call closed right before it, in another slot");
        }
        return;
    }
    if of_pair(step).any(|call| has_short(call, step)) {
        tally.situation("20 with the short ID of a call closed right before it");
    }
    if of_pair(step).any(|call| has_long(call, step)) {
        tally.situation("20 with the long ID of a call closed right before it");
    }
}

/// A close or a Path that comes too late.
fn gone(step: &Step, tally: &mut Tally) {
    let (close, path) = (step.done.answer == 33, step.done.answer == 35);
    let mut closed = of_pair(step).filter(|call| has_short(call, step));
    let came = closed.any(|call| path || has_long(call, step));
    if came && close {
        tally.situation("33 to the close of a call closed right before it");
    }
    if came && path {
        tally.situation("35 to a Path under a call closed right before it");
    }
    if came && step.made.torn {
        tally.situation(match close {
            true => "25 of the last connection, then its own close: 33",
            false => "25 of the last connection, then its own Path: 35",
        });
    }
}

/// The call whose last connection a message removed, with the time: none where others are left, or it was refreshed
/// less than a period of 1 ago.
pub fn last_torn<'a>(before: &Table, after: &'a Table) -> Option<&'a Call> {
    let is_torn = |&slot: &usize| {
        let (old, new) = (&before.calls[slot], &after.calls[slot]);
        is_used(after, slot) && is_lit(old) && !is_lit(new) && age(new, after.time) >= 5
    };
    (0..SLOTS).find(is_torn).map(|slot| &after.calls[slot])
}

fn torn(step: &Step, tally: &mut Tally) {
    let call = last_torn(step.before, &step.done.first);
    if call.is_some_and(|call| is_old(call, step.done.first.time, step.clock)) {
        tally.situation("25 of the last connection five periods after the refresh");
    }
}

/// Answers about a call that was refreshed earlier: only 21 refreshes it.
fn refreshes(step: &Step, tally: &mut Tally) {
    let (fields, answer, time) = (&step.made.fields, step.done.answer, step.before.time);
    let pair = (fields.endpoint, fields.sender);
    let nameless = fields.call == 0 && fields.status & D == 0;
    let is_it = |call: &&Call| match answer {
        21 if nameless => tables::is_made_by(call, fields),
        30 | 31 => (call.endpoint, call.sender) == pair && (has_short(call, step) || has_long(call, step)),
        _ => (call.endpoint, call.sender) == pair && has_short(call, step),
    };
    let looked_at = match answer {
        // What was closed is not there any longer.
        22 => &step.before.calls,
        _ => &step.done.behind.calls,
    };
    let mut calls = looked_at.iter().filter(is_it);
    let Some(call) = calls.find(|call| call.size > 0 && call.refreshed < time) else {
        return;
    };
    match answer {
        21 if nameless => tally.situation("nameless 21 of a call refreshed earlier"),
        21 => tally.situation("21 of a call refreshed earlier"),
        22 => tally.situation("22 of a call refreshed earlier"),
        23 => tally.situation("23 under a call refreshed earlier"),
        24 => tally.situation("24 under a call refreshed earlier"),
        30 | 31 => tally.situation("30 or 31 beside a call refreshed earlier"),
        32 => tally.situation("32 of a call refreshed earlier"),
        _ => {}
    }
    if answer == 21 {
        for (came, name) in [
            (step.clock.time < time, "21 at an earlier time of the caller's"),
            (is_lit(call), "21 of a call with connections refreshed earlier"),
            (
                age(call, time) + 1 == five_periods(step.clock),
                "21 a second short of five periods",
            ),
        ] {
            if came {
                tally.situation(name);
            }
        }
    }
}
