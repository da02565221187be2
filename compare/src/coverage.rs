//! Situations that the streams have to come into, each at least as often as each answer.

use crate::both::Done;
use crate::build::D;
use crate::coverage_expiry;
use crate::coverage_late;
use crate::coverage_nameless;
use crate::form::{self, long_id};
use crate::layout::SLOTS;
use crate::ledger::{Heard, Seen};
use crate::made;
use crate::rosters::Shape;
use crate::source::Made;
use crate::tables;
use crate::tally::Tally;
use second::table::{Customer, Place, Table};
use second::Clock;

/// How the shares stood at a setup, by the roster's form.
struct Shares {
    one: &'static str,
    two: &'static str,
    eight: &'static str,
    no_guarantees: &'static str,
    random: &'static str,
    full: &'static str,
    at_limit: &'static str,
    no_room: &'static str,
    within: &'static str,
    open_already: &'static str,
    short_in_use: &'static str,
    long_in_use: &'static str,
}

const SHARES: [Shares; 2] = [
    Shares {
        one: "form 1, setup with S 64: one customer 64 of 64",
        two: "form 1, setup with S 64: X 1 of 2, Y 62 of 64",
        eight: "form 1, setup with S 64: eight times 8 of 64",
        no_guarantees: "form 1, setup with S 64: guarantees 0",
        random: "form 1, setup with S 64: random roster",
        full: "form 1, setup with 64 calls open",
        at_limit: "form 1, 34 at the limit, room left",
        no_room: "form 1, 34 without room, under the limit",
        within: "form 1, 20 within the guarantee, S 64",
        open_already: "form 1, 21 where a new call would be 34",
        short_in_use: "form 1, 30 where a new call would be 34",
        long_in_use: "form 1, 31 where a new call would be 34",
    },
    Shares {
        one: "form 2, setup with S 200: one customer 200 of 200",
        two: "form 2, setup with S 200: X 1 of 2, Y 198 of 200",
        eight: "form 2, setup with S 200: eight times 25 of 200",
        no_guarantees: "form 2, setup with S 200: guarantees 0",
        random: "form 2, setup with S 200: random roster",
        full: "form 2, setup with 200 calls open",
        at_limit: "form 2, 34 at the limit, room left",
        no_room: "form 2, 34 without room, under the limit",
        within: "form 2, 20 within the guarantee, S 200",
        open_already: "form 2, 21 where a new call would be 34",
        short_in_use: "form 2, 30 where a new call would be 34",
        long_in_use: "form 2, 31 where a new call would be 34",
    },
];

impl Shares {
    fn all(&self) -> [&'static str; 12] {
        [
            self.one,
            self.two,
            self.eight,
            self.no_guarantees,
            self.random,
            self.full,
            self.at_limit,
            self.no_room,
            self.within,
            self.open_already,
            self.short_in_use,
            self.long_in_use,
        ]
    }
}

/// The first slot that form 1 does not have.
pub(crate) const FAR: usize = form::total(1);

/// Answers about a call in a slot that form 1 does not have.
const FAR_SLOTS: [(u8, &str); 12] = [
    (14, "form 2, slots from 64 on: 14"),
    (20, "form 2, slots from 64 on: 20"),
    (21, "form 2, slots from 64 on: 21"),
    (22, "form 2, slots from 64 on: 22"),
    (23, "form 2, slots from 64 on: 23"),
    (24, "form 2, slots from 64 on: 24"),
    (25, "form 2, slots from 64 on: 25"),
    (30, "form 2, slots from 64 on: 30"),
    (31, "form 2, slots from 64 on: 31"),
    (32, "form 2, slots from 64 on: 32"),
    (33, "form 2, slots from 64 on: 33 beside one of its IDs"),
    (37, "form 2, slots from 64 on: 37"),
];

/// Everything that a run has to come into.
pub fn situations() -> Vec<&'static str> {
    let shares = SHARES.iter().flat_map(Shares::all);
    let far = FAR_SLOTS.iter().map(|line| line.1);
    let others = OTHERS.iter().chain(coverage_nameless::SITUATIONS).copied();
    let nearly = made::NEARLY.iter().map(|line| line.0);
    let later = coverage_expiry::situations().chain(coverage_late::situations());
    shares.chain(far).chain(others).chain(nearly).chain(later).collect()
}

const OTHERS: &[&str] = &[
    "form 2, 20 where S is 64 and more",
    "form 2, 34 at a limit above 64, room left",
    "form 2, 20 into a slot from 192 on",
    "form 2, 20 into a slot from 64 on below a used one",
    "own identifier goes from 4,294,967,295 to 0",
    "checksum FFFF for zero, received",
    "checksum FFFF for zero, sent",
    "1,024 bytes read",
    "1,028 bytes: 3",
    "buffer of 127: 2",
    "buffer of 128: reply",
    "name of 32 bytes opened",
    "name of 33 bytes: 13",
    "name padded to 33 bytes: 13",
    "open, name of zeros only: 13",
    "close, name of zeros only: 13",
    "name padded to 32 bytes opened",
    "21 under another padding than the open's",
    "22 under another padding than the open's",
    "32 under another padding than the open's",
    "31 by another padding, under another short ID",
    "21 or 31 next to the same name with a zero byte more or less",
    "20 next to a name that a zero byte inside tells apart",
    "30 next to a name that a zero byte inside tells apart",
    "20 with the IDs of a call of the swapped pair",
    "20 with the IDs of a call of another pair",
    "20 into a slot below a used one",
    "23 into a place below a taken one",
    "24 with four connections there",
    "37 under a call",
    "37 of Call ID 0",
    "14 held under 0, asked for under a call",
    "14 held under a call, asked for under 0",
    "14 held under a call, asked for under another",
    "14 asked for under a call that is not open",
    "25 under its own Call ID",
    "25 under another Call ID",
    "11 with the empty table",
];

/// A message on its way through a stream.
pub struct Step<'a> {
    /// Of the roster that the stream began with.
    pub form: u8,
    pub shape: Shape,
    /// The table as it was handed in, and behind the closings (A7).
    pub found: &'a Table,
    pub before: &'a Table,
    pub made: &'a Made,
    pub buffer: usize,
    pub clock: Clock,
    /// The slots that earlier closings freed and that no call has had since.
    pub freed: &'a [bool; SLOTS],
    pub done: &'a Done,
    /// What the ledger says, and its calls behind the closings; none where the stream has no ledger.
    pub seen: Option<(Seen, usize)>,
    /// The ledger's list of Notifies before this message (A8).
    pub heard: &'a [Heard],
}

impl Step<'_> {
    /// The slot of the call that an answer 20 opened.
    pub(crate) fn new_slot(&self) -> usize {
        let is_new = |&slot: &usize| tables::is_used(&self.done.first, slot) && !tables::is_used(self.before, slot);
        (0..SLOTS).find(is_new).expect("an opened call has a slot")
    }
}

pub fn note(step: &Step, tally: &mut Tally) {
    if let Some((seen, calls)) = &step.seen {
        setup(step, seen, *calls, tally);
        if let Some((opened, now)) = seen.sizes {
            padding(step.done.answer, opened, now, tally);
        }
    }
    limits(step, tally);
    coverage_expiry::note(step, tally);
    if step.made.whole {
        coverage_late::note(step, tally);
        far_slot(step, tally);
        coverage_nameless::note(step, tally);
        match step.done.answer {
            20 => opened(step, tally),
            13 if step.made.fields.call != 0 => unnamed(step, tally),
            30 if zero_tells_apart(step) => tally.situation("30 next to a name that a zero byte inside tells apart"),
            14 | 24 | 25 => held(step, tally),
            23 => added(step, tally),
            37 if step.made.fields.call == 0 => tally.situation("37 of Call ID 0"),
            37 => tally.situation("37 under a call"),
            _ => {}
        }
    }
}

/// Setups of no fault of form: how the shares stood.
fn setup(step: &Step, seen: &Seen, calls: usize, tally: &mut Tally) {
    let Some(due) = seen.due else {
        return;
    };
    let shares = &SHARES[usize::from(step.form) - 1];
    if seen.no_room {
        tally.situation(match step.shape {
            Shape::One => shares.one,
            Shape::Two => shares.two,
            Shape::Eight => shares.eight,
            Shape::NoGuarantees => shares.no_guarantees,
            Shape::Random | Shape::Refused => shares.random,
        });
    }
    if calls == form::total(step.form) {
        tally.situation(shares.full);
    }
    let refusable = !seen.below && (seen.at_limit || seen.no_room);
    match due {
        20 if seen.no_room => tally.situation(shares.within),
        34 if !seen.no_room => tally.situation(shares.at_limit),
        34 if !seen.at_limit => tally.situation(shares.no_room),
        21 if refusable => tally.situation(shares.open_already),
        30 if refusable => tally.situation(shares.short_in_use),
        31 if refusable => tally.situation(shares.long_in_use),
        _ => {}
    }
    match due {
        20 if tables::taken(step.before) >= FAR && step.form == 2 => {
            tally.situation("form 2, 20 where S is 64 and more");
        }
        34 if !seen.no_room && calls > FAR && step.form == 2 && at_wide_limit(step) => {
            tally.situation("form 2, 34 at a limit above 64, room left");
        }
        _ => {}
    }
}

/// Whether the sender's limit is one that form 1 does not have.
fn at_wide_limit(step: &Step) -> bool {
    let sender = step.made.fields.sender;
    let limit = |one: &Customer| one.address == sender && one.limit as usize > FAR;
    step.made.whole && tables::listed(step.before).iter().any(limit)
}

/// Whether the answer is about a call in a slot that form 1 does not have.
fn far_slot(step: &Step, tally: &mut Tally) {
    let Some(&(answer, name)) = FAR_SLOTS.iter().find(|line| line.0 == step.done.answer) else {
        return;
    };
    let fields = &step.made.fields;
    let (before, after) = (step.before, &step.done.first);
    let is_far = (FAR..SLOTS).any(|slot| {
        let (old, new) = (&before.calls[slot], &after.calls[slot]);
        let in_pair = (old.endpoint, old.sender) == (fields.endpoint, fields.sender) && old.size > 0;
        let short = old.id == fields.call.into();
        let is_held = |place: &Place| {
            let numbers = (fields.tunnel.into(), fields.extended, fields.lsp.into());
            tables::is_taken(place) && (place.tunnel, place.extended, place.lsp) == numbers
        };
        match answer {
            20 | 22 | 23 | 25 => old != new,
            21 | 30 | 32 | 37 => in_pair && short,
            31 => in_pair && tables::name(old) == long_id(&fields.name),
            33 => in_pair && (short || tables::name(old) == long_id(&fields.name)),
            _ => in_pair && old.places.iter().any(is_held),
        }
    });
    if is_far {
        tally.situation(name);
    }
}

/// A Notify whose long ID is open: the Name Length of the open, and this one's.
fn padding(answer: u8, opened: usize, now: usize, tally: &mut Tally) {
    if opened == now {
        return;
    }
    match answer {
        21 => tally.situation("21 under another padding than the open's"),
        22 => tally.situation("22 under another padding than the open's"),
        32 => tally.situation("32 under another padding than the open's"),
        31 => tally.situation("31 by another padding, under another short ID"),
        _ => {}
    }
    if (answer == 21 || answer == 31) && opened.abs_diff(now) == 1 {
        tally.situation("21 or 31 next to the same name with a zero byte more or less");
    }
}

/// 13 for the name alone.
fn unnamed(step: &Step, tally: &mut Tally) {
    let fields = &step.made.fields;
    let (size, long) = (fields.name.len(), long_id(&fields.name).len());
    match (size, long) {
        (1..=32, 0) if fields.status & D == 0 => tally.situation("open, name of zeros only: 13"),
        (1..=32, 0) => tally.situation("close, name of zeros only: 13"),
        (33, 33) => tally.situation("name of 33 bytes: 13"),
        (33, 1..) => tally.situation("name padded to 33 bytes: 13"),
        _ => {}
    }
}

/// Whether the pair has a call, under the same short ID for a 30, whose name is another for a zero inside only: a
/// program that ends names at their first zero, or leaves zeros out wherever they stand, takes the two for one.
fn zero_tells_apart(step: &Step) -> bool {
    let fields = &step.made.fields;
    let name = long_id(&fields.name);
    fn cut(name: &[u8]) -> impl Iterator<Item = &u8> {
        name.iter().take_while(|&&byte| byte != 0)
    }
    fn left(name: &[u8]) -> impl Iterator<Item = &u8> {
        name.iter().filter(|&&byte| byte != 0)
    }
    tables::calls(step.before).any(|call| {
        let other = tables::name(call);
        let in_pair = (call.endpoint, call.sender) == (fields.endpoint, fields.sender);
        let asked = step.done.answer == 20 || call.id == fields.call.into();
        in_pair && asked && other != name && (cut(other).eq(cut(name)) || left(other).eq(left(name)))
    })
}

/// Sizes, buffers, identifiers.
fn limits(step: &Step, tally: &mut Tally) {
    let (answer, size) = (step.done.answer, step.made.bytes.len());
    if step.before.next == u32::MAX && step.done.first.next == 0 {
        tally.situation("own identifier goes from 4,294,967,295 to 0");
    }
    if answer > 13 && step.made.bytes[2..4] == [0xff; 2] {
        tally.situation("checksum FFFF for zero, received");
    }
    if step.done.length > 0 && step.done.reply()[2..4] == [0xff; 2] {
        tally.situation("checksum FFFF for zero, sent");
    }
    if step.made.whole && matches!(answer, 20..=22 | 30..=34) && step.made.fields.call != 0 {
        let name = &step.made.fields.name;
        tally.padding(name.len() - long_id(name).len());
    }
    match (size, answer) {
        (1024, 14..) => tally.situation("1,024 bytes read"),
        (1028, 3) => tally.situation("1,028 bytes: 3"),
        _ => {}
    }
    match (step.buffer, answer, step.done.length) {
        (127, 2, _) => tally.situation("buffer of 127: 2"),
        (128, _, 1..) => tally.situation("buffer of 128: reply"),
        _ => {}
    }
    if step.before.listed == 0 && answer == 11 {
        tally.situation("11 with the empty table");
    }
}

fn opened(step: &Step, tally: &mut Tally) {
    let fields = &step.made.fields;
    let (name, pair) = (long_id(&fields.name), (fields.endpoint, fields.sender));
    match (fields.name.len(), name.len()) {
        (_, 32) => tally.situation("name of 32 bytes opened"),
        (32, _) => tally.situation("name padded to 32 bytes opened"),
        _ => {}
    }
    if !name.is_empty() && zero_tells_apart(step) {
        tally.situation("20 next to a name that a zero byte inside tells apart");
    }
    if tables::in_use(step.before, (pair.1, pair.0), fields.call, name) == (true, true) {
        tally.situation("20 with the IDs of a call of the swapped pair");
    }
    if tables::calls(step.before).any(|call| call.id == fields.call.into() && tables::name(call) == name) {
        tally.situation("20 with the IDs of a call of another pair");
    }
    let slot = step.new_slot();
    let below = tables::used(step.before).last().is_some_and(|&last| last > slot);
    if below {
        tally.situation("20 into a slot below a used one");
    }
    if below && slot >= FAR {
        tally.situation("form 2, 20 into a slot from 64 on below a used one");
    }
    // The last word of occupied bits that has slots.
    if slot >= SLOTS / 32 * 32 {
        tally.situation("form 2, 20 into a slot from 192 on");
    }
}

/// The message's connection was held before: under which Call ID?
fn held(step: &Step, tally: &mut Tally) {
    let fields = &step.made.fields;
    let all = tables::held(step.before);
    let found = all.iter().find(|held| {
        let one = held.connection;
        let numbers = (one.tunnel, one.extended, one.lsp);
        (one.endpoint, one.sender) == (fields.endpoint, fields.sender)
            && numbers == (fields.tunnel, fields.extended, fields.lsp)
    });
    let call = found.expect("14, 24 and 25 are answers about a held connection").call;
    let four = |held: &&tables::Held| {
        let one = held.connection;
        held.call == call && one.sender == fields.sender && (call == 0 || one.endpoint == fields.endpoint)
    };
    match (step.done.answer, call, fields.call) {
        (14, 0, _) => tally.situation("14 held under 0, asked for under a call"),
        (14, _, 0) => tally.situation("14 held under a call, asked for under 0"),
        (14, ..) => tally.situation("14 held under a call, asked for under another"),
        (24, ..) if all.iter().filter(four).count() == 4 => {
            tally.situation("24 with four connections there");
        }
        (25, held, asked) if held == asked => tally.situation("25 under its own Call ID"),
        (25, ..) => tally.situation("25 under another Call ID"),
        _ => {}
    }
    let pair = (fields.endpoint, fields.sender);
    let open = tables::in_use(step.before, pair, fields.call, &[]).0;
    if step.done.answer == 14 && fields.call != 0 && !open {
        tally.situation("14 asked for under a call that is not open");
    }
}

/// The place that the new connection took: is there one taken behind it?
fn added(step: &Step, tally: &mut Tally) {
    let (before, after) = (step.before, &step.done.first);
    let calls = before.calls.iter().zip(&after.calls);
    let marks = |places: &[Place; 4]| [0, 1, 2, 3].map(|place: usize| tables::is_taken(&places[place]));
    let fours = calls.map(|(old, new)| (marks(&old.places), marks(&new.places)));
    let customers = before.customers.iter().zip(&after.customers);
    let standalone = customers.map(|(old, new)| (marks(&old.places), marks(&new.places)));
    let below = |(old, new): ([bool; 4], [bool; 4])| {
        let taken = (0..4).find(|&place| old[place] != new[place]);
        taken.is_some_and(|place| old[place + 1..].contains(&true))
    };
    if fours.chain(standalone).any(below) {
        tally.situation("23 into a place below a taken one");
    }
}
