//! One stream: a roster, or a checkpoint read under it, then messages, each program going on with its own table. At
//! points on the way the table reached is broken in every way that a rule names, nearly broken, and changed at random.

use crate::both;
use crate::build::{Fields, Roster};
use crate::checkpoints::parts::Parts;
use crate::checkpoints::{self, expected};
use crate::clock::{self, Habit};
use crate::coverage::{self, Step};
use crate::coverage_expiry;
use crate::expiry;
use crate::form;
use crate::intent::{Mode, CHURN, CROWD, FILL, FILL_NAMELESS, FILL_SOON, MODES};
use crate::layout::SLOTS;
use crate::ledger::{Fed, Ledger, Restored, Seen};
use crate::made;
use crate::numbering::Transit;
use crate::random::Random;
use crate::restored::{self, CROWDS};
use crate::rosters::{self, Shape, ACCEPTABLE, SHAPES};
use crate::source::{self, Made};
use crate::tables;
use crate::tally::Tally;
use crate::trials::{hex, Trials, CHECKPOINT};
use crate::values::Values;
use second::table::Table;
use second::{Clock, Node};

/// Form 2 has the larger tables, which take the longer.
const FORMS: [(usize, u8); 2] = [(3, 1), (2, 2)];

/// How often a stream's stretches have which habit with the time (A7): most streams, and those that are about it.
type Habits = &'static [(usize, Habit)];
const MOSTLY_CALM: Habits = &[(10, Habit::Calm), (2, Habit::Closing), (1, Habit::Tight)];
const CALM: Habits = &[(1, Habit::Calm)];
const CLOSING: Habits = &[(6, Habit::Closing), (1, Habit::Tight)];

/// How many of a hundred messages are faulty or damaged: in the first stretch, and in one of those behind it.
const SOME_TROUBLE: [usize; 4] = [10, 10, 35, 60];
const MUCH_TROUBLE: [usize; 4] = [60, 40, 60, 80];

pub struct Stream {
    name: String,
    random: Random,
    form: u8,
    shape: Shape,
    roster: Vec<u8>,
    values: Values,
    first: Table,
    second: Table,
    /// The second program's node that stands from the first message to the last.
    node: Node,
    ledger: Option<Ledger>,
    next: u32,
    mode: Mode,
    trouble: usize,
    troubles: [usize; 4],
    habits: Habits,
    habit: Habit,
    /// The slots that closings freed and that no call has had since.
    freed: [bool; SLOTS],
    /// A message that is to come next, at this time if one is given.
    follows: Option<(Made, Option<Clock>)>,
    /// Messages that overtake each other (A8); none where each is sent when it is made.
    transit: Option<Transit>,
}

/// What a stream begins with.
struct Beginning {
    roster: Roster,
    shape: Shape,
    values: Values,
    /// A checkpoint's records, to be salvaged; none for the roster's fresh table.
    parts: Option<Parts>,
    mode: Mode,
    /// How many of a hundred messages are faulty or damaged, at first and later.
    trouble: [usize; 4],
    habits: Habits,
    /// Of the first stretch.
    habit: Habit,
}

impl Stream {
    pub fn new(seed: u64, number: u64, tally: &mut Tally) -> Result<Stream, String> {
        let mut random = Random::of_part(seed, number);
        let form = random.weighted(&FORMS);
        let shape = random.weighted(&SHAPES);
        let roster = rosters::shaped(form, shape, &mut random);
        let values = match random.below(8) {
            0 => Values::of_one_pair(&roster, &mut random),
            _ => Values::new(&roster, &mut random),
        };
        let restores = shape != Shape::Refused && random.chance(1, 5);
        let mut parts = restores.then(|| restored::some_calls(&roster, &values, &mut random));
        if let Some(parts) = parts.as_mut().filter(|_| random.chance(1, 2)) {
            restored::refresh(parts, &mut random);
        }
        let mode = random.weighted(&[(2, FILL), (2 * usize::from(form), FILL_SOON), (1, FILL_NAMELESS)]);
        let beginning = Beginning {
            roster,
            shape,
            values,
            parts,
            mode,
            trouble: SOME_TROUBLE,
            habits: MOSTLY_CALM,
            habit: Habit::Calm,
        };
        Stream::begin(format!("seed {seed}, stream {number}"), random, beginning, tally)
    }

    /// A stream that starts from calls refreshed at different times, which then go one after another (A7).
    pub fn aged(seed: u64, number: u64, tally: &mut Tally) -> Result<Stream, String> {
        let mut random = Random::of_part(seed, number);
        let (form, shape) = (1 + (number % 2) as u8, *random.pick(&ACCEPTABLE));
        let roster = rosters::shaped(form, shape, &mut random);
        let values = Values::new(&roster, &mut random);
        let parts = Some(restored::aged_calls(&roster, &values, &mut random));
        let beginning = Beginning {
            roster,
            shape,
            values,
            parts,
            mode: CHURN,
            trouble: MUCH_TROUBLE,
            habits: CLOSING,
            habit: Habit::Closing,
        };
        Stream::begin(format!("seed {seed}, aged {number}"), random, beginning, tally)
    }

    /// A stream whose messages arrive out of order, and some of them twice (A8).
    pub fn overtaken(seed: u64, number: u64, tally: &mut Tally) -> Result<Stream, String> {
        let mut random = Random::of_part(seed, number);
        let (form, shape) = (1 + (number % 2) as u8, *random.pick(&ACCEPTABLE));
        let roster = rosters::shaped(form, shape, &mut random);
        let values = Values::new(&roster, &mut random);
        let parts = random
            .chance(1, 2)
            .then(|| restored::some_calls(&roster, &values, &mut random));
        let beginning = Beginning {
            roster,
            shape,
            values,
            parts,
            mode: CHURN,
            trouble: SOME_TROUBLE,
            habits: MOSTLY_CALM,
            habit: Habit::Calm,
        };
        let name = format!("seed {seed}, overtaken {number}");
        let mut stream = Stream::begin(name, random, beginning, tally)?;
        stream.transit = Some(Transit::default());
        Ok(stream)
    }

    /// A stream whose one pair has as many calls as it can have, or one less, all of which go at once (A7).
    pub fn swept(seed: u64, number: u64, tally: &mut Tally) -> Result<Stream, String> {
        Stream::one_pair(seed, number, Habit::Sweep, tally)
    }

    /// A stream whose one pair has as many calls as it can have, or one less, from the start (A6).
    pub fn crowded(seed: u64, number: u64, tally: &mut Tally) -> Result<Stream, String> {
        Stream::one_pair(seed, number, Habit::Calm, tally)
    }

    fn one_pair(seed: u64, number: u64, habit: Habit, tally: &mut Tally) -> Result<Stream, String> {
        let mut random = Random::of_part(seed, number);
        let (form, shape) = (1 + (number % 2) as u8, Shape::One);
        let crowd = CROWDS[(number / 2) as usize % CROWDS.len()];
        let roster = rosters::shaped(form, shape, &mut random);
        let values = Values::of_one_pair(&roster, &mut random);
        let mut parts = restored::crowd(crowd, &roster, &values, &mut random);
        if random.chance(1, 2) {
            restored::refresh(&mut parts, &mut random);
        }
        let beginning = Beginning {
            roster,
            shape,
            values,
            parts: Some(parts),
            mode: CROWD,
            trouble: SOME_TROUBLE,
            habits: CALM,
            habit,
        };
        Stream::begin(
            format!("seed {seed}, crowd {number}, {crowd:?}, {habit:?}"),
            random,
            beginning,
            tally,
        )
    }

    fn begin(name: String, mut random: Random, beginning: Beginning, tally: &mut Tally) -> Result<Stream, String> {
        let roster = beginning.roster.bytes();
        let place = |what: String| format!("{name}, roster {}: {what}", hex(&roster));
        let (answer, mut first, mut second) = both::roster(&roster, &mut random).map_err(place)?;
        tally.roster(&roster, answer);
        let mut ledger = (answer == 0).then(|| Ledger::new(&roster));
        if let Some(parts) = &beginning.parts {
            let checkpoint = parts.bytes();
            let place = |what| place(format!("{what}\ncheckpoint {}", hex(&checkpoint)));
            let read = checkpoints::both::read(true, &roster, &checkpoint).map_err(place)?;
            let calls = expected::restored_calls(&roster, parts);
            check_refreshes(&read.table, &calls).map_err(place)?;
            (first, second) = (read.table, read.table);
            ledger = Some(Ledger::restored(&roster, calls));
        }
        let next = match random.below(2) {
            0 => 1,
            _ => 0u32.wrapping_sub(random.below(200) as u32),
        };
        (first.next, second.next) = (next, next);
        let node = Node::from_table(&second).ok_or(format!("{name}: no node of the first table"))?;
        Ok(Stream {
            name,
            form: beginning.roster.form,
            shape: beginning.shape,
            values: beginning.values,
            ledger,
            roster,
            first,
            second,
            node,
            next,
            mode: beginning.mode,
            trouble: beginning.trouble[0],
            troubles: beginning.trouble,
            habits: beginning.habits,
            habit: beginning.habit,
            freed: [false; SLOTS],
            follows: None,
            transit: None,
            random,
        })
    }

    /// How many messages a stream has: more where there are more calls to fill the table with.
    pub fn length(&mut self) -> u64 {
        let total = form::total(self.form);
        self.random.between(100 + total, 500 + 3 * total) as u64
    }

    /// Runs this many messages, the first of which fill the table, and changes the table that they lead to.
    pub fn run(&mut self, steps: u64, tally: &mut Tally) -> Result<(), String> {
        self.run_messages(steps, tally)?;
        self.try_tables(steps, tally)
    }

    /// The messages alone; now and then a table on the way is changed.
    pub fn run_messages(&mut self, steps: u64, tally: &mut Tally) -> Result<(), String> {
        let total = form::total(self.form);
        // A table that is full already is not filled for long.
        let mut stretch = match self.habit {
            Habit::Calm => self.random.between(total, 2 * total),
            _ => self.random.between(10, 40),
        };
        for step in 1..=steps {
            if stretch == 0 {
                self.mode = self.random.weighted(&MODES);
                self.trouble = *self.random.pick(&self.troubles[1..]);
                self.habit = self.random.weighted(self.habits);
                stretch = self.random.between(30, 120);
            }
            stretch -= 1;
            self.step(step, tally)?;
            if self.habit == Habit::Sweep {
                self.habit = Habit::Calm;
            }
            if step < steps && self.random.chance(1, 400) {
                self.try_tables(step, tally)?;
            }
        }
        Ok(())
    }

    fn step(&mut self, step: u64, tally: &mut Tally) -> Result<(), String> {
        let (follows, at) = self.follows.take().unzip();
        let clock = at.flatten().unwrap_or_else(|| self.clock());
        let made = follows.unwrap_or_else(|| self.made(clock, tally));
        let buffer = source::buffer_length(&mut self.random);
        self.message(&made, clock, buffer, tally).map_err(|what| {
            let (roster, message) = (hex(&self.roster), hex(&made.bytes));
            let start = format!("roster {roster}\nfirst own identifier {}", self.next);
            format!(
                "{}, step {step}: {what}\n{start}\nbuffer {buffer}\n{clock:?}\nmessage {message}",
                self.name
            )
        })
    }

    /// Time and period: mostly by the stretch's habit.
    fn clock(&mut self) -> Clock {
        let random = &mut self.random;
        let habit = match self.habit {
            Habit::Sweep => Habit::Sweep,
            _ if random.chance(1, 5) => Habit::Calm,
            habit => habit,
        };
        clock::next(habit, &self.first, random)
    }

    /// A message; sometimes about a call that is closed before it.
    fn made(&mut self, clock: Clock, tally: &mut Tally) -> Made {
        let (values, random) = (&self.values, &mut self.random);
        if self.habit != Habit::Calm && random.chance(1, 8) {
            let due = expiry::closings(&self.first, clock);
            if !due.is_empty() {
                let slot = random.pick(&due).slot as usize;
                return source::about(&self.first.calls[slot], random);
            }
        }
        match &mut self.transit {
            None => source::message(self.mode, self.trouble, values, &self.first, random, tally),
            Some(transit) => {
                while transit.is_short() {
                    let mut number = |fields: &mut Fields, random: &mut Random| transit.number(fields, random);
                    let (mode, trouble, table) = (self.mode, self.trouble, &self.first);
                    let made = source::numbered(mode, trouble, values, table, random, tally, &mut number);
                    transit.send(made);
                }
                transit.arrive(random)
            }
        }
    }

    /// One message to all: both programs, the lasting node and the ledger.
    fn message(&mut self, made: &Made, clock: Clock, buffer: usize, tally: &mut Tally) -> Result<(), String> {
        let tables = (&self.first, &self.second);
        let done = both::message(tables, &made.bytes, clock, buffer, &mut self.random)?;
        both::lasting(&mut self.node, &made.bytes, clock, &done)?;
        let heard = self.ledger.as_ref().map_or(0, |ledger| ledger.heard().len());
        let seen = match &mut self.ledger {
            Some(ledger) => Some(fed(ledger, &made.bytes, buffer, clock, &done)?),
            None => None,
        };
        self.follows = match done.answer {
            20 if made.whole => follow_up(made, &done.behind, &mut self.random).map(|made| (made, None)),
            25 => follow_tear(&done, clock, &mut self.random),
            _ => None,
        };
        tally.message(done.answer, buffer);
        let (form, shape, found) = (self.form, self.shape, &self.first);
        let step = Step {
            form,
            shape,
            found,
            before: &done.behind,
            made,
            buffer,
            clock,
            freed: &self.freed,
            done: &done,
            seen,
            heard: self.ledger.as_ref().map_or(&[], |ledger| &ledger.heard()[..heard]),
        };
        coverage::note(&step, tally);
        let opened = (done.answer == 20).then(|| step.new_slot());
        for closing in &done.closings {
            self.freed[closing.slot as usize] = true;
        }
        if let Some(slot) = opened {
            self.freed[slot] = false;
        }
        (self.first, self.second) = (*done.first, *done.second);
        if done.answer == 16 && self.random.chance(1, 4) {
            self.after_restart(&made.bytes, tally)?;
        }
        Ok(())
    }

    /// A8, A13: a late message once more, to the table that is read from a copy of this one: it is late no longer.
    fn after_restart(&mut self, message: &[u8], tally: &mut Tally) -> Result<(), String> {
        let place = |what: String| format!("after a restart: {what}");
        let random = &mut self.random;
        let (_, copy) = checkpoints::both::write(&self.first, CHECKPOINT, random).map_err(place)?;
        let read = checkpoints::both::read(random.chance(1, 2), &self.roster, &copy).map_err(place)?;
        let tables = (&read.table, &read.table);
        let done = both::message(tables, message, Clock::ZERO, 128, random).map_err(place)?;
        let parts = Parts::of(&copy).ok_or("a copy that has no records")?;
        let mut ledger = Ledger::restored(&self.roster, expected::restored_calls(&self.roster, &parts));
        fed(&mut ledger, message, 128, Clock::ZERO, &done).map_err(place)?;
        if !(20..=34).contains(&done.answer) {
            return Err(place(format!("what was late is answered {}", done.answer)));
        }
        tally.situation("16, then after a restart the same is taken");
        Ok(())
    }

    /// How many messages one gets whose messages overtake each other.
    pub const OVERTAKEN: u64 = 120;
    /// How many messages a crowd gets: enough for made calls to come and go.
    pub const CROWDED: u64 = 50;
    /// How many one gets whose calls went at once, and how many one with calls that go one after another.
    pub const SWEPT: u64 = 8;
    pub const AGED: u64 = 130;

    /// The table as it is now.
    pub fn table(&self) -> &Table {
        &self.first
    }

    /// Every word of the table as it is now, with values outside its field.
    pub fn try_every_word(&mut self, tally: &mut Tally) -> Result<(), String> {
        let mut trials = Trials {
            table: &self.first,
            values: &self.values,
            random: &mut self.random,
            tally,
        };
        let tried = trials.every_word();
        tried.map_err(|what| format!("{}, {what}\nroster {}", self.name, hex(&self.roster)))
    }

    /// Breakings, near misses and random changes of the table as it is now.
    fn try_tables(&mut self, step: u64, tally: &mut Tally) -> Result<(), String> {
        let mut trials = Trials {
            table: &self.first,
            values: &self.values,
            random: &mut self.random,
            tally,
        };
        trials.all().map_err(|what| {
            let roster = hex(&self.roster);
            format!("{}, table after step {step}, {what}\nroster {roster}", self.name)
        })
    }
}

/// Feeds the ledger a message: what it saw, and its calls behind the closings.
fn fed(
    ledger: &mut Ledger,
    message: &[u8],
    buffer: usize,
    clock: Clock,
    done: &both::Done,
) -> Result<(Seen, usize), String> {
    let calls = ledger.calls();
    let seen = ledger.feed(&Fed {
        message,
        buffer,
        clock,
        answer: done.answer,
        closings: &done.closings,
    });
    let place = |what| format!("both answer {}; ledger: {what}", done.answer);
    let seen = seen.and_then(|seen| carries_ids(seen, done)).map_err(place)?;
    refreshes_call(&seen, done).map_err(place)?;
    Ok((seen, calls - done.closings.len()))
}

/// What comes behind an opening, sometimes: a nameless one again at once, or a nameless one of the pair behind a name
/// that is nearly that of its next number.
fn follow_up(made: &Made, before: &Table, random: &mut Random) -> Option<Made> {
    let fields = &made.fields;
    let number = tables::next_made(before, fields.endpoint, fields.sender);
    let long = form::long_id(&fields.name);
    let nearly = |(_, maker): (_, made::Maker)| maker(fields.endpoint, fields.sender, number) == long;
    if fields.call == 0 && random.chance(1, 4) {
        return Some(Made {
            again: true,
            ..made.clone()
        });
    }
    made::NEARLY
        .into_iter()
        .any(nearly)
        .then(|| source::nameless(fields, random))
}

/// A7: what comes behind a PathTear that took away the last connection of a call refreshed long ago, mostly: a message
/// about that call, before which it is closed.
fn follow_tear(done: &both::Done, clock: Clock, random: &mut Random) -> Option<(Made, Option<Clock>)> {
    let call = coverage_expiry::last_torn(&done.behind, &done.first)?;
    if random.chance(1, 4) {
        return None;
    }
    let time = done.first.time;
    let period = match expiry::is_old(call, time, clock) {
        true => clock.period,
        false => (time - call.refreshed) / 5,
    };
    let made = source::about(call, random);
    Some((Made { torn: true, ..made }, Some(Clock { time, period })))
}

/// A7, A13: the calls restored keep the refreshes of their records, and the time is the latest of them.
fn check_refreshes(table: &Table, calls: &[Restored]) -> Result<(), String> {
    let latest = calls.iter().map(|call| call.refreshed).max().unwrap_or(0);
    if table.time != latest {
        return Err(format!("time {}, {latest} due", table.time));
    }
    let other = |call: &&Restored| table.calls[call.slot as usize].refreshed != call.refreshed;
    match calls.iter().find(other) {
        Some(call) => Err(format!("slot {} was refreshed at {}", call.slot, call.refreshed)),
        None => Ok(()),
    }
}

/// A7: a setup that the ledger finds due 20 or 21 refreshes the call in the ledger's slot to the time.
fn refreshes_call(seen: &Seen, done: &both::Done) -> Result<(), String> {
    let Some(slot) = seen.slot else {
        return Ok(());
    };
    let (time, call) = (done.first.time, &done.first.calls[slot as usize]);
    match tables::is_used(&done.first, slot as usize) && call.refreshed == time {
        true => Ok(()),
        false => Err(format!("slot {slot} has the refresh {}, not {time}", call.refreshed)),
    }
}

/// A6: the reply carries the IDs of the ledger's entry, made from its own entries.
fn carries_ids(seen: Seen, done: &both::Done) -> Result<Seen, String> {
    match &seen.ids {
        Some(ids) if !made::carries(done.reply(), ids) => {
            Err(format!("the reply does not carry {} and {}", ids.short, hex(&ids.long)))
        }
        _ => Ok(seen),
    }
}
