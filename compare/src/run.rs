//! The whole comparison: rosters, streams of messages, every class, broken tables, every word of some tables, captures.

use crate::both;
use crate::breaks::{self, Break};
use crate::captures;
use crate::classes;
use crate::coverage::situations;
use crate::form;
use crate::full::Full;
use crate::near;
use crate::random::Random;
use crate::rosters::MAKERS;
use crate::stream::Stream;
use crate::tables;
use crate::tally::Tally;
use crate::trials::{hex, Trials};
use second::table::Table;

/// Rosters compared by themselves, those that the streams start from not counted.
const ROSTERS: usize = 26_000;

/// Numbers of the streams whose tables are changed word by word.
const WORD_STREAMS: u64 = 1 << 32;

/// Numbers of the crowds, and how many there are, by turns of both forms and of each kind.
const CROWD_STREAMS: u64 = 2 << 32;
const CROWDS: u64 = 360;

/// Numbers of the streams whose calls go one after another, or all at once (A7), and how many there are, by turns of both
/// forms.
const AGED_STREAMS: u64 = 3 << 32;
const AGED: u64 = 440;
const SWEPT_STREAMS: u64 = 4 << 32;
const SWEPT: u64 = 1000;

/// Numbers of the streams whose messages overtake each other (A8), and how many there are, by turns of both forms.
const OVERTAKEN_STREAMS: u64 = 5 << 32;
const OVERTAKEN: u64 = 250;

/// How many full tables, by turns of form 1 and 2, are broken in every way.
const FULL_TABLES: usize = 120;

pub fn all(seed: u64, messages: u64, captured: Option<&str>) -> Result<Tally, String> {
    let mut tally = Tally::new(&situations(), &names(breaks::all()), &names(near::all()));
    let mut random = Random::of_part(seed, u64::MAX);
    rosters(seed, &mut random, &mut tally)?;
    streams(seed, messages, &mut tally)?;
    crowds(seed, &mut tally)?;
    expiring(seed, &mut tally)?;
    overtaken(seed, OVERTAKEN, &mut tally)?;
    classes::run(0..=u8::MAX, &mut Random::of_part(seed, u64::MAX - 1), &mut tally)
        .map_err(|what| format!("seed {seed}, {what}"))?;
    full_tables(seed, &mut random, &mut tally)?;
    every_word(seed, &mut random, &mut tally)?;
    if let Some(text) = captured {
        let count = captures::run(text, &mut random, &mut tally)?;
        println!("{count} captured messages, each with a fresh and a full table");
    }
    Ok(tally)
}

fn names(lines: impl Iterator<Item = &'static (&'static str, Break)>) -> Vec<&'static str> {
    lines.map(|line| line.0).collect()
}

fn rosters(seed: u64, random: &mut Random, tally: &mut Tally) -> Result<(), String> {
    for number in 0..ROSTERS {
        let (due, maker) = MAKERS[number % MAKERS.len()];
        let bytes = maker(random);
        let place = || format!("seed {seed}, roster {number}: {}", hex(&bytes));
        let (answer, ..) = both::roster(&bytes, random).map_err(|what| format!("{}\n{what}", place()))?;
        let read = form::roster(&bytes);
        if read != answer || due.is_some_and(|due| due != answer) {
            return Err(format!("{}\nboth answer {answer}, {read} due", place()));
        }
        tally.roster(&bytes, answer);
    }
    Ok(())
}

fn full_tables(seed: u64, random: &mut Random, tally: &mut Tally) -> Result<(), String> {
    for number in 0..FULL_TABLES {
        let place = |what| format!("seed {seed}, full table {number}, {what}");
        let full = Full::new(1 + number as u8 % 2, random).map_err(place)?;
        let mut trials = Trials {
            table: &full.full.first,
            values: &full.values,
            random,
            tally,
        };
        let tried = trials.all();
        tried.map_err(|what| format!("{}\nroster {}", place(what), hex(&full.roster)))?;
    }
    Ok(())
}

/// Every word: of the empty table, twice, for no other has some kinds; of each form of a fresh one, of one with calls,
/// connections and free places, of a full one.
fn every_word(seed: u64, random: &mut Random, tally: &mut Tally) -> Result<(), String> {
    for _ in 0..2 {
        words_of(seed, 0, |table| table.listed == 0, tally)?;
    }
    for form in [1, 2] {
        words_of(seed, 0, |table| table.form == form && table.listed < 8, tally)?;
        let total = tables::total(&Table { form, ..Table::EMPTY });
        let mixed = |table: &Table| {
            let held = tables::held(table);
            let standalone = held.iter().filter(|held| held.call == 0).count();
            let calls = tables::used(table).len();
            table.form == form && table.listed < 8 && (total / 4..total).contains(&calls) && standalone > 1
        };
        words_of(seed, 4 * total as u64, mixed, tally)?;
        let full = Full::new(form as u8, random)?;
        let mut trials = Trials {
            table: &full.full.first,
            values: &full.values,
            random,
            tally,
        };
        let tried = trials.every_word();
        tried.map_err(|what| format!("seed {seed}, full table, {what}\nroster {}", hex(&full.roster)))?;
    }
    Ok(())
}

/// Every word of the first table that a stream of this many messages leads to and that is wanted.
fn words_of(seed: u64, messages: u64, wanted: impl Fn(&Table) -> bool, tally: &mut Tally) -> Result<(), String> {
    for number in WORD_STREAMS.. {
        let mut stream = Stream::new(seed, number, tally)?;
        if messages > 0 {
            stream.run(messages, tally)?;
        }
        if wanted(stream.table()) {
            return stream.try_every_word(tally);
        }
    }
    unreachable!("some stream leads to such a table")
}

fn streams(seed: u64, messages: u64, tally: &mut Tally) -> Result<(), String> {
    let mut number = 0;
    let mut left = messages;
    while left > 0 {
        number += 1;
        let mut stream = Stream::new(seed, number, tally)?;
        let steps = left.min(stream.length());
        stream.run(steps, tally)?;
        left -= steps;
    }
    Ok(())
}

/// Pairs with as many calls as they can have (A6).
fn crowds(seed: u64, tally: &mut Tally) -> Result<(), String> {
    for number in 0..CROWDS {
        let mut stream = Stream::crowded(seed, CROWD_STREAMS + number, tally)?;
        stream.run(Stream::CROWDED, tally)?;
    }
    Ok(())
}

/// Calls that nobody refreshes (A7).
fn expiring(seed: u64, tally: &mut Tally) -> Result<(), String> {
    for number in 0..AGED {
        let mut stream = Stream::aged(seed, AGED_STREAMS + number, tally)?;
        match number % 6 {
            0 => stream.run(Stream::AGED, tally)?,
            _ => stream.run_messages(Stream::AGED, tally)?,
        }
    }
    for number in 0..SWEPT {
        let mut stream = Stream::swept(seed, SWEPT_STREAMS + number, tally)?;
        stream.run_messages(Stream::SWEPT, tally)?;
    }
    Ok(())
}

/// Messages that arrive out of order (A8).
fn overtaken(seed: u64, streams: u64, tally: &mut Tally) -> Result<(), String> {
    for number in 0..streams {
        let mut stream = Stream::overtaken(seed, OVERTAKEN_STREAMS + number, tally)?;
        match number % 10 {
            0 => stream.run(Stream::OVERTAKEN, tally)?,
            _ => stream.run_messages(Stream::OVERTAKEN, tally)?,
        }
    }
    Ok(())
}

#[cfg(test)]
pub(crate) mod tests {
    use super::*;

    /// Streams of each kind that late messages come in (A8), a few of each.
    #[cfg(feature = "stand_in")]
    pub(crate) fn short_run() -> Result<(), String> {
        let mut tally = Tally::new(&situations(), &names(breaks::all()), &names(near::all()));
        overtaken(1, 30, &mut tally)?;
        streams(1, 6000, &mut tally)
    }

    /// None is found where there is none.
    #[cfg(feature = "stand_in")]
    #[test]
    fn a_short_run_of_overtaking() {
        short_run().unwrap();
    }

    /// With the second program in the first one's place it is the yardstick that is tried.
    #[test]
    fn a_short_run() {
        let mut tally = Tally::new(&situations(), &names(breaks::all()), &names(near::all()));
        streams(1, 4000, &mut tally).unwrap();
        assert!(tally.broken_total() > 500 && tally.word_total() > 500);
    }
}
