//! Writing: buffers of every length near the right one, tables that break a rule, and the way there and back.

use super::both;
use super::parts::{CALL, CONNECTION, HEAD};
use super::table_source::roster_of;
use super::tally::Tally;
use crate::both::same_tables;
use crate::breaks;
use crate::build::Roster;
use crate::late::set_kept;
use crate::random::Random;
use crate::rosters::{shaped, some_form, Shape};
use crate::tables::{self, is_taken};
use crate::trials::hex;
use second::table::Table;

/// Writes a table that breaks no rule in every way: its roster (any, for the empty table) and its checkpoint.
pub fn all(table: &Table, random: &mut Random, tally: &mut Tally) -> Result<(Roster, Vec<u8>), String> {
    let mut roster = roster_of(table);
    let place = |what| format!("{what}\ntable of roster {}", hex(&roster_of(table).bytes()));
    let checkpoint = lengths(table, random, tally).map_err(place)?;
    broken(table, checkpoint.len(), random, tally).map_err(place)?;
    if roster.records.is_empty() {
        roster = shaped(some_form(random), Shape::Random, random);
    } else {
        again(table, &roster.bytes()).map_err(place)?;
        tally.round_trips += 1;
    }
    Ok((roster, checkpoint))
}

fn right_length(table: &Table) -> usize {
    HEAD + CALL * tables::calls(table).count() + CONNECTION * tables::held(table).len()
}

/// 73 up to the right length, 0 and the same checkpoint from there on.
fn lengths(table: &Table, random: &mut Random, tally: &mut Tally) -> Result<Vec<u8>, String> {
    let right = right_length(table);
    let mut lengths = vec![0, 3, 4, random.below(right), right + random.below(500)];
    lengths.extend(right - 4..right + 5);
    let mut written = vec![0; right];
    second::write_checkpoint(table, &mut written);
    for length in lengths {
        let (answer, checkpoint) = both::write(table, length, random)?;
        tally.written(answer);
        let due = if length < right { 73 } else { 0 };
        if answer != due || answer == 0 && checkpoint != written {
            return Err(format!("buffer {length}: both {answer}, {due} due with {right} bytes"));
        }
    }
    Ok(written)
}

/// 1 whatever the buffer.
fn broken(table: &Table, right: usize, random: &mut Random, tally: &mut Tally) -> Result<(), String> {
    let all: Vec<_> = breaks::all().collect();
    let (name, change) = **random.pick(&all);
    let mut table = *table;
    if table.listed == 0 || !change(&mut table, random) {
        return Ok(());
    }
    for length in [0, right - 1, right, right + 100] {
        let (answer, _) = both::write(&table, length, random).map_err(|what| format!("broken ({name}): {what}"))?;
        tally.written(answer);
        if answer != 1 {
            return Err(format!("broken ({name}), buffer {length}: both {answer}, 1 due"));
        }
    }
    Ok(())
}

/// A table written and read under its own roster: 0, none dropped, the same table with its places closed up.
pub fn again(table: &Table, roster: &[u8]) -> Result<(), String> {
    let (answer, checkpoint) = both::write(table, right_length(table), &mut Random::new(0))?;
    if answer != 0 {
        return Err(format!("writing: both {answer}, 0 due"));
    }
    for salvages in [false, true] {
        let read = both::read(salvages, roster, &checkpoint)?;
        let what = format!("round trip: both {}, dropped {:?}", read.answer, read.dropped);
        if (read.answer, read.dropped) != (0, (0, 0)) {
            return Err(what);
        }
        same_tables(&read.table, &closed_up(table)).map_err(|error| format!("{what}; {error}, second being due"))?;
    }
    Ok(())
}

/// The table as it has to come back: own identifiers from 1, the time at the latest refresh, no MESSAGE_ID kept (A8),
/// taken places first.
fn closed_up(table: &Table) -> Table {
    let mut table = *table;
    table.next = 1;
    table.time = table.calls.iter().map(|call| call.refreshed).max().unwrap_or(0);
    for call in &mut table.calls {
        call.places.sort_by_key(|place| !is_taken(place));
    }
    for customer in &mut table.customers {
        set_kept(customer, None);
        let mut both: Vec<_> = customer.places.into_iter().zip(customer.endpoints).collect();
        both.sort_by_key(|(place, _)| !is_taken(place));
        for (at, (place, endpoint)) in both.into_iter().enumerate() {
            (customer.places[at], customer.endpoints[at]) = (place, endpoint);
        }
    }
    table
}
